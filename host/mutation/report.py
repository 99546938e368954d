"""Writes REPORT.md: what was tried, what the gate refused and at which step, and why each survivor survives."""
import sys

# The prover refuses; it proves, and the program writes something else than its file stdout; it does so in a host
# test of the gate; nothing refuses.
RESULTS = ["refused", "refused by its run", "refused by the gate's tests", "survived"]

READING = ("The kit's contracts cannot say what a program reads and writes, so its decisions are proved and its reading "
           "and writing are tested.\n\n")


def compiles(outcome):
    """Whether an edit compiles, and something is told of it."""
    return outcome.result in RESULTS


def at_fact(outcome):
    """Whether the prover refuses, and at a fact."""
    return outcome.kind == "fact"


def remarks(path):
    """The remarks on survivors, by file, function, old and new line."""
    found, entry = {}, {}
    for line in path.read_text().splitlines() if path.exists() else []:
        word, _, rest = line.partition(": ")
        if word in ("file", "function", "old", "new"):
            entry[word] = rest
        elif word == "why":
            found[entry["file"], entry["function"], entry["old"], entry["new"]] = rest
    return found


def cell(text):
    """A word of code in a table."""
    return "`" + text.replace("|", "\\|") + "`"


def row(*cells):
    return "| " + " | ".join(str(c) for c in cells) + " |\n"


def table(*heads):
    return row(*heads) + row(*("---" for _ in heads))


def those(done, result):
    return {m: o for m, o in done.items() if o.result == result}


def counts(done):
    return [len(those(done, result)) for result in RESULTS]


def by_crate(order, drawn, done):
    """The table of counts."""
    text = table("crate", "sites", "drawn", "tried", *RESULTS)
    for crate, found in order.items():
        mine = {m: o for m, o in done.items() if m.crate == crate}
        text += row(crate, len(found), sum(1 for m in mine if m in drawn), len(mine), *counts(mine))
    by_chance = sum(1 for m in done if m in drawn)
    return text + row("all", sum(map(len, order.values())), by_chance, len(done), *counts(done))


def whole_files(whole, tried):
    """A line for each file of which every site was to be tried."""
    text = ""
    for name, found in whole.items():
        results = [tried[m].result for m in found if m in tried]
        each = f"all {len(found)}" if len(results) == len(found) else f"{len(results)} of {len(found)}"
        text += f"- `{name}`: {each} sites were tried. Edits that compile: {len(results) - results.count('no mutant')}; "
        text += f"of these without a verdict, since the prover could not tell: {results.count('not told')}.\n"
    return text


def name_of(place):
    """A public function's crate, and its name with its module."""
    path, function = place
    _, crate, _, file = path.split("/")
    module = file.removesuffix(".rt")
    return crate, function if module == "lib" else f"{module}::{function}"


def figures(found, done):
    """Of a function: its sites, its edits that were tried and compile, and those refused at a fact."""
    mine = [done[m] for m in found if m in done]
    return len(found), len(mine), sum(map(at_fact, mine))


def below(public, done, wanted):
    """The public functions of which fewer edits were refused at a fact, in words."""
    text = ""
    for place, found in public.items():
        sites, compiled, facts = figures(found, done)
        if facts < wanted:
            name = "::".join(name_of(place))
            text += f"- `{name}`: sites: {sites}; edits that compile: {compiled}; refused at a fact: {facts}.\n"
    return text or "None.\n"


def public_functions(public, done, wanted):
    """The table of public functions, after those with too few."""
    public = dict(sorted(public.items(), key=lambda pair: name_of(pair[0])))
    text = f"Fewer than {wanted} edits of these were refused at a fact:\n\n" + below(public, done, wanted) + "\n"
    text += table("crate", "function", "sites", "edits tried", "refused at a fact")
    for place, found in public.items():
        text += row(*name_of(place), *figures(found, done))
    return text


def told(done, known=None):
    """The mutants one by one, with their remarks where `known` has them, or the test that refuses them."""
    text = ""
    for m, o in done.items():
        why = f" {o.place}." if o.place else ""
        if known is not None:
            why = " " + known.get((m.path, m.function, m.old, m.new), "OPEN: no remark yet")
        text += f"- `{m.path}:{m.line}`, `{m.function}`, {m.operator}: `{m.old}` → `{m.new}`.{why}\n"
    return text or "None.\n"


def all_tried(done):
    """The table of all mutants that were tried."""
    text = table("crate", "place", "operator", "old → new", "result", "first error", "kind")
    for m, o in done.items():
        place = m.path.removeprefix(f"crates/{m.crate}/src/") + f":{m.line}"
        text += row(m.crate, place, m.operator, f"{cell(m.old)} → {cell(m.new)}", o.result, o.place, o.kind)
    return text


def summary(words, kit, order, drawn, done):
    """The report's first lines."""
    refused, run, tests, left = counts(done)
    by_chance = sum(1 for m in done if m in drawn)
    text = f"# Mutation of the product\n\n`make mutation MUTANTS={words.mutants} SEED={words.seed} PUBLIC={words.public} "
    text += f"EVERY={','.join(words.every)}` wrote this with the kit `{kit}`; README.md says how. Of {sum(map(len, order.values()))} sites "
    text += f"{by_chance} were drawn by chance, and {len(done) - by_chance} more were tried for the public functions and the "
    text += f"files of which every site was tried. The prover refuses {refused} of these {len(done)} edits, "
    text += f"{sum(map(at_fact, done.values()))} of them at a fact, a program's run {run} more, and the gate's tests of a "
    text += f"program {tests} more. {left} survive.\n\n"
    return text + by_crate(order, drawn, done)


def write(folder, words, kit, order, drawn, tried, whole, public):
    """Writes the report into the folder."""
    place = lambda m: (list(order).index(m.crate), m.path, m.line)
    done = {m: tried[m] for m in sorted(tried, key=place) if compiles(tried[m])}
    text = summary(words, kit, order, drawn, done)
    text += "\n## Survivors\n\n" + told(those(done, "survived"), remarks(folder / "equivalent.txt"))
    if whole:
        text += "\n## Files of which every site was tried\n\n" + whole_files(whole, tried)
    if words.public:
        text += "\n## Public functions\n\n" + public_functions(public, done, words.public)
    text += "\n## Refused by a program's run\n\n" + READING + told(those(done, "refused by its run"))
    text += "\n## Refused by the gate's tests of a program\n\n" + told(those(done, "refused by the gate's tests"))
    text += "\n## All that were tried\n\n" + all_tried(done)
    (folder / "REPORT.md").write_text(text)
    print(", ".join(f"{n} {result}" for n, result in zip(counts(done), RESULTS)), file=sys.stderr)
