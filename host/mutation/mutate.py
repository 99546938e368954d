"""Applies small edits to the crates' code and reports which of them the gate refuses.

usage: mutate.py [--mutants N] [--seed S] [--public N] [--every FILE,FILE] [--minutes M] [--crates A,B]

Edits are drawn with a fixed seed, so many of each crate as it has code. One that does not compile is
drawn again. Beside the draw, --every tries all edits of these files, and --public further ones of each
public function, until the prover refuses so many of them at a fact. judge.py says how an edit is judged.
Results are kept under target/mutation, so that a run that was ended goes on, and one with a new
remark in equivalent.txt only writes the report. With --crates only these crates' part of the run is
made, and no report is written.
"""
import argparse
import random
import re
import sys
import time
from collections import namedtuple
from pathlib import Path

import report
from judge import ROOT, result_of, said_by, version
from sites import code_lines, public_functions, public_modules, sites

CRATES = ["search", "number", "roleset", "order", "rolefile", "policy", "monitor", "monitor_c", "text", "rolecheck"]

Mutant = namedtuple("Mutant", "crate path line function operator old new text")


def source_files(crate):
    return sorted((ROOT / "crates" / crate / "src").glob("*.rt"))


def shown(text, start, end):
    """The lines around a place, on one line."""
    first = text.rfind("\n", 0, start) + 1
    last = text.find("\n", end)
    return " ".join(text[first:last].split())


def mutant(crate, path, text, site):
    """The mutant that an edit of a file makes."""
    edited = text[:site.start] + site.new + text[site.end:]
    old = shown(text, site.start, site.end)
    new = shown(edited, site.start, site.start + len(site.new)) or "(nothing)"
    line = text.count("\n", 0, site.start) + 1
    function = re.findall(r"\bfn (\w+)", text[:site.start])[-1]
    name = str(path.relative_to(ROOT))
    return Mutant(crate, name, line, function, site.operator, old, new, edited)


def mutants_of(crate):
    """All mutants of a crate."""
    found = []
    for path in source_files(crate):
        text = path.read_text()
        found += [mutant(crate, path, text, site) for site in sites(text)]
    return found


def drawn_order(found, seed, crate):
    """A crate's mutants in the order of drawing: the operators take turns, each in chance's order."""
    chance = random.Random(f"{seed} {crate}")
    piles = {}
    for m in found:
        piles.setdefault(m.operator, []).append(m)
    names = sorted(piles)
    chance.shuffle(names)
    for name in names:
        chance.shuffle(piles[name])
    while any(piles.values()):
        for name in names:
            if piles[name]:
                yield piles[name].pop()


def shares(total, crates):
    """How many mutants each crate gets: in proportion to its code, and the largest remainders up."""
    lines = {c: sum(code_lines(p.read_text()) for p in source_files(c)) for c in crates}
    whole = sum(lines.values())
    share = {c: total * lines[c] // whole for c in crates}
    rest = sorted(crates, key=lambda c: -(total * lines[c] % whole))
    for c in rest[:total - sum(share.values())]:
        share[c] += 1
    return share


def turns(share):
    """The crates in the order in which they are drawn from, each spread over the whole run."""
    slots = [((k + 1) / n, c) for c, n in share.items() for k in range(n)]
    return [c for _, c in sorted(slots)]


def attempt(m):
    """The outcome of a mutant, which is told on a line."""
    began = time.time()
    found = result_of(m)
    took = time.time() - began
    print(f"{found.result}: {m.path}:{m.line} {m.operator}: {m.old} -> {m.new} ({took:.0f} s)", flush=True)
    return found


def draw(order, share, deadline):
    """Tries mutants in each crate's order until its share of them compiles, and gives all with their outcomes."""
    rest = {c: iter(order[c]) for c in order}
    done = {}
    for crate in turns({c: share[c] for c in order}):
        for m in rest[crate]:
            if deadline < time.time():
                return done
            done[m] = attempt(m)
            if report.compiles(done[m]):
                break
    return done


def try_all(found, done, deadline):
    """Tries each mutant that was not tried yet."""
    for m in found:
        if m not in done and time.time() < deadline:
            done[m] = attempt(m)


def public_of(crate):
    """The functions of a library that other code can call, each as its file and its name."""
    root = ROOT / "crates" / crate / "src" / "lib.rt"
    if not root.exists():
        return []
    files = [root] + [root.with_name(f"{name}.rt") for name in public_modules(root.read_text())]
    return [(str(path.relative_to(ROOT)), name) for path in files for name in public_functions(path.read_text())]


def try_public(found, wanted, done, deadline):
    """Tries a function's mutants until so many are refused at a fact."""
    for m in found:
        if wanted <= sum(1 for k in found if k in done and report.at_fact(done[k])):
            return
        try_all([m], done, deadline)


def of_public(order):
    """The mutants of each public function, in the order of drawing."""
    return {place: [m for m in found if (m.path, m.function) == place]
            for crate, found in order.items() for place in public_of(crate)}


def of_files(order, files):
    """The mutants of each of these files."""
    return {name: [m for found in order.values() for m in found if m.path == name] for name in files}


def listed(text):
    return [word for word in text.split(",") if word]


def asked():
    """What the command's words ask for."""
    words = argparse.ArgumentParser()
    words.add_argument("--mutants", type=int, default=80)
    words.add_argument("--seed", type=int, default=1)
    words.add_argument("--public", type=int, default=0, help="edits of each public function to be refused at a fact")
    words.add_argument("--every", type=listed, default=[], help="files of which every edit is tried")
    words.add_argument("--minutes", type=float, default=240, help="try no more after so long")
    words.add_argument("--crates", type=listed, default=[], help="try their part alone, and write no report")
    words = words.parse_args()
    for name in words.every:
        if not (ROOT / name).is_file():
            sys.exit(f"there is no file {name}")
    return words


def prove(crates):
    """Proves the crates, and so those that they stand on."""
    for crate in crates:
        if said_by(["rt", "check"], ROOT / "crates" / crate)[0] != 0:
            sys.exit(f"{crate} is not proved")


def main():
    words = asked()
    crates = words.crates or CRATES
    prove(crates)
    deadline = time.time() + 60 * words.minutes
    order = {c: list(drawn_order(mutants_of(c), words.seed, c)) for c in crates}
    drawn = draw(order, shares(words.mutants, CRATES), deadline)
    done = dict(drawn)
    whole, public = of_files(order, words.every), of_public(order)
    for found in whole.values():
        try_all(found, done, deadline)
    for found in public.values():
        try_public(found, words.public, done, deadline)
    if not words.crates:
        report.write(Path(__file__).parent, words, version(), order, drawn, done, whole, public)


if __name__ == "__main__":
    main()
