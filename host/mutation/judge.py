"""Judges an edit as the gate does: by the prover, by a program's run, and by the gate's host tests of the program.

The kit's contracts cannot say what a program reads and writes, so its decisions are proved and its
reading and writing are tested. Edits are made in a copy of the repository, which a process has for
itself and outside it, since the gate takes a source file nowhere but in the crates. Results are kept
under target/mutation, in a file for each edit, so that two processes over different crates do not meet.
"""
import contextlib
import functools
import hashlib
import re
import shutil
import subprocess
import sys
import tempfile
from collections import namedtuple
from pathlib import Path

ROOT = Path(__file__).resolve().parents[2]
WORK = ROOT / "target" / "mutation"
BUILT = "host/checker/target/release"
PROVED = ("src", "specs", "proofs")
RUN_ON = ("stdin", "stdout", "args", "status", "data")
TESTED = "rolecheck"

# Where the prover refuses, the kind is `fact`, `step` or `unfit`; README.md says what each is.
Outcome = namedtuple("Outcome", "result place kind", defaults=["", ""])

# How the checker says that a proof does not fit the function's shape any more: a goal, a field or an argument
# is missing, or is another.
UNFIT = re.compile(
    r"has no `[^`]*` that can be named from here"
    r"|\bhas no field `"
    r"|\bis not in scope\b"
    r"|this pattern needs a function"
    r"|this λ is checked against `[^`]*`, which is not a function")

# How it says that a step of a proof does not apply or gives up, which leaves open whether the fact holds.
STEP = re.compile(
    r"`rw`: no occurrence of the path's"
    r"|`simp`: no equation of the list"
    r"|(?:met|stopped at) a bound of its own"
    r"|gave up at one of its limits"
    r"|Not every way was tried|It stopped (?:after|when|\d+ lemmas deep)"
    r"|step limit")

# How it says that it has values at which the fact fails, while all holds that is known there.
FAILS = re.compile(
    r"the facts known there allow values at which this goal is false"
    r"|\bholds?, and (?:the goal|the part|it) fails")

# How it says that something is left unchecked because of an earlier error.
CONSEQUENCE = re.compile(r"\d declarations? that depends? on ")

# How it says that a crate is not proved, that a program's run went wrong, and that a goal without an answer is left open.
NOT_PROVED = re.compile(r"^logic=not-proved", re.M)
RUN = re.compile(r"^rt: FAILED: .*\(run\)", re.M)
OPEN = re.compile(r"^note: \S+:\d+:\d+: it is not proved that .*", re.M)

# Edits after which a function has fewer goals and facts. Names of these count, as `passes-2` does, so an error may
# be at another than the one that was meant where a name is missing.
FEWER = ("test left out", "call left out")


def said_by(words, folder):
    """A command's exit status and what it said."""
    done = subprocess.run(words, cwd=folder, stdin=subprocess.DEVNULL, stdout=subprocess.PIPE, stderr=subprocess.STDOUT,
                          text=True, errors="replace", check=False)
    return done.returncode, done.stdout


def dependencies(crate):
    """What crates.txt says that a crate depends on."""
    for line in (ROOT / "crates.txt").read_text().splitlines():
        name, _, rest = line.partition(":")
        if name.split()[:1] == [crate]:
            return rest.split()
    raise ValueError(f"crates.txt does not list {crate}")


def below(crate):
    """The repository's crates below a crate."""
    found = set()
    for d in dependencies(crate):
        if (ROOT / "crates" / d).is_dir():
            found |= {d, *below(d)}
    return sorted(found)


def programs(crate):
    """The programs that are the crate or stand on it, which the gate runs."""
    found = sorted(path.parts[-3] for path in ROOT.glob("crates/*/src/main.rt"))
    return [name for name in found if crate in (name, *below(name))]


@functools.cache
def room():
    """A folder outside the repository, which goes when the process ends."""
    return tempfile.TemporaryDirectory(prefix="mutation-")


@functools.cache
def repository():
    """A copy of what the prover reads of the repository, in which rt keeps its work, and of what builds a program."""
    top = Path(room().name) / "repository"
    for own in sorted((ROOT / "crates").iterdir()):
        for part in PROVED + RUN_ON:
            if (own / part).is_dir():
                shutil.copytree(own / part, top / "crates" / own.name / part)
            elif (own / part).exists():
                shutil.copy(own / part, top / "crates" / own.name)
    for name in ("crates.txt", "HANDLES", "host/build"):
        if (ROOT / name).exists():
            (top / name).parent.mkdir(exist_ok=True)
            shutil.copy(ROOT / name, top / name)
    return top


@contextlib.contextmanager
def edited(m):
    """Makes an edit in the copy of the repository, and takes it back."""
    path = repository() / m.path
    before = path.read_text()
    path.write_text(m.text)
    try:
        yield
    finally:
        path.write_text(before)


def errors(said):
    """The checker's errors, each with its further lines, but for those that only follow from others."""
    found = re.findall(r"^\S+: error.*(?:\n  .*)*", said, re.M)
    return [" ".join(error.split()) for error in found if not CONSEQUENCE.search(error)]


def first_error(said):
    """A goal that is left open and is false at some values, else the first error, else the first goal that is left open."""
    goals = OPEN.findall(said)
    return ([goal for goal in goals if FAILS.search(goal)] + errors(said) + goals + [""])[0]


def place_of(said):
    """Where the first error stands."""
    found = re.match(r"(?:note: )?(?:\./)?(\S+:\d+:\d+):", first_error(said))
    return found[1] if found else ""


def kind_of(said, operator):
    """What the first error is at: a fact that does not hold, a step that does not apply, or a place that does not fit."""
    found = first_error(said)
    shifted = operator in FEWER and any(UNFIT.search(error) for error in errors(said))
    if not found.startswith("note: ") and ("proofs/" not in found.split(":")[0] or UNFIT.search(found) or shifted):
        return "unfit"
    return "step" if STEP.search(found) and not FAILS.search(found) else "fact"


def outcome(crate):
    """What `rt check` says of the crate in the copy, over the work that it keeps there."""
    status, said = said_by(["rt", "check"], repository() / "crates" / crate)
    if status == 0:
        return Outcome("survived"), said
    if status == 1 and NOT_PROVED.search(said):
        return Outcome("refused", place_of(said)), said
    return Outcome("no mutant" if status in (1, 2) else "not told", place_of(said)), said


@functools.cache
def build_checker():
    """Builds the second checker, against which `rolecheck` is tested."""
    words = ["cargo", "build", "--release", "--offline", "--quiet", "--manifest-path", "host/checker/Cargo.toml"]
    if said_by(words, ROOT)[0] != 0:
        sys.exit("host/checker does not build")


def host_tests(program):
    """The commands of the gate that test a built `rolecheck`."""
    build_checker()
    return [["host/cases/run", str(program), f"{BUILT}/second-checker"],
            [f"{BUILT}/differential", str(program), "3000", "1"]]


def tests_of(program):
    """What the gate's host tests say of a built program, and the name of the first that refuses it."""
    text = ""
    for words in host_tests(program):
        status, said = said_by(words, ROOT)
        text += said
        if status != 0:
            return Outcome("refused by the gate's tests", words[0].removeprefix(f"{BUILT}/")), text
    return Outcome("survived"), text


@functools.cache
def warm(crate):
    """Proves the crate unedited in the copy, so that rt keeps its work there, and tests the unedited program."""
    if outcome(crate)[0].result != "survived":
        sys.exit(f"{crate} is not proved before any edit")
    if TESTED in programs(crate):
        test_before()


@functools.cache
def test_before():
    """Tests the unedited program."""
    if tests_in(ROOT)[0].result != "survived":
        sys.exit(f"{TESTED} does not pass the gate's tests before any edit")


def tests_in(top):
    """Builds the program in a copy of the repository, and tests it."""
    status, said = said_by(["host/build", TESTED], top)
    return tests_of(top / "target" / "bin" / TESTED) if status == 0 else (Outcome("not told"), said)


def of_the_gate(m):
    """What the gate says of an edit that is proved: the crate from nothing, the programs' runs, held to their files stdout, and the host tests."""
    said_by(["rt", "fmt"], repository() / "crates" / m.crate)
    names = programs(m.crate)
    status, said = said_by(["rt", "ci", *dict.fromkeys([m.crate, *names])], repository())
    if status == 0:
        return tests_in(repository()) if TESTED in names else (Outcome("survived"), said)
    if RUN.search(said):
        return Outcome("refused by its run"), said
    if NOT_PROVED.search(said):
        return Outcome("refused", place_of(said)), said
    return Outcome("not told"), said


def tried(m):
    """The outcome of a mutant, and the log of its check."""
    warm(m.crate)
    with edited(m):
        found, said = outcome(m.crate)
        return of_the_gate(m) if found.result == "survived" else (found, said)


@functools.cache
def version():
    """The kit that judges."""
    return said_by(["rt", "version"], ROOT)[1].strip()


def judged_by(crate):
    """The files that bear on the outcome of a crate's mutants: its own, what it stands on, and the programs' runs and tests."""
    tops = [crate, *programs(crate)]
    crates = sorted({name for top in tops for name in (top, *below(top))})
    folders = [ROOT / "crates" / name / part for name in crates for part in PROVED + RUN_ON]
    folders += [ROOT / "host" / part for part in ("cases", "checker/src")]
    for folder in folders:
        yield from sorted(path for path in [folder, *folder.rglob("*")] if path.is_file())


def key_of(m):
    """A name for the mutant's check: its text, and what judges it."""
    total = hashlib.sha256(m.text.encode())
    total.update(f"{m.path} {version()}".encode())
    for path in judged_by(m.crate):
        total.update(path.read_bytes())
    return total.hexdigest()[:32]


def result_of(m):
    """The outcome of a mutant, from an earlier run where there is one."""
    kept = WORK / "results" / key_of(m)
    kept.parent.mkdir(parents=True, exist_ok=True)
    if not kept.exists():
        found, said = tried(m)
        kept.with_suffix(".log").write_text(said)
        kept.write_text(f"{found.result}\n{found.place}\n")
    result, place = kept.read_text().split("\n")[:2]
    said = kept.with_suffix(".log").read_text()
    return Outcome(result, place, kind_of(said, m.operator) if result == "refused" else "")
