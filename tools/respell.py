#!/usr/bin/env python3
"""Brings the names that this repository defines in specs/ and proofs/ to snake case.

usage: python3 tools/respell.py [--docs]     at the top of the repository, once, after the kit's port.py

A definition, lemma, field or constructor that begins with a small letter is written in snake case:
nextMember and next-member become next_member. Types keep their capitals. Names that the kit makes
(invariant-loop, returns-2, byte_of-requires) and names that a file imports from the kit stay.
With --docs the names in backticks of README.md and docs/*.md follow, and nothing else is touched.
What falls together, and what is already there under a new name, is printed.
"""

import collections
import os
import re
import sys

WORD = r"[^\W\d][\w'₀-₉′-]*"
TOKEN = re.compile(r"(?<![\w'-])" + WORD)
MADE = re.compile(r"^(invariant|decreases|returns|overflow|bounds|slice_bounds|nonzero|offset)[-_]|^returns$|-(init|preserved|smaller)$|-requires(-\d+)?$")


def snake(name):
    """The name with its capitals and dashes as underscores; a dash before a number or at an end stays apart."""
    name = re.sub(r"(?<=[a-z0-9₀-₉])([A-Z])", lambda m: "_" + m.group(1).lower(), name)
    return name.replace("-", "_")


def texts(root, endings=(".antt", ".rt", ".edit")):
    for folder, dirs, files in os.walk(os.path.join(root, "crates")):
        dirs[:] = sorted(d for d in dirs if d != "out")
        for f in sorted(files):
            if f.endswith(endings):
                yield os.path.join(folder, f)


def in_function(path):
    """Whether the file is of the proof of one function, whose names nobody else cites."""
    return bool(re.search(r"/proofs/.*/(Proof|Answers|Invariants)\.antt$", path))


def own_names(root):
    found = collections.defaultdict(set)
    for path in texts(root, (".antt",)):
        text = open(path, encoding="utf-8").read()
        for m in re.finditer(r"(?m)^(?:(?:pub|abbrev|unfoldable)\s+)*(" + WORD + r") : ", text):
            if in_function(path) and MADE.search(m.group(1)):
                continue
            found[m.group(1)].add(path)
        for m in re.finditer(r"(?m)^\s+(?:pub )?(" + WORD + r") : ", text):
            found[m.group(1)].add(path)
    return found


def imported(text):
    """The names that the file has from the kit."""
    names = set()
    for m in re.finditer(r"(?m)^(?:ghost )?use (Prim|mathlib|native|lib|borrow|logic|Rattle\.std|Rattle\.core)\b[^{;\n]*\{([^}]*)\}", text):
        for part in m.group(2).split(","):
            names.update(part.split())
    return names


# what the kit's own words are called in the files that cite the lemma of the same name beside them
KIT_WORDS = {"bit_and", "bit_or", "bit_xor"}


def mapping(root):
    """Each name and its new one. Where a lemma would get its definition's name, it gets that with _lem."""
    old = own_names(root)
    to = {n: snake(n) for n in old if not n[0].isupper() and snake(n) != n}
    back = collections.defaultdict(list)
    for n, new in to.items():
        back[new].append(n)
    for new, group in sorted(back.items()):
        camel = [n for n in group if "-" not in n]
        if len(group) == 1 and new not in old and new not in KIT_WORDS:
            continue
        lemmas = [n for n in group if "-" in n]
        if camel and new in old:
            lemmas.append(new)
        for n in lemmas:
            to[n] = new + "_lem"
        print("together:", new, "of", ", ".join(sorted(group)), "->", ", ".join(f"{n} {to[n]}" for n in lemmas))
        if len(lemmas) != 1 or new + "_lem" in old:
            sys.exit("more than a lemma and its definition: " + new)
    return to


def respell(text, to, kept):
    def one(m):
        w = m.group(0)
        return w if w in kept else to.get(w, w)

    return TOKEN.sub(one, text)


def has(text, name):
    """Whether the file defines the name or imports it."""
    w = re.escape(name)
    return bool(re.search(r"(?m)^(?:pub )?" + w + r" : |^use [^{\n]*\{(?:[^}]*\s|)" + w + r"[,}\s]", text))


def crates(root, to):
    for path in texts(root):
        text = open(path, encoding="utf-8").read()
        kept = imported(text)
        # a name in snake case may be the code's as well
        kept |= {n for n in to if "-" not in n and n.islower() and not (path.endswith(".antt") and has(text, n))}
        clash = kept & {to[m.group(0)] for m in TOKEN.finditer(text) if m.group(0) in to and m.group(0) not in kept}
        if clash:
            print("beside the kit's:", path, ", ".join(sorted(clash)))
        if path.endswith(".rt"):
            # the code's own names have no capitals or dashes in them; strings stay
            parts = re.split(r'("(?:[^"\\\n]|\\.)*")', text)
            new = "".join(p if i % 2 else respell(p, to, kept) for i, p in enumerate(parts))
        else:
            new = respell(text, to, kept)
        if new != text:
            open(path, "w", encoding="utf-8").write(new)


def pages(root):
    """Backticked names of the pages; the names are those that stand now, so any spelling of them goes to theirs."""
    there = {n for n in own_names(root)}
    docs = os.path.join(root, "docs")
    for path in [os.path.join(root, "README.md")] + [os.path.join(docs, f) for f in sorted(os.listdir(docs)) if f.endswith(".md")]:
        text = open(path, encoding="utf-8").read()

        def one(m):
            w = m.group(0)
            return snake(w) if w not in there and not w[0].isupper() and snake(w) in there else w

        new = re.sub(r"`[^`\n]*`", lambda m: TOKEN.sub(one, m.group(0)), text)
        if new != text:
            open(path, "w", encoding="utf-8").write(new)


if __name__ == "__main__":
    top = os.path.dirname(os.path.dirname(os.path.realpath(__file__)))
    if len(sys.argv) > 2 and sys.argv[1] == "--at":
        top = sys.argv[2]
    if "--docs" in sys.argv:
        pages(top)
    else:
        crates(top, mapping(top))
