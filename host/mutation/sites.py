"""Finds the places of a Rattle file where a small edit may be made."""
import re
from collections import namedtuple

# An edit: the text from `start` to `end` of the file becomes `new`.
Site = namedtuple("Site", "operator start end new")

NUMBER = re.compile(r"(?<![\w.'])(\d+)(u8|u64|usize)?(?!\w)")
LETTER = re.compile(r"b'([A-Z])'")
TRUTH = re.compile(r"\b(true|false)\b")
RETURNED = re.compile(r"\breturn (\d+);|\brefused\((\d+),")
TEST = re.compile(r"\bif (?!let\b)([^{}]*?) \{")
EQUALITY = re.compile(r"[^&|]* [!=]= [^&|]*", re.S)
REFUSAL = re.compile(r"\bif [^{}]*? \{\s*return\b[^{};]*;\s*\}(?! else)")
BLOCK = re.compile(r"\bif ([^{}]*?) \{(?!\s*return\b)[^{}]*\}(?! else)")
CALL = re.compile(r"\b[\w:]+\(")
PUBLIC = re.compile(r'^pub (?:extern "C" )?fn (\w+)', re.M)
MODULE = re.compile(r"^pub mod (\w+);", re.M)
STATEMENT = re.compile(r"^ +(?!return\b)[\w:]+\([^{};]*\);$", re.M)

# Binary operators stand between spaces: a borrow and a dereference do not.
SWAPS = [
    ("bound", "<", "<="), ("bound", "<=", "<"),
    ("equality", "==", "!="), ("equality", "!=", "=="),
    ("sum", "+", "-"), ("sum", "-", "+"),
    ("product", "*", "+"), ("product", "/", "%"), ("product", "%", "/"),
    ("bits", "&", "|"), ("bits", "|", "&"), ("bits", "^", "|"),
]


def closing(text, start):
    """The place after the bracket that closes the one at `start`."""
    depth = 0
    for i in range(start, len(text)):
        if text[i] in "([{":
            depth += 1
        elif text[i] in ")]}":
            depth -= 1
            if depth == 0:
                return i + 1
    raise ValueError("a bracket is left open")


def blanked(text, start, end):
    """The text with blanks, and the same lines, from `start` to `end`."""
    return text[:start] + re.sub(r"[^\n]", " ", text[start:end]) + text[end:]


def without_ghosts(text):
    """The text with comments, attributes, ghost lines and contracts blanked."""
    for found in re.finditer(r"//.*|^ *#\[.*|^ *ghost .*", text, re.M):
        text = blanked(text, found.start(), found.end())
    for found in re.finditer(r"\b(?:requires|ensures) (?:\w+ )?\{", text):
        text = blanked(text, found.start(), closing(text, found.end() - 1))
    return text


def bodies(text):
    """The text with all blanked but the bodies of functions."""
    text = without_ghosts(text)
    kept, at = "", 0
    for found in re.finditer(r"\bfn \w+", text):
        if found.start() < at:
            continue
        start = text.index("{", found.end())
        end = closing(text, start)
        kept += blanked(text[at:start], 0, start - at) + text[start:end]
        at = end
    return kept + blanked(text[at:], 0, len(text) - at)


def numbers(code):
    """Each number one more and one less."""
    for found in NUMBER.finditer(code):
        n, kind = int(found[1]), found[2] or ""
        yield Site("number + 1", found.start(), found.end(), f"{n + 1}{kind}")
        if 0 < n:
            yield Site("number - 1", found.start(), found.end(), f"{n - 1}{kind}")
    for found in LETTER.finditer(code):
        yield Site("number + 1", found.start(), found.end(), f"b'{chr(ord(found[1]) + 1)}'")
        yield Site("number - 1", found.start(), found.end(), f"b'{chr(ord(found[1]) - 1)}'")


def swaps(code):
    """Each binary operator for its other."""
    for operator, old, new in SWAPS:
        for found in re.finditer(f"(?<= ){re.escape(old)}(?= )", code):
            yield Site(operator, found.start(), found.end(), new)


def answers(code):
    """A refusal's number made 0, and a truth value turned."""
    for found in RETURNED.finditer(code):
        group = 1 if found[1] else 2
        if found[group] != "0":
            yield Site("answer", found.start(group), found.end(group), "0")
    for found in TRUTH.finditer(code):
        yield Site("answer", found.start(), found.end(), "false" if found[1] == "true" else "true")


def tests(code):
    """Each test turned; each `if` with a lone return left out; other tests made always true."""
    for found in TEST.finditer(code):
        test = found[1]
        if EQUALITY.fullmatch(test):
            continue  # turned by its operator
        turned = test[1:] if re.fullmatch(r"![\w:]+(\(.*\))?", test, re.S) else f"!({test})"
        yield Site("test turned", found.start(1), found.end(1), turned)
    for found in REFUSAL.finditer(code):
        yield Site("test left out", found.start(), found.end(), re.sub(r"[^\n]", "", found[0]))
    for found in BLOCK.finditer(code):
        yield Site("test left out", found.start(1), found.end(1), "true")


def arguments(code, start, end):
    """The spans of the arguments of a call whose brackets stand at `start` and before `end`."""
    spans, first, i = [], start + 1, start + 1
    while i < end - 1:
        if code[i] in "([{":
            i = closing(code, i)
            continue
        if code[i] == ",":
            spans.append((first, i))
            first = i + 1
        i += 1
    spans.append((first, end - 1))
    trimmed = []
    for a, b in spans:
        word = code[a:b]
        if word.strip():
            a += len(word) - len(word.lstrip())
            trimmed.append((a, a + len(word.strip())))
    return trimmed


def shape(word):
    """What an argument looks like: its names and numbers are all one."""
    return re.sub(r"\w+", "x", word)


def exchanges(code):
    """Two neighbouring arguments of a call that look alike, exchanged."""
    for found in CALL.finditer(code):
        start = found.end() - 1
        spans = arguments(code, start, closing(code, start))
        for (a, b), (c, d) in zip(spans, spans[1:]):
            if shape(code[a:b]) == shape(code[c:d]) and code[a:b] != code[c:d]:
                yield Site("arguments", a, d, code[c:d] + code[b:c] + code[a:b])


def omissions(code):
    """A call that stands as a statement, left out."""
    for found in STATEMENT.finditer(code):
        yield Site("call left out", found.start(), found.end(), re.sub(r"[^\n]", "", found[0]))


def sites(text):
    """All sites of a file, in order."""
    code = bodies(text)
    found = {}
    for finder in (numbers, swaps, answers, tests, exchanges, omissions):
        for site in finder(code):
            found.setdefault((site.start, site.end, site.new), site)
    return [found[place] for place in sorted(found)]


def public_modules(text):
    """The modules that a library's root makes public."""
    return MODULE.findall(text)


def public_functions(text):
    """The public functions of a file, exported ones included."""
    return PUBLIC.findall(text)


def code_lines(text):
    """How many lines of function bodies a file has."""
    return sum(1 for line in bodies(text).splitlines() if line.strip())
