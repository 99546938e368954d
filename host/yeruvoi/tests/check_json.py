"""Reads what `yeruvoi check --json` printed, with Python's own parser, and holds
it to docs/JSON.md, to the file, and to the text.

    check_json.py FOLDER HEADER

FOLDER has for each NAME: NAME.role, NAME.json, NAME.text (of `check --all`), and
NAME.verdict, the number and place that another checker came to. NAME.legend is
there where names were asked for.
"""

import json
import re
import sys
from pathlib import Path


def once(pairs):
    """An object whose keys stand once."""
    assert len(dict(pairs)) == len(pairs), pairs
    return dict(pairs)


class File:
    def __init__(self, path):
        self.bytes = path.read_bytes()
        self.lines = [self.bytes[at:at + 21].decode("latin-1")
                      for at in range(0, len(self.bytes), 22)]
        legend = path.with_suffix(".legend")
        self.names = {}
        if legend.exists():
            for entry in legend.read_text(encoding="utf-8").splitlines():
                thing, name = entry.split(": ", 1)
                self.names[thing] = name

    def fields(self, number):
        columns = [self.lines[number - 1][at:at + 5].strip() for at in range(1, 21, 5)]
        return [int(field) for field in columns if field]

    def with_letter(self, letter):
        return [(number, self.fields(number))
                for number, line in enumerate(self.lines, 1) if line[0] == letter]

    def reach(self, letter, start):
        """Start and what the lines of a letter lead to from it."""
        found, waiting = {start}, [start]
        while waiting:
            thing = waiting.pop()
            for _, (first, second) in self.with_letter(letter):
                if first == thing and second not in found:
                    found.add(second)
                    waiting.append(second)
        return found


def keys(value, *names):
    assert list(value) == list(names), (list(value), names)


def thing(file, kind, value):
    name = file.names.get(f"{kind} {value['number']}")
    expected = {"number": value["number"]} | ({} if name is None else {"name": name})
    assert value == expected, (value, expected)
    return value["number"]


def line(file, value):
    number = value["number"]
    text = file.lines[number - 1]
    assert value == {"number": number, "text": text, "letter": text[0],
                     "fields": file.fields(number)}, value
    return number


def length(file, cause, _):
    keys(cause, "length", "more", "problem", "ending")
    assert cause["length"] == len(file.bytes) and cause["more"] is False
    assert isinstance(cause["problem"], str)
    ending = cause["ending"]
    if ending is None:
        return
    keys(ending, "line", "text", "newline", "reason")
    rest = file.bytes[22 * (ending["line"] - 1):][:63801]
    text, newline, _ = rest.partition(b"\n")
    assert ending["newline"] == (newline != b"")
    assert ending["text"] == text.decode("latin-1")
    assert len(text) != 21 or not newline


def form(file, cause, place):
    keys(cause, "line", "text", "column", "byte", "wanted")
    start = 22 * (cause["line"] - 1)
    assert cause["line"] == place[0]
    assert cause["text"] == file.bytes[start:start + 22].decode("latin-1")
    assert cause["byte"] == file.bytes[start + cause["column"] - 1]


def ranges(file, cause, place):
    keys(cause, "line", "fields")
    assert line(file, cause["line"]) == place[0] and cause["fields"]
    for field in cause["fields"]:
        keys(field, "field", "what", "value", "lowest", "highest")
        assert field["value"] == file.fields(place[0])[field["field"] - 1]
        assert not field["lowest"] <= field["value"] <= field["highest"]


def order(file, cause, place):
    keys(cause, "before", "line", "repeats")
    number = line(file, cause["line"])
    assert number == place[0] and line(file, cause["before"]) == number - 1
    same = [other for other in range(1, number) if file.lines[other - 1] == file.lines[number - 1]]
    assert cause["repeats"] == (same[-1] if same else None)


def labelling(file, cause, place):
    keys(cause, "things")
    told = []
    for value in cause["things"]:
        keys(value, "kind", "thing", "lines")
        told.append((value["kind"], thing(file, value["kind"], value["thing"]),
                     [line(file, one) for one in value["lines"]]))
    expected = []
    for kind, letter, field in ("user", "U", 2), ("card", "O", 3):
        for number in range(1, file.fields(1)[field] + 1):
            lines = [at for at, fields in file.with_letter(letter) if fields[0] == number]
            if len(lines) != 1:
                expected.append((kind, number, lines))
    assert told == expected
    assert told[0][:2] == (("user", "card")[place[0] - 1], place[1])


def circle(file, cause, place):
    keys(cause, "lines")
    pairs = [file.fields(line(file, value)) for value in cause["lines"]]
    assert pairs[0][0] == place[0]
    assert all(pairs[at - 1][1] == pair[0] for at, pair in enumerate(pairs))
    assert len({value["letter"] for value in cause["lines"]}) == 1


def bounds(file, cause, place):
    keys(cause, "rivals")
    over = [label for label in range(1, file.fields(1)[0] + 1)
            if set(place) <= file.reach("D", label)]
    rivals = [label for label in over if not set(over) - {label} & file.reach("D", label)]
    assert [thing(file, "label", value["label"]) for value in cause["rivals"]] == rivals
    for value in cause["rivals"]:
        keys(value, "label", "lines")
        for one in value["lines"]:
            line(file, one)


def assignments(file, cause, place):
    keys(cause, "assignments", "levels")
    clearances = dict(fields for _, fields in file.with_letter("U"))
    wanted = []
    for value in cause["assignments"]:
        keys(value, "line", "number", "user", "role", "mode", "clearance", "labels")
        user, role = thing(file, "user", value["user"]), thing(file, "role", value["role"])
        assert file.fields(line(file, value["line"])) == [user, role]
        assert thing(file, "label", value["clearance"]) == clearances[user]
        modes = {14: ["write"], 15: ["read"], 16: ["read", "write"]}[value["number"]]
        assert value["mode"] == modes[-1]
        odd = {thing(file, "label", label) for label in value["labels"]}
        assert odd == at_odds(file, value["number"], clearances[user], role)
        wanted += [(role, mode) for mode in modes]
    first = cause["assignments"][0]
    assert [first["user"]["number"], first["role"]["number"]] == place
    assert [level(file, value) for value in cause["levels"]] == list(dict.fromkeys(wanted))


def permissions(file, role, mode):
    """The lines P of a role and its juniors, by number, with their cards."""
    juniors = file.reach("S", role)
    return {number: fields[1] for number, fields in file.with_letter("P")
            if fields[0] in juniors and fields[2] == mode}


def labels_of(file, cards):
    labels = dict(fields for _, fields in file.with_letter("O"))
    return {labels[card] for card in cards}


def at_odds(file, number, clearance, role):
    read, written = (labels_of(file, permissions(file, role, mode).values()) for mode in (1, 2))
    if number == 15:
        return read - file.reach("D", clearance)
    if number == 14 or not read:
        return set()
    return {label for label in written if bound_of(file, read, 1) not in file.reach("D", label)}


def level(file, value):
    keys(value, "role", "mode", "level", "defined", "permissions", "seniority")
    role, mode = thing(file, "role", value["role"]), ("read", "write").index(value["mode"]) + 1
    labels = dict(fields for _, fields in file.with_letter("O"))
    expected = permissions(file, role, mode)
    told = {}
    for one in value["permissions"]:
        keys(one, "label", "card", "owner", "line")
        number = line(file, one["line"])
        told[number] = thing(file, "card", one["card"])
        assert [thing(file, "role", one["owner"]), told[number], mode] == file.fields(number)
        assert thing(file, "label", one["label"]) == labels[told[number]]
    assert told == expected and len(told) == len(value["permissions"])
    for one in value["seniority"]:
        assert line(file, one) and one["letter"] == "S"
    number = None if value["level"] is None else thing(file, "label", value["level"])
    bound = bound_of(file, labels_of(file, told.values()), mode) if told else None
    assert (number, value["defined"]) == (bound, bound is not None or not told), (number, bound)
    return role, value["mode"]


def bound_of(file, labels, mode):
    """The least label over all of these, or the greatest under all."""
    below = {label: file.reach("D", label) for label in range(1, file.fields(1)[0] + 1)}
    over = {label: {other for other in below if label in below[other]} for label in below}
    beyond, behind = (below, over) if mode == 1 else (over, below)
    bounds = {label for label in below if labels <= beyond[label]}
    nearest = [label for label in bounds if bounds <= behind[label]]
    return nearest[0] if nearest else None


CAUSES = {1: length, 2: form, 3: ranges, 4: ranges, 5: order, 6: labelling, 11: circle,
          12: bounds, 13: circle, 14: assignments, 15: assignments, 16: assignments}


def lines_of(value):
    """The numbers of the lines that a value quotes."""
    if isinstance(value, list):
        return {number for one in value for number in lines_of(one)}
    if not isinstance(value, dict):
        return set()
    own = {value["number"]} if "letter" in value else set()
    own |= {value["line"]} if isinstance(value.get("line"), int) else set()
    return own | {number for one in value.values() for number in lines_of(one)}


def words(header):
    """The sentence for each number, from the header."""
    function = header.read_text().split("*monitor_words(")[1].split("\n}")[0]
    cases = re.findall(r"case (\d+):\s*return((?:\s*\"[^\"]*\")+);", function)
    return {int(number): "".join(re.findall(r'"([^"]*)"', text)) for number, text in cases}


def check(path, sentences):
    text = path.with_suffix(".json").read_text(encoding="ascii")
    assert text.endswith("\n") and text.count("\n") == 1
    value = json.loads(text, object_pairs_hook=once)
    file = File(path)
    number, *place = map(int, path.with_suffix(".verdict").read_text().split())
    if number == 0:
        counts = dict(zip(("labels", "roles", "users", "cards"), file.fields(1)))
        assert value == {"accepted": True} | counts | {"lines": len(file.lines)}, value
        return number
    keys(value, "accepted", "number", "place", "sentence", "cause")
    assert value["accepted"] is False and value["number"] == number and value["place"] == place
    assert value["sentence"] == sentences[number]
    CAUSES[number](file, value["cause"], place)
    page = path.with_suffix(".text").read_text(encoding="utf-8")
    quoted = {int(found) for found in re.findall(r"^ +line (\d+)", page, re.M)}
    assert quoted == lines_of(value["cause"]), (quoted, lines_of(value["cause"]))
    return number


def main(folder, header):
    sentences = words(Path(header))
    seen = {}
    for path in sorted(Path(folder).glob("*.role")):
        try:
            number = check(path, sentences)
        except Exception:
            print(path, file=sys.stderr)
            raise
        seen[number] = seen.get(number, 0) + 1
    print(" ".join(f"{number}:{count}" for number, count in sorted(seen.items())))


main(*sys.argv[1:])
