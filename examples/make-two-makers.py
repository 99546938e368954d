#!/usr/bin/env python3
"""Writes the example role file of a memory server with two rival pump makers.

    make-two-makers.py ROLE_FILE [LEGEND_FILE]

The file is the same each time. The legend names its labels, roles, users and
cards in words.
"""

import sys

MAKERS = ["maker A", "maker B"]
STAGES = ["published", "draft", "unannounced"]
LINES = ["gear pumps", "vane pumps", "piston pumps", "valves"]
PAIRS = [LINES[:2], LINES[2:]]

READ, WRITE = 1, 2


class Names:
    """Things numbered from 1 in the order they are named."""

    def __init__(self):
        self.names = []

    def add(self, name):
        assert name not in self.names, name
        self.names.append(name)
        return len(self.names)

    def __getitem__(self, name):
        return self.names.index(name) + 1

    def __len__(self):
        return len(self.names)


labels = Names()
roles = Names()
users = Names()
cards = Names()
dominance = set()  # (label, label it dominates)
seniority = set()  # (role, role it is senior to)
clearances = {}  # user: label
card_labels = {}  # card: label
permissions = set()  # (role, card, mode)
assignments = set()  # (user, role)

# Labels. Each maker's stages stand one over the other, above the shared
# terminology and apart from the other maker's. Where both makers' wording
# meets, a label of its own holds it: published of both, drafts of both, and
# the owners' label at the top. The office papers stand under the owners alone,
# so that there is no lowest label.

labels.add("public")
labels.add("shared terminology")
dominance.add((labels["shared terminology"], labels["public"]))
for maker in MAKERS:
    below = "shared terminology"
    for stage in STAGES:
        label = labels.add(f"{maker} {stage}")
        dominance.add((label, labels[below]))
        below = f"{maker} {stage}"
labels.add("published of both")
labels.add("drafts of both")
labels.add("office papers")
labels.add("owners")
dominance.add((labels["drafts of both"], labels["published of both"]))
for maker in MAKERS:
    dominance.add((labels["published of both"], labels[f"{maker} published"]))
    dominance.add((labels["drafts of both"], labels[f"{maker} draft"]))
    dominance.add((labels["owners"], labels[f"{maker} unannounced"]))
dominance.add((labels["owners"], labels["drafts of both"]))
dominance.add((labels["owners"], labels["office papers"]))
# The directory also writes out that the owners' label dominates everything.
for label in range(1, len(labels)):
    dominance.add((labels["owners"], label))

# Cards. They are numbered as the terms came in, so that labels take turns.

at_label = {name: [] for name in labels.names}
of_line = {}  # (maker, stage, product line): cards


def card(name, label):
    number = cards.add(name)
    card_labels[number] = labels[label]
    at_label[label].append(number)
    return number


for term in range(1, 13):
    for line in LINES:
        for maker in MAKERS:
            for stage in STAGES:
                # Fewer terms of models that nobody knows yet.
                if stage == "unannounced" and term % 2 == 0:
                    continue
                number = card(f"{maker}, {line}, {stage} term {term}", f"{maker} {stage}")
                of_line.setdefault((maker, stage, line), []).append(number)
        if term % 2 == 1:
            card(f"{line}, shared term {term}", "shared terminology")
    for stage in STAGES:
        for maker in MAKERS:
            if term <= 8:
                card(f"{maker}, {stage} style rule {term}", f"{maker} {stage}")
    card(f"standard term {term}, from the norms", "public")
    card(f"standard term {term}, from the trade press", "public")
    card(f"shared abbreviation {term}", "shared terminology")
    card(f"comparison of published wording {term}", "published of both")
    if term <= 8:
        card(f"comparison of draft wording {term}", "drafts of both")
        card(f"invoice form {term}", "office papers")
        card(f"owners' note {term}", "owners")
# Boxes for questions: everybody below may write there without reading.
question_box = {}
for maker in MAKERS:
    for stage in STAGES:
        name = f"{maker}, questions on {stage} wording"
        question_box[maker, stage] = card(name, f"{maker} {stage}")
question_box["house"] = card("questions to the owners", "owners")

# Roles, from the lowest layer up: readers of each label one over the other,
# then translators of each product line, editors and leads of each stage.
# A label that the clearance dominates must lie between the r-level and the
# w-level, so a stage's writers are senior to its readers, never to the writers
# of another stage.


def role(name, juniors=(), reads=(), writes=()):
    number = roles.add(name)
    for junior in juniors:
        seniority.add((number, roles[junior]))
    for thing in reads:
        permissions.add((number, thing, READ))
    for thing in writes:
        permissions.add((number, thing, WRITE))


def questions(maker, stages):
    return [f"{maker} questions on {stage} wording" for stage in stages]


def editors(here):
    return [f"{here} editor of {' and '.join(pair)}" for pair in PAIRS]


role("visitor")
role("public reader", reads=at_label["public"])
role("shared reader", ["public reader"], reads=at_label["shared terminology"])
for maker in MAKERS:
    below = "shared reader"
    for stage in STAGES:
        role(f"{maker} {stage} reader", [below], reads=at_label[f"{maker} {stage}"])
        below = f"{maker} {stage} reader"
for maker in MAKERS:
    for name, stage in zip(questions(maker, STAGES), STAGES):
        role(name, writes=[question_box[maker, stage]])

role("collector of standard terms", ["public reader"], writes=at_label["public"])
role("terminologist", ["shared reader"], writes=at_label["shared terminology"])
role("head terminologist", ["terminologist"], reads=at_label["shared terminology"])

for maker in MAKERS:
    for position, stage in enumerate(STAGES):
        here = f"{maker} {stage}"
        for line in LINES:
            own = of_line[maker, stage, line]
            # The directory writes out both modes for a translator's own line.
            role(f"{here} translator of {line}", [f"{here} reader"], reads=own, writes=own)
        for editor, pair in zip(editors(here), PAIRS):
            # Every third card is one an editor must pass.
            core = sum((of_line[maker, stage, line][::3] for line in pair), [])
            role(
                editor,
                [f"{here} translator of {line}" for line in pair],
                reads=core,
                writes=core,
            )
        style = [number for number in at_label[here] if "style" in cards.names[number - 1]]
        # A lead also puts questions to the stage above.
        juniors = editors(here) + questions(maker, STAGES[position + 1 :][:1])
        role(f"{here} lead", juniors, reads=style, writes=style)

role(
    "reader of both makers' published wording",
    [f"{maker} published reader" for maker in MAKERS],
    reads=at_label["published of both"],
)
role(
    "comparer of published wording",
    ["reader of both makers' published wording"],
    writes=at_label["published of both"],
)
role(
    "reader of both makers' drafts",
    ["reader of both makers' published wording"] + [f"{maker} draft reader" for maker in MAKERS],
    reads=at_label["drafts of both"],
)
role(
    "comparer of draft wording",
    ["reader of both makers' drafts"],
    writes=at_label["drafts of both"],
)
role("office reader", reads=at_label["office papers"])
role("office clerk", ["office reader"], writes=at_label["office papers"])
role("house questions", writes=[question_box["house"]])
role(
    "owner",
    ["office reader", "reader of both makers' drafts"]
    + [f"{maker} unannounced reader" for maker in MAKERS],
    reads=at_label["owners"],
)
role("keeper of the owners' notes", ["owner", "house questions"], writes=at_label["owners"])
# Kept in the directory though nobody may hold it: it writes public cards and
# office papers, and no label stands under both.
role("office helper of old", ["office clerk"], writes=at_label["public"][:2])

# Users. The owners have an account for the owners' work and one for
# translating; all others have one.


def user(name, clearance, held):
    number = users.add(name)
    clearances[number] = labels[clearance]
    for name in held:
        assignments.add((number, roles[name]))


OWNERS = ["first owner", "second owner", "third owner", "fourth owner", "fifth owner"]
for position, name in enumerate(OWNERS):
    held = ["owner", "house questions"]
    if position < 2:
        held.append("keeper of the owners' notes")
    user(name, "owners", held)
user("guest at the fair", "public", ["visitor", "public reader"])
user("intern", "public", ["public reader", "collector of standard terms"])
user("librarian", "public", ["visitor", "collector of standard terms", "house questions"])
user("terminologist, hydraulics", "shared terminology", ["terminologist", "house questions"])
user("terminologist, drives", "shared terminology", ["terminologist", "public reader"])
user("head of terminology", "shared terminology", ["head terminologist", "house questions"])
user("office clerk", "office papers", ["office clerk", "house questions"])
user("tax adviser", "office papers", ["office reader"])
user("comparer, published", "published of both", ["comparer of published wording", "shared reader"])
user("second comparer, published", "published of both", ["comparer of published wording"])
user("comparer, drafts", "drafts of both", ["comparer of draft wording", "house questions"])

for side, maker in enumerate(MAKERS):
    for position, stage in enumerate(STAGES):
        here = f"{maker} {stage}"
        common = [f"{here} reader", "shared reader", "house questions"]
        common += questions(maker, STAGES[position + 1 :][:1])
        translators = 4 if stage != "unannounced" else 3
        for count in range(translators):
            lines = [LINES[count % 4], LINES[(count + 1 + side) % 4]]
            held = [f"{here} translator of {line}" for line in lines]
            user(f"{here}, translator {count + 1}", here, common + held)
        user(f"{here}, editor", here, common + editors(here))
        user(f"{here}, lead", here, common + [f"{here} lead"])
# The owners at work: translators like the others, at one stage of one maker.
for position, name in enumerate(OWNERS):
    here = f"{MAKERS[position % 2]} {STAGES[position % 3]}"
    held = [f"{here} translator of {LINES[position % 4]}", f"{here} reader", "public reader"]
    user(f"{name} at work", here, held)


def role_file():
    def line(letter, *numbers):
        fields = "".join(f"{number:>5}" for number in numbers)
        return f"{letter}{fields:<20}\n"

    lines = [line("H", len(labels), len(roles), len(users), len(cards))]
    for letter, things in [
        ("D", dominance),
        ("S", seniority),
        ("U", clearances.items()),
        ("O", card_labels.items()),
        ("P", permissions),
        ("A", assignments),
    ]:
        lines += [line(letter, *numbers) for numbers in sorted(things)]
    return "".join(lines)


def legend():
    lines = []
    for kind, things in [("label", labels), ("role", roles), ("user", users), ("card", cards)]:
        for number, name in enumerate(things.names, 1):
            lines.append(f"{kind} {number}: {name}\n")
    return "".join(lines)


def main():
    if len(sys.argv) not in (2, 3):
        sys.exit(__doc__)
    with open(sys.argv[1], "w", encoding="ascii", newline="\n") as output:
        output.write(role_file())
    if len(sys.argv) == 3:
        with open(sys.argv[2], "w", encoding="ascii", newline="\n") as output:
            output.write(legend())


main()
