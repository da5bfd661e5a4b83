"""Makes queries by chance that fix fields, and tells where their operations are done, by the rules of docs/QUERIES.md.

It shares nothing with the store: a query is a list of its operations, from which its text is made as well as what
`explain` says of them. What its table is, weaving.py works out from the text.
"""

import weaving

FIELDS = ["u", "n", "z"]
LOCATION = "z"
CELLS = {"u": ["alpha", "beta", ""], "n": [-1, 0, 7], "z": ["e", "f", "w"]}
CONFIG = {
    "targets": [
        {
            "name": "T",
            "fields": [
                {"name": "u", "type": "text"},
                {"name": "n", "type": "int"},
                {"name": "z", "type": "text", "location": True},
            ],
        }
    ],
    "metrics": [{"name": "/m", "kind": "gauge", "type": "int", "column": "v"}],
    "zones": [
        {"name": "east", "locations": ["e", "f"], "leaves": ["e1", "e2"], "ranges": [
            {"from": [], "leaves": ["e1"]}, {"from": ["T", "b"], "leaves": ["e2", "e1"]}]},
        {"name": "west", "locations": ["w"], "leaves": ["w1"], "ranges": [{"from": [], "leaves": ["w1"]}]},
    ],
}
MOMENT = 100
LEVELS = ["leaf", "zone", "root"]


# ---- queries


def a_test(chance, names, depth):
    """A condition on some keys, as its parts."""
    how = chance.random()
    if depth and how < 0.55:
        parts = (a_test(chance, names, depth - 1), a_test(chance, names, depth - 1))
        return (chance.choices(["&&", "||"], [4, 1])[0], *parts)
    if depth and how < 0.62:
        return ("!", a_test(chance, names, depth - 1))
    name = chance.choice(names)
    if how > 0.95 and name != "n":
        return ("=~", name, chance.choice(CELLS[name]))
    return (chance.choices(["==", "!=", ">="], [8, 1, 1])[0], name, chance.choice(CELLS[name]))


def a_pipe(chance, names):
    """A fetch with filters and groups."""
    pipe = [("fetch",)]
    for _ in range(chance.choice([0, 1, 1, 2])):
        pipe.append(("filter", a_test(chance, names, 2)))
    if chance.random() < 0.2:
        pipe.append(("align",))
    return pipe


def add_groups(chance, pipe, names):
    """Adds groups with filters between; gives the keys that are left."""
    for _ in range(chance.choice([1, 1, 2])):
        names = [name for name in chance.sample(names, len(names)) if chance.random() < 0.5]
        pipe.append(("group_by", names, [("max", "v")]))
        if names and chance.random() < 0.3:
            pipe.append(("filter", a_test(chance, names, 1)))
    return names


def a_query(chance):
    pipe = a_pipe(chance, FIELDS)
    if chance.random() < 0.4:
        branches = [pipe, a_pipe(chance, FIELDS)]
        if chance.random() < 0.3:
            branches.append(list(branches[0]))
        pipe = [("union", branches)]
    add_groups(chance, pipe, FIELDS)
    return pipe


def a_row(chance, end):
    fields = [chance.choice(CELLS[name]) for name in FIELDS]
    fields = [field.encode() if isinstance(field, str) else field for field in fields]
    return weaving.Row(b"T", b"/m", end, end, chance.randint(-9, 9), fields)


# ---- texts


def literal(value):
    return f'"{value}"' if isinstance(value, str) else str(value)


def test_text(test):
    kind, *what = test
    if kind in ("&&", "||"):
        return f"({test_text(what[0])}) {kind} ({test_text(what[1])})"
    if kind == "!":
        return f"!({test_text(what[0])})"
    return f"{what[0]} {kind} {literal(what[1])}"


def op_text(op):
    kind, *what = op
    if kind == "fetch":
        return "fetch T::/m"
    if kind == "union":
        return "{" + "; ".join(map(text, what[0])) + "} | union"
    if kind == "filter":
        return f"filter {test_text(what[0])}"
    if kind == "align":
        return "align next_older(60s)"
    return f"group_by [{', '.join(what[0])}], " + ", ".join(f"{word}({name})" for word, name in what[1])


def text(pipe):
    return " | ".join(map(op_text, pipe))


# ---- levels


def fixed_by(test):
    """The columns that a condition fixes, each with its literal, from the left."""
    kind, *what = test
    if kind == "&&":
        return fixed_by(what[0]) + fixed_by(what[1])
    return [tuple(what)] if kind == "==" else []


def meeting(level, names):
    """Where rows meet that agree in some fields."""
    if level == "leaf" and set(FIELDS) <= names:
        return "leaf"
    return "zone" if level != "root" and LOCATION in names else "root"


def explained(pipe, lines):
    """Adds a line for each operation; gives the level of the last, and what is fixed behind it."""
    level, fixed = "leaf", {}
    for kind, *what in pipe:
        if kind == "union":
            sides = [explained(branch, lines) for branch in what[0]]
            level = max((side[0] for side in sides), key=LEVELS.index)
            fixed = dict(set.intersection(*(set(side[1].items()) for side in sides)))
        elif kind == "filter":
            for name, value in fixed_by(what[0]):
                fixed.setdefault(name, value)
        elif kind == "group_by":
            level = meeting(level, {*what[0], *fixed})
            fixed = {name: value for name, value in fixed.items() if name in what[0]}
        lines.append(f"{kind} {level}\n")
    return level, fixed


class Look:
    """Points, and queries over them that are explained."""

    def __init__(self, chance):
        ends = range(41, MOMENT + 1)
        self.rows = [a_row(chance, end) for end in chance.sample(ends, chance.randint(0, 40))]
        self.rows.sort(key=lambda row: row.end)
        self.queries = [a_query(chance) for _ in range(20)]

    def points(self):
        return b"".join(row.text() + b"\n" for row in self.rows)

    def script(self):
        return "feed points.csv\n" + "".join(f"explain {MOMENT} {text(query)}\n" for query in self.queries)

    def wanted(self, given):
        """What is printed, where each line of a leaf is taken from what was given."""
        setting, leaves = weaving.Setting(CONFIG), [line for line in given.splitlines(True) if line.startswith("leaf ")]
        printed = f"feed points.csv: {len(self.rows)} accepted, 0 refused\n"
        for query in self.queries:
            lines = []
            explained(query, lines)
            printed += weaving.Query(setting, text(query)).text(self.rows, MOMENT) + "".join(lines)
            printed += "".join(leaves[: len(setting.leaves)])
            leaves = leaves[len(setting.leaves) :]
        return printed
