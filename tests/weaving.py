"""What a schedule prints, worked out from the rules of docs/SCHEDULES.md and docs/QUERIES.md alone.

It shares nothing with the store: an actor is a generator that gives its next event before it does it, rows are one
list for each replica, and a query's table is made of all rows that its visits found. It knows the queries that
`schedules.py` asks, and no more: fetches with filters, an alignment over a minute, groups and unions.
"""

import re

LAST = 2**63 - 1
MOST_SWITCHES = 65_536
MOST_ACTORS = 64
MOST_REPLICAS = 3
MOST_SLOTS = 64
MOST_LINES = 100_000
SPAN = 60
EVENTS = "lock reserve enter raise_root raise_zone put ack load_root load_zone resolve visit switch retire".split()
NUMBER = re.compile(rb"-?[0-9]{1,32}")
TOKEN = re.compile(r'\s*("(?:\\.|[^"])*"|::|/[\w./]+|-?\d+s?|\w+|=~|==|!=|<=|>=|\|\||&&|[<>|{};\[\](),:!])')


class Refused(Exception):
    """A line is refused."""


# ---- hints


def bucket(setting, schema, field, excerpt):
    """The bucket of an excerpt."""
    print_ = 14695981039346656037
    for byte in schema + b"\0" + field + b"\0" + excerpt:
        print_ = (print_ ^ byte) * 1099511628211 % 2**64
    return print_ % setting.buckets


def excerpts(marked):
    """The windows of three bytes."""
    return [marked[place : place + 3] for place in range(len(marked) - 2)]


def buckets_of(setting, schema, field, value):
    """The buckets of a field's value."""
    windows = excerpts(b"\1\1" + value + b"\2\2") if isinstance(value, bytes) else [str(value).lower().encode()]
    return {bucket(setting, schema, field, window) for window in windows}


def holds_of(formula, words, place):
    """Whether a formula holds of the words' bits at a place."""
    kind, what = formula
    if kind == "bucket":
        return words[what] >> place & 1 == 1
    parts = [holds_of(part, words, place) for part in what]
    return all(parts) if kind == "and" else any(parts)


def named(formula):
    """The buckets that a formula names."""
    kind, what = formula
    return {what} if kind == "bucket" else set().union(*map(named, what))


# ---- the configuration


class Setting:
    """A configuration."""

    def __init__(self, config):
        self.buckets = config.get("buckets", 1024)
        self.limit = config.get("limit", 1_000_000)
        self.room = config.get("range_points", 1_000_000)
        self.targets = {target["name"].encode(): target["fields"] for target in config["targets"]}
        self.metrics = {metric["name"].encode(): metric for metric in config["metrics"]}
        self.zones, self.leaves, self.ranges = [], [], []
        self.leaf_names, self.range_names = [], []
        for number, zone in enumerate(config["zones"]):
            first = len(self.leaves)
            self.leaves += [(number, place) for place in range(len(zone["leaves"]))]
            self.leaf_names += zone["leaves"]
            self.range_names += [f"{zone['name']}/{place}" for place in range(len(zone["ranges"]))]
            ranges = []
            for bounds in zone["ranges"]:
                ranges.append(len(self.ranges))
                bound = [part.encode() if isinstance(part, str) else part for part in bounds["from"]]
                self.ranges.append((bound, [first + zone["leaves"].index(leaf) for leaf in bounds["leaves"]]))
            leaves = range(first, len(self.leaves))
            self.zones.append(([location.encode() for location in zone["locations"]], leaves, ranges))

    def range_of(self, row):
        """The range of a row, where a zone lists its location."""
        fields = self.targets[row.schema]
        place = next(place for place, field in enumerate(fields) if field.get("location"))
        for locations, _, ranges in self.zones:
            if row.fields[place] in locations:
                target = [row.schema, *row.fields]
                return [number for number in ranges if self.ranges[number][0] <= target][-1]
        return None

    def named_down(self, name, founds):
        """Leaves that were found down, with their cuts, behind a name."""
        return " ".join([f"{name}:", *(f"{self.leaf_names[leaf]}@{cut}" for leaf, cut in founds)])

    def hints(self, row):
        """The buckets of a row's series."""
        found = {bucket(self, row.schema, b"", row.metric)}
        for field, value in zip(self.targets[row.schema], row.fields):
            found |= buckets_of(self, row.schema, field["name"].encode(), value)
        return found


# ---- rows


class Row:
    """A point of a series."""

    def __init__(self, schema, metric, start, end, value, fields):
        self.schema, self.metric, self.end, self.value, self.fields = schema, metric, end, value, fields
        self.start = start
        self.series = (schema, metric, *fields)

    def text(self):
        """The row as a file of points has it, where no cell wants quotes."""
        cells = [self.schema, self.metric, str(self.start).encode(), str(self.end).encode(), cell_text(self.value)]
        return b",".join(cells + [cell_text(field) for field in self.fields])


def cell_text(value):
    return value if isinstance(value, bytes) else str(value).lower().encode()


def records(text):
    """The records of a text of points: cells may stand in quotes, in which a doubled one is one."""
    found, cells, cell, quoted, place, begun = [], [], b"", False, 0, False
    while place < len(text):
        byte = text[place : place + 1]
        place += 1
        if quoted:
            if byte != b'"':
                cell += byte
            elif text[place : place + 1] == b'"':
                cell += byte
                place += 1
            else:
                quoted = False
        elif byte == b'"' and cell == b"":
            quoted, begun = True, True
        elif byte == b",":
            cells.append(cell)
            cell, begun = b"", True
        elif byte in b"\r\n":
            if begun or cell:
                found.append(cells + [cell])
            cells, cell, begun = [], b"", False
        else:
            cell += byte
    if begun or cell:
        found.append(cells + [cell])
    return found


def number_in(text, least, most):
    if not NUMBER.fullmatch(text) or not least <= int(text) <= most:
        raise Refused("BadLine")
    return int(text)


def value_in(of, text):
    """The value of a type that a cell spells."""
    if of == "int":
        return number_in(text, -LAST - 1, LAST)
    if of == "bool" and text in (b"true", b"false"):
        return text == b"true"
    if of == "text" and len(text) <= 1024:
        text.decode()
        return text
    raise Refused("BadLine")


def row_in(setting, text):
    """The one row that a text spells."""
    found = records(text)
    if len(found) != 1 or len(found[0]) < 5:
        raise Refused("BadLine")
    schema, metric, start, end, value, *cells = found[0]
    if schema not in setting.targets or metric not in setting.metrics:
        raise Refused("BadLine")
    fields, of = setting.targets[schema], setting.metrics[metric]
    start, end = number_in(start, 0, LAST), number_in(end, 0, LAST)
    if len(cells) != len(fields) or (start == end) != (of["kind"] == "gauge") or start > end:
        raise Refused("BadLine")
    values = [value_in(field["type"], cell) for field, cell in zip(fields, cells)]
    return Row(schema, metric, start, end, value_in(of["type"], value), values)


# ---- queries


class Fetch:
    """A fetch with the filters before its alignment, those of fields alone by themselves."""

    def __init__(self, setting, schema, metric):
        self.setting, self.schema, self.metric = setting, schema, metric
        self.of = setting.metrics[metric]
        self.keys = [field["name"] for field in setting.targets[schema]]
        self.columns = self.keys + [self.of["column"]]
        self.on_fields, self.on_points = [], []

    def add(self, test):
        names = names_of(test)
        (self.on_fields if names <= set(self.keys) else self.on_points).append(test)

    def formula(self):
        metric = ("bucket", bucket(self.setting, self.schema, b"", self.metric))
        return ("and", [metric, *(self.formula_of(test) for test in self.on_fields)])

    def formula_of(self, test):
        """The formula of a filter on fields."""
        kind, *what = test
        if kind in ("&&", "||"):
            return ("and" if kind == "&&" else "or", [self.formula_of(part) for part in what])
        if kind == "==":
            return self.all_of(buckets_of(self.setting, self.schema, what[0].encode(), what[1]))
        if kind == "=~":
            return self.all_of(self.pattern_buckets(what[0].encode(), what[1]))
        return ("and", [])

    def pattern_buckets(self, field, pattern):
        pieces = pattern.split(b".*")
        pieces[0] = b"\1\1" + pieces[0]
        pieces[-1] += b"\2\2"
        windows = [window for piece in pieces for window in excerpts(piece)]
        return {bucket(self.setting, self.schema, field, window) for window in windows}

    def all_of(self, buckets):
        return ("and", [("bucket", number) for number in sorted(buckets)])

    def cells(self, row):
        return dict(zip(self.columns, [*row.fields, row.value]))

    def aligned(self, rows, moment):
        """The rows of its table, and its load."""
        series, table = {}, []
        for row in rows:
            if (row.schema, row.metric) == (self.schema, self.metric) and row.end <= moment:
                if all(is_met(test, self.cells(row)) for test in self.on_fields):
                    series.setdefault(row.series, []).append(row)
        for points in series.values():
            kept = [row for row in points if all(is_met(test, self.cells(row)) for test in self.on_points)]
            values = [value for row, value in zip(kept, self.values(kept)) if row.end > moment - SPAN]
            if values:
                value = values[-1] if self.of["kind"] == "gauge" else sum(values)
                table.append(dict(zip(self.columns, [*points[0].fields, value])))
        return table, sum(row.end > moment - SPAN for points in series.values() for row in points) + len(table)

    def values(self, points):
        """The values of a series: of totals what each adds to the one before it, if it has the same start."""
        if self.of["kind"] != "cumulative":
            return [row.value for row in points]
        befores = [None, *points]
        return [
            row.value - before.value if before and before.start == row.start else row.value
            for before, row in zip(befores, points)
        ]


def names_of(test):
    """The columns that a test names."""
    kind, *what = test
    if kind in ("&&", "||", "!"):
        return set().union(*map(names_of, what))
    return {what[0]}


def is_met(test, cells):
    """Whether a row's cells meet a test."""
    kind, *what = test
    if kind in ("&&", "||"):
        return (all if kind == "&&" else any)(is_met(part, cells) for part in what)
    if kind == "!":
        return not is_met(what[0], cells)
    cell, value = cells[what[0]], what[1]
    if kind == "=~":
        return re.fullmatch(b".*".join(map(re.escape, value.split(b".*"))), cell, re.DOTALL) is not None
    tests = {"==": cell == value, "!=": cell != value, "<": cell < value, "<=": cell <= value}
    return {**tests, ">": cell > value, ">=": cell >= value}[kind]


class Query:
    """A query's text as its parts: the fetches, and how their tables come to one."""

    def __init__(self, setting, text):
        self.setting, self.fetches = setting, []
        self.tokens, place = [], 0
        while place < len(text):
            found = TOKEN.match(text, place)
            self.tokens.append(found[1])
            place = found.end()
        self.pipe = self.read_pipe()

    def take(self):
        return self.tokens.pop(0)

    def sees(self, *wanted):
        return self.tokens[: len(wanted)] == list(wanted)

    def read_pipe(self):
        if self.sees("{"):
            return self.read_operations(self.read_union())
        self.take()
        schema, _, metric = self.take(), self.take(), self.take()
        fetch = Fetch(self.setting, schema.encode(), metric.encode())
        self.fetches.append(fetch)
        while self.sees("|", "filter"):
            self.take(), self.take()
            fetch.add(self.read_or())
        return self.read_operations(("fetch", fetch))

    def read_union(self):
        self.take()
        pipes = [self.read_pipe()]
        while self.take() == ";":
            pipes.append(self.read_pipe())
        self.take(), self.take()
        return ("union", pipes)

    def read_operations(self, pipe):
        while self.sees("|"):
            self.take()
            word = self.take()
            if word == "filter":
                pipe = ("filter", pipe, self.read_or())
            elif word == "align":
                self.tokens = self.tokens[4:]
                pipe = ("aligned", pipe)
            else:
                pipe = ("group_by", pipe, self.read_names(), self.read_folds())
        return pipe

    def read_names(self):
        names = []
        self.take()
        while not self.sees("]"):
            names.append(self.take())
            if self.sees(","):
                self.take()
        self.take()
        return names

    def read_folds(self):
        folds = []
        while self.sees(","):
            self.take()
            word, _ = self.take(), self.take()
            folds.append((word, "count" if word == "count" else self.take()))
            self.take()
        return folds

    def read_chain(self, sign, read_next):
        """Tests that a sign joins, the first of them deepest."""
        test = read_next()
        while self.sees(sign):
            self.take()
            test = (sign, test, read_next())
        return test

    def read_or(self):
        return self.read_chain("||", self.read_and)

    def read_and(self):
        return self.read_chain("&&", self.read_not)

    def read_not(self):
        if self.sees("!"):
            self.take()
            return ("!", self.read_not())
        if self.sees("("):
            self.take()
            test = self.read_or()
            self.take()
            return test
        name, sign, literal = self.take(), self.take(), self.take()
        if literal.startswith('"'):
            return (sign, name, re.sub(r"\\(.)", r"\1", literal[1:-1]).encode())
        return (sign, name, {"true": True, "false": False}.get(literal) if literal in ("true", "false") else int(literal))

    def table(self, rows, moment):
        """The columns, the rows and the load of what it means over rows."""
        return made(self.pipe, rows, moment)

    def load(self, rows, moment):
        return self.table(rows, moment)[2]

    def wants(self, row, moment):
        """Whether a row counts for some fetch."""
        return any(fetch.aligned([row], moment)[1] > 0 for fetch in self.fetches)

    def text(self, rows, moment):
        """Its table as it is printed."""
        columns, table, _ = self.table(rows, moment)
        lines = [",".join(["time", *columns])]
        for cells in sorted([row[column] for column in columns] for row in table):
            lines.append(b",".join([str(moment).encode(), *map(cell_text, cells)]).decode())
        return "\n".join([*lines, f"{len(table)} rows"]) + "\n"


def made(pipe, rows, moment):
    """The columns, the rows and the load of a pipe."""
    kind, *what = pipe
    if kind == "fetch":
        return (what[0].columns, *what[0].aligned(rows, moment))
    if kind == "union":
        tables = [made(part, rows, moment) for part in what[0]]
        return tables[0][0], sum((table[1] for table in tables), []), sum(table[2] for table in tables)
    columns, table, load = made(what[0], rows, moment)
    if kind == "filter":
        return columns, [row for row in table if is_met(what[1], row)], load
    if kind == "group_by":
        return what[1] + [name for _, name in what[2]], grouped(table, what[1], what[2]), load
    return columns, table, load


def grouped(table, names, folds):
    """One row for each list of cells that occurs."""
    groups = {}
    for row in table:
        groups.setdefault(tuple(row[name] for name in names), []).append(row)
    return [
        {**dict(zip(names, key)), **{name: folded(word, name, group) for word, name in folds}}
        for key, group in groups.items()
    ]


def folded(word, name, group):
    if word == "count":
        return len(group)
    values = [row[name] for row in group]
    return {"sum": sum, "min": min, "max": max, "mean": lambda of: sum(of) // len(of)}[word](values)


# ---- the store and its actors


class Asked:
    """A query that was asked: the rows that were acknowledged by its first event, with their ranges, those that its
    visits found, and for each range the bounds of the trims that its replica had had then, or that were acknowledged by
    its last event."""

    def __init__(self, number, query, moment, text):
        self.number, self.query, self.moment, self.text = number, query, moment, text
        self.earlier, self.rows, self.is_over, self.bounds = [], None, False, {}

    def may_lack(self, place, row):
        """Whether a row is hidden by a trim, or counts for nothing."""
        return any(row.end < bound for bound in self.bounds.get(place, [])) or not self.query.wants(row, self.moment)

    def lacks(self):
        """The rows that its table should have been of and was not."""
        if self.rows is None or self.is_over:
            return []
        return [row for place, row in self.earlier if row not in self.rows and not self.may_lack(place, row)]


class Weave:
    """The words, the leaves and the ranges, and the actors by their numbers."""

    def __init__(self, setting, refusals):
        self.setting, self.refusals = setting, refusals
        self.root = [0] * setting.buckets
        self.words = [[0] * setting.buckets for _ in setting.zones]
        self.raised = [set() for _ in setting.leaves]
        self.kept = {(place, slot): [] for place, (_, leaves) in enumerate(setting.ranges) for slot in range(len(leaves))}
        self.trimmed = {}
        self.down = [False] * len(setting.leaves)
        self.switches = [0] * len(setting.leaves)
        self.lengths = [sum(leaf in replicas for _, replicas in setting.ranges) for leaf in range(len(setting.leaves))]
        self.slots = [list(replicas) for _, replicas in setting.ranges]
        self.serving = [list(range(len(replicas))) for _, replicas in setting.ranges]
        self.acked = [[] for _ in setting.ranges]
        self.bounds = [[] for _ in setting.ranges]
        self.holders = {}
        self.actors = {}
        self.asked = []

    def write(self, number, row):
        """A write, which gives each event and whom it needs before it does it."""
        place = self.setting.range_of(row)
        if place is None:
            yield None, None
            return "refused: NoZone\n"
        yield "lock", ("range", place)
        self.holders["range", place] = number
        told = self.refusal(place, row)
        missed = {} if told else (yield from self.bring(number, place, [row], lambda slot: self.put(place, slot, row)))
        yield "ack", None
        told = told or self.acknowledge(place, missed)
        if told is None:
            self.acked[place].append(row)
            told = f"written: {self.taken(place, missed)}"
        del self.holders["range", place]
        return told

    def trim(self, number, place, before):
        """A trim of a range, likewise: it raises nothing."""
        yield "lock", ("range", place)
        self.holders["range", place] = number
        missed = yield from self.bring(number, place, [], lambda slot: self.hide(place, slot, before))
        yield "ack", None
        told = self.acknowledge(place, missed)
        if told is None:
            self.bounds[place].append(before)
            told = f"trim {self.setting.range_names[place]}: {self.taken(place, missed)}"
        del self.holders["range", place]
        return told

    def bring(self, number, place, rows, do):
        """The events between a lock and its end by which something comes to each replica whose leaf is up. It gives the
        slots that missed it, with how long their leaves' histories are."""
        missed = {}
        for slot in self.serving[place]:
            leaf = self.slots[place][slot]
            yield "reserve", ("leaf", leaf)
            if self.down[leaf]:
                missed[slot] = self.lengths[leaf]
        for slot in self.serving[place]:
            if slot not in missed:
                cut = yield from self.inside(number, self.slots[place][slot], rows, lambda: do(slot))
                if cut is not None:
                    missed[slot] = cut
        return missed

    def acknowledge(self, place, missed):
        """Why nothing is acknowledged: no replica took it. Else those that missed it serve no more."""
        if len(missed) == len(self.serving[place]):
            founds = [(self.slots[place][slot], missed[slot]) for slot in self.serving[place]]
            return f"refused: Unavailable {self.setting.named_down(self.setting.range_names[place], founds)}\n"
        self.serving[place] = [slot for slot in self.serving[place] if slot not in missed]
        return None

    def taken(self, place, missed):
        return f"took {len(self.serving[place])}, missed {len(missed)}\n"

    def refusal(self, place, row):
        ends = [other.end for other in self.acked[place] if other.series == row.series]
        if ends and row.end <= ends[-1]:
            return f"refused: OldPoint {ends[-1]}\n"
        if len(self.acked[place]) >= self.setting.room:
            return f"refused: RangeFull {self.setting.room}\n"
        return None

    def put(self, place, slot, row):
        self.kept[place, slot].append(row)

    def hide(self, place, slot, before):
        self.kept[place, slot] = [row for row in self.kept[place, slot] if row.end >= before]
        self.trimmed.setdefault((place, slot), []).append(before)

    def inside(self, number, leaf, rows, do):
        """The events by which rows come to a leaf at once, or a bound, up to and with the put; where the leaf is down,
        how long its history is."""
        zone, bit = self.setting.leaves[leaf]
        yield "enter", ("leaf", leaf)
        if self.down[leaf]:
            return self.lengths[leaf]
        self.holders["leaf", leaf] = number
        hints = set().union(*map(self.setting.hints, rows))
        fresh = sorted(hints - self.raised[leaf])
        for hint in fresh:
            yield "raise_root", None
            self.root[hint] |= 1 << zone
        for hint in fresh:
            yield "raise_zone", None
            self.words[zone][hint] |= 1 << bit
        yield "put", None
        self.raised[leaf] |= hints
        self.lengths[leaf] += 1
        do()
        del self.holders["leaf", leaf]
        return None

    def recover(self, number, place, leaf):
        """A recovery of a range onto a leaf, which gives each event and whom it needs before it does it."""
        yield "lock", ("range", place)
        self.holders["range", place] = number
        told = self.denial(place, leaf)
        if told is None:
            told = yield from self.copy(number, place, leaf)
        yield "ack", None
        if told is None:
            told = f"recover {self.named(place, leaf)}: slot {len(self.slots[place])}\n"
            self.serving[place].append(len(self.slots[place]))
            self.slots[place].append(leaf)
        del self.holders["range", place]
        return told

    def named(self, place, leaf):
        return f"{self.setting.range_names[place]} {self.setting.leaf_names[leaf]}"

    def serving_on(self, place, leaf):
        """The slot of the replica of a range that serves on a leaf, if there is one."""
        return next((slot for slot in self.serving[place] if self.slots[place][slot] == leaf), None)

    def denial(self, place, leaf):
        """Why a range opens no replica on a leaf, by what serves there now."""
        slot = self.serving_on(place, leaf)
        if slot is not None:
            return f"refused: Serving {slot}\n"
        if len(self.serving[place]) == MOST_REPLICAS:
            return "refused: ThreeServing\n"
        if len(self.slots[place]) == MOST_SLOTS:
            return f"refused: SlotsSpent {MOST_SLOTS}\n"
        return None

    def copy(self, number, place, leaf):
        """The events of a recovery between its lock and its end: the rows of the first replica whose leaf is up come to
        the leaf at once. Where that can't be, why."""
        founds = []
        for slot in self.serving[place]:
            source = self.slots[place][slot]
            yield "reserve", ("leaf", source)
            if not self.down[source]:
                rows = list(self.kept[place, slot])
                break
            founds.append((source, self.lengths[source]))
        else:
            return f"refused: {self.setting.named_down('SourceDown', founds)}\n"
        yield "reserve", ("leaf", leaf)
        cut = self.lengths[leaf] if self.down[leaf] else None
        if cut is None:
            cut = yield from self.inside(number, leaf, rows, lambda: self.open(place, rows))
        return None if cut is None else f"refused: TargetDown {cut}\n"

    def open(self, place, rows):
        self.kept[place, len(self.slots[place])] = rows

    def retire(self, place, leaf):
        """The one event by which the replica of a range on a leaf serves no more, while another one does."""
        yield "retire", ("range", place)
        slot = self.serving_on(place, leaf)
        if slot is None:
            return "refused: NotServing\n"
        if self.serving[place] == [slot]:
            return f"refused: LastServing {slot}\n"
        self.serving[place].remove(slot)
        return f"retire {self.named(place, leaf)}: slot {slot}\n"

    def switch(self, leaf, down):
        """The one event by which a leaf goes down, or comes up."""
        yield "switch", ("leaf", leaf)
        if self.down[leaf] == down:
            return f"refused: Already{'Down' if down else 'Up'} {self.lengths[leaf]}\n"
        if self.switches[leaf] == MOST_SWITCHES:
            return f"refused: SwitchesSpent {MOST_SWITCHES}\n"
        self.down[leaf] = down
        self.switches[leaf] += 1
        self.lengths[leaf] += 1
        return f"{'down' if down else 'up'} {self.setting.leaf_names[leaf]}: done\n"

    def query(self, number, moment, text):
        """A query, likewise."""
        if text in self.refusals:
            yield None, None
            return self.refusals[text] + "\n"
        query = Query(self.setting, text)
        formulas = [fetch.formula() for fetch in query.fetches]
        buckets = sorted(set().union(*map(named, formulas)))
        rows, asked = [], Asked(number, query, moment, text)
        self.asked.append(asked)
        root = {}
        for hint in buckets:
            yield "load_root", None
            if not root:
                asked.earlier = [(place, row) for place, acked in enumerate(self.acked) for row in acked]
            root[hint] = self.root[hint]
        for zone in range(len(self.setting.zones)):
            if any(holds_of(formula, root, zone) for formula in formulas):
                found = yield from self.look(asked, formulas, buckets, zone)
                if isinstance(found, str):
                    return found
                rows += found
                if query.load(found, moment) > self.setting.limit:
                    break
        asked.rows = rows
        for place, bounds in enumerate(self.bounds):
            asked.bounds.setdefault(place, []).extend(bounds)
        asked.is_over = query.load(rows, moment) > self.setting.limit
        if asked.is_over:
            return f"refused: StepLimit {self.setting.limit}\n"
        return query.text(rows, moment)

    def look(self, asked, formulas, buckets, zone):
        """The events of a query in a zone, and the rows that it found there, or why it ends there. Where a leaf is
        found down the zone begins again, at its first range, without that leaf."""
        leaves = self.setting.zones[zone][1]
        words = yield from self.load(buckets, zone)
        if not any(holds_of(formula, words, place) for formula in formulas for place in range(len(leaves))):
            return []
        founds, rows = [], None
        while rows is None:
            rows = yield from self.round(asked, formulas, buckets, zone, founds)
        return rows

    def round(self, asked, formulas, buckets, zone, founds):
        """The events of a round in a zone, and the rows that it found, or why the query ends. Where it finds a leaf
        down it notes it, and there are no rows."""
        _, leaves, ranges = self.setting.zones[zone]
        slots = {}
        for place in ranges:
            yield "resolve", ("range", place)
            avoided = [leaf for leaf, _ in founds]
            first = next((slot for slot in self.serving[place] if self.slots[place][slot] not in avoided), None)
            if first is None:
                return f"refused: NoReplica {self.setting.named_down(self.setting.range_names[place], founds)}\n"
            slots.setdefault(self.slots[place][first], []).append((place, first))
        words = yield from self.load(buckets, zone)
        rows = []
        for bit, leaf in enumerate(leaves):
            if leaf not in slots or not any(holds_of(formula, words, bit) for formula in formulas):
                continue
            yield "visit", ("leaf", leaf)
            if self.down[leaf]:
                founds.append((leaf, self.lengths[leaf]))
                return None
            own = {hint: int(hint in self.raised[leaf]) for hint in buckets}
            if any(holds_of(formula, own, 0) for formula in formulas):
                found = [row for one in slots[leaf] for row in self.kept[one]]
                rows += found
                asked.bounds.update({one[0]: list(self.trimmed.get(one, [])) for one in slots[leaf]})
                if asked.query.load(found, asked.moment) > self.setting.limit:
                    break
        return rows

    def load(self, buckets, zone):
        words = {}
        for hint in buckets:
            yield "load_zone", None
            words[hint] = self.words[zone][hint]
        return words


class Actor:
    """An actor: its events, and how far it is."""

    def __init__(self, number, events):
        self.number, self.events = number, events
        self.begun, self.ended = False, None
        self.event, self.needs = next(events)

    def step(self, weave):
        """Does one event: what is printed, where it waits or ends."""
        holder = weave.holders.get(self.needs)
        if holder is not None and holder != self.number:
            return f"{self.number} waits\n"
        self.begun = True
        try:
            self.event, self.needs = next(self.events)
        except StopIteration as stop:
            self.event, self.ended = None, stop.value
            return f"actor {self.number}\n{self.ended}"
        return None


# ---- schedules


def lines_of(text):
    """The lines of a text, without their ends."""
    lines = text.split(b"\n")
    last = lines.pop()
    lines = [line.removesuffix(b"\r") for line in lines]
    return lines + [last] if last else lines


def run(setting, text, refusals):
    """What a schedule prints, and the queries that were asked, with their rows. `refusals` has the texts that are no
    queries, with what they print."""
    weave, printed = Weave(setting, refusals), []
    for number, line in enumerate(lines_of(text), 1):
        try:
            if number > MOST_LINES:
                raise Refused("BadLine")
            if line and not line.startswith(b"#"):
                printed.append(run_line(weave, line) or "")
        except (Refused, UnicodeDecodeError) as fault:
            kind = "BadLine" if isinstance(fault, UnicodeDecodeError) else fault
            return "".join(printed) + f"line {number}: {kind}\n", weave.asked
    for number, actor in sorted(weave.actors.items()):
        if actor.ended is None:
            printed.append(f"{number} unfinished\n")
    return "".join(printed), weave.asked


def run_line(weave, line):
    """Reads a line whole, and then does it."""
    word, rest = cut(line)
    if word in (b"step", b"finish"):
        return go(weave, number_in(rest, 1, MOST_ACTORS), word.decode())
    if word not in (b"write", b"query", b"down", b"up", b"recover", b"trim", b"retire", b"meet", b"until"):
        raise Refused("BadLine")
    first, rest = cut(rest)
    number = number_in(first, 1, MOST_ACTORS)
    if word == b"until":
        if rest.decode() not in EVENTS:
            raise Refused("BadLine")
        return go(weave, number, rest.decode())
    if word == b"meet":
        return meet(weave, number, number_in(rest, 1, MOST_ACTORS))
    if word == b"write":
        events = weave.write(number, row_in(weave.setting, rest))
    elif word in (b"down", b"up"):
        events = weave.switch(named_in(weave.setting.leaf_names, rest), word == b"down")
    elif word == b"recover":
        events = weave.recover(number, *of_one_zone(weave.setting, *range_and_leaf(weave.setting, rest)))
    elif word == b"trim":
        name, bound = cut(rest)
        place = named_in(weave.setting.range_names, name)
        events = weave.trim(number, place, number_in(bound, 0, LAST))
    elif word == b"retire":
        events = weave.retire(*range_and_leaf(weave.setting, rest))
    else:
        moment, text = cut(rest)
        events = weave.query(number, number_in(moment, 0, LAST), text.decode())
    if number in weave.actors:
        raise Refused("BadLine")
    weave.actors[number] = Actor(number, events)
    return None


def cut(line):
    if b" " not in line:
        raise Refused("BadLine")
    return line.split(b" ", 1)


def named_in(names, text):
    """The place of a name."""
    if text.decode() not in names:
        raise Refused("BadLine")
    return names.index(text.decode())


def range_and_leaf(setting, text):
    """A range and a leaf, by their names."""
    place, leaf = cut(text)
    return named_in(setting.range_names, place), named_in(setting.leaf_names, leaf)


def of_one_zone(setting, place, leaf):
    if not any(leaf in leaves and place in ranges for _, leaves, ranges in setting.zones):
        raise Refused("BadLine")
    return place, leaf


def meet(weave, number, other):
    if number == other:
        raise Refused("BadLine")
    if number not in weave.actors or other not in weave.actors:
        raise Refused("NoActor")
    if weave.actors[number].begun or weave.actors[other].ended is None:
        raise Refused("BadLine")


def go(weave, number, how):
    """Steps an actor once, until it ends or waits, or until its next event has a name."""
    if number not in weave.actors:
        raise Refused("NoActor")
    actor = weave.actors[number]
    if actor.ended is not None:
        raise Refused("Finished")
    while actor.event != how:
        printed = actor.step(weave)
        if printed or how == "step":
            return printed
    return None
