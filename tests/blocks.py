"""Scripts that are made by chance, with blocks, leaves that go down, trims and standing queries, and which of their
answers may come.

The lines of a block run beside each other. Of the rows that a feed of the block brings to a range, a query there has
seen those of a front, and all that stood before the block, but for those that some of the block's trims hide. A pour of
two files is two feeds that go on at once, wherever it stands. How rows, trims, switches, recoveries and retirements
come out is worked out by `replicas.py`: what is printed of them may come if some order of their steps brings it about,
and all states in which such orders end are kept until what is printed later tells which of them it is. What is printed
outside of blocks is worked out from these states alone. At the end all leaves come up, and all that was accepted and is
not hidden is asked for."""

import json
import re
from dataclasses import dataclass

import sql
from replicas import Beside, Setting, standing

SUMS = sql.ALL
QUESTIONS = ("query", "check", "explain")
# The lines that name files.
FEEDS = ("feed", "pour")
# Texts of queries, with the span of their alignment and their operations.
TEXTS = {SUMS: (1000, ["fetch leaf", "align leaf"]), "fetch Task::/work": (60, ["fetch leaf"])}
REFUSED = {
    "fetch Task::": "Parse 12 Expected metric",
    "fetch Task::/play": "Typing 12 UnknownMetric",
    "fetch Task::/work | group_by [cell], sum(work)": "Typing 30 UnknownColumn",
}
PERIODS = [20, 50, 60, 90, 400, 1_000_000_000]
STEPS = [1, 7, 20, 60, 400, 1_000_000_000]
NAMES = ["s", "hourly", "_1"]
MOST_DUE = 1000
MOST_ROWS = 10
FAR = 10**12
HEADING = "time,user,job,cluster,task,work"


@dataclass(frozen=True)
class Line:
    """A line of a script: its word and what it is given."""

    word: str
    given: tuple

    def text(self):
        return " ".join([self.word, *map(str, self.given)])


class Script:
    """A script over points of some series in one or four zones, each series of which one feed of a block brings."""

    def __init__(self, chance):
        # Whether leaves go down, whether queries stand, and whether ranges are trimmed.
        self.has_switches, self.has_ticks, self.has_trims = (chance.random() < part for part in (0.6, 0.4, 0.5))
        self.zones = [{**zone, "leaves": [*zone["leaves"], f"{zone['name']}c"]} for zone in map(sql.zone, range(4))]
        if chance.random() < (0.7 if self.has_switches or self.has_trims else 0.4):
            self.zones = [{**self.zones[0], "locations": [f"c{number}" for number in range(4)]}]
        self.limit = chance.randint(5, 60) if chance.random() < 0.15 else 1_000_000
        self.setting = Setting(self.zones)
        self.series = [
            (f"u{chance.randrange(4)}", f"job{chance.randrange(10)}", f"c{chance.randrange(4)}", str(task))
            for task in range(chance.randint(1, 12))
        ]
        self.files, self.parts, self.bounds = {}, [], [0]
        self.end = 0
        if self.has_ticks:
            self.parts += [(False, [self.a_standing(chance)]) for _ in range(chance.randint(0, 3))]
        is_long = self.has_switches or self.has_ticks or self.has_trims
        for _ in range(chance.randint(3, 9) if is_long else chance.randint(1, 4)):
            if self.has_switches and chance.random() < 0.3:
                self.add_loss(chance)
            else:
                self.add_part(chance)
        if self.has_switches:
            self.parts += [(False, [Line("up", (name,))]) for name in self.setting.leaves]
        self.parts.append((False, [Line("check", (sql.MOMENT, SUMS))]))

    # ---- what is made

    def add_part(self, chance):
        is_block = chance.random() < (0.4 if self.has_ticks else 0.7)
        count = chance.randint(1, 5) if is_block else 1
        begun, self.end = self.end, self.end + chance.choice([50, 100])
        part = []
        for _ in range(count):
            part.append(self.a_line(chance, is_block, begun, part))
        self.parts.append((is_block, part))

    def add_loss(self, chance):
        """A leaf that is down while a feed goes on, and is recovered."""
        begun, self.end = self.end, self.end + 50
        leaves, ranges = self.setting.zones[0]
        leaf, place = self.setting.leaves[chance.choice(leaves)], self.setting.ranges[chance.choice(ranges)]
        feed = chance.choice([self.a_feed, self.a_feed, self.a_pour])(chance, begun, [])
        for line in (Line("down", (leaf,)), feed, Line("up", (leaf,)), Line("recover", (place, leaf))):
            self.parts.append((chance.random() < 0.2, [line]))

    def a_line(self, chance, is_block, begun, part):
        kinds = {"feed": 5, "pour": 2, "ask": 4, "switch": 6 * self.has_switches, "recover": 4 * self.has_switches}
        kinds |= {"trim": 4 * self.has_trims, "retire": 2 * self.has_trims}
        if not is_block:
            kinds |= {"follow": 3, "standing": 3 * self.has_ticks, "tick": 10 * self.has_ticks}
        kind = chance.choices(list(kinds), list(kinds.values()))[0]
        if kind == "feed":
            return self.a_feed(chance, begun, part)
        if kind == "pour":
            return self.a_pour(chance, begun, part)
        if kind == "ask":
            moment = chance.choice([sql.MOMENT, sql.MOMENT, self.end])
            return Line(chance.choice(QUESTIONS), (moment, chance.choice([SUMS, SUMS, *TEXTS])))
        if kind == "follow":
            moment = chance.choice([sql.MOMENT, self.end, begun, 0])
            return Line("follow", (moment, chance.choice(STEPS), chance.randint(1, 6), chance.choice([*TEXTS])))
        if kind == "switch":
            leaves, _ = self.setting.zones[0]
            leaf = chance.choice([*leaves, *leaves[:2]])
            return Line(chance.choice(["down", "down", "up"]), (self.setting.leaves[leaf],))
        if kind == "recover":
            leaves, ranges = self.setting.zones[chance.choice([0, 0, -1])]
            leaf = chance.choice([*leaves, leaves[-1], leaves[-1], leaves[-1]])
            return Line("recover", (self.setting.ranges[chance.choice(ranges)], self.setting.leaves[leaf]))
        if kind == "trim":
            _, ranges = self.setting.zones[chance.choice([0, 0, -1])]
            ends = [end for records in self.files.values() for end, _, _ in records] or [begun]
            moments = [begun, self.end, chance.choice(ends), chance.choice(ends) + 1, *self.bounds[-2:]]
            self.bounds.append(chance.choice(moments) if chance.random() < 0.95 else FAR)
            return Line("trim", (self.setting.ranges[chance.choice(ranges)], self.bounds[-1]))
        if kind == "retire":
            _, ranges = self.setting.zones[chance.choice([0, 0, -1])]
            leaves, _ = self.setting.zones[chance.choice([0, 0, 0, -1])]
            place, leaf = chance.choice(ranges), chance.choice(leaves)
            return Line("retire", (self.setting.ranges[place], self.setting.leaves[leaf]))
        if kind == "standing":
            return self.a_standing(chance)
        moments = 3 * [self.end, self.end, self.end - 30, begun] + [begun // 2, FAR]
        return Line("tick", (chance.choice(moments),))

    def a_standing(self, chance):
        text = chance.choice([*TEXTS, *TEXTS, *TEXTS, *REFUSED])
        return Line("standing", (chance.choice(NAMES), chance.choice(PERIODS), text))

    def a_pour(self, chance, begun, part):
        """Two such files as a feed has, at once."""
        first = self.a_feed(chance, begun, part)
        second = self.a_feed(chance, begun, [*part, first])
        return Line("pour", first.given + second.given)

    def a_feed(self, chance, begun, part):
        """A file of points, most of which end in the part's time, of series that no other file of the part brings."""
        names = [name for line in part if line.word in FEEDS for name in line.given]
        taken = {fields for name in names for _, _, fields in self.files[name]}
        own = [fields for fields in self.series if fields not in taken and chance.random() < 0.5]
        name = f"p{len(self.files)}.csv"
        records = [
            (end, chance.randrange(1000), fields)
            for end in range(max(begun - 10 * (chance.random() < 0.2), 0) + 10, self.end + 1, 10)
            for fields in own
            if chance.random() < 0.5
        ]
        if self.has_switches or self.has_trims:
            # So that all orders can be gone through.
            room = MOST_ROWS - sum(len(self.files[name]) for name in names)
            kept = sorted(chance.sample(range(len(records)), min(len(records), chance.randint(0, room))))
            records = [records[number] for number in kept]
        self.files[name] = records
        return Line("feed", (name,))

    def texts(self):
        """The files of the run."""
        config = json.dumps({**sql.SCHEMAS, "limit": self.limit, "zones": self.zones}).encode()
        points = {
            name: "".join(
                f"Task,/work,{end - 10},{end},{value},{','.join(fields)}\n" for end, value, fields in records
            ).encode()
            for name, records in self.files.items()
        }
        lines = []
        for is_block, part in self.parts:
            lines += ["together"] * is_block + [line.text() for line in part] + ["end"] * is_block
        return {"config.json": config, "script.txt": "".join(f"{line}\n" for line in lines).encode(), **points}

    # ---- what may come of it

    def wanted(self, given):
        """The text that is wanted: the one that is given, as far as it may come."""
        return self.fronts(given)[-1]

    def fronts(self, given):
        """The same up to each part: nothing, then the text of the first part, and so on to the whole."""
        course, text, fronts = Course(self), "", [""]
        for is_block, part in self.parts:
            left = given[len(text) :].split("\n")
            text += course.block(part, left) if is_block else course.line(part[0], left)
            fronts.append(text)
        return fronts


def status(text):
    """The status of a run that prints a text and comes to its end."""
    return 7 if re.search("^refused: ", text, re.MULTILINE) else 0


class Course:
    """A script as far as it ran: the states that its leaves and ranges may have, what was accepted, and what stands."""

    def __init__(self, script):
        self.script, self.setting, self.limit = script, script.setting, script.limit
        self.states = {self.setting.begin()}
        # Of each series the end of its newest point, hidden or not.
        self.lasts = {}
        self.standing, self.last = [], None

    def range_of(self, fields):
        for number, zone in enumerate(self.script.zones):
            if fields[2] in zone["locations"]:
                return self.setting.zones[number][1][("Task", *fields) >= ("Task", "u2")]
        return None

    # ---- a line alone

    def line(self, line, given):
        """What a line alone prints: of what may come in some state what is given, if it is among that."""
        if line.word == "standing":
            return self.stand(*line.given)
        if line.word == "tick":
            return self.tick(line.given[0], given)
        return self.one_of(sorted(self.states), lambda state: self.run(line, state), given)

    def one_of(self, states, run, given):
        """Runs from each state, and keeps those states that end with the text that is given."""
        ran = [run(state) for state in states]
        text = next((text for _, text, _ in ran if is_front(text, given)), ran[0][1])
        self.states = {state for state, other, _ in ran if other == text}
        self.accept(next(accepted for _, other, accepted in ran if other == text))
        return text

    def run(self, line, state):
        """The state behind a line alone, its text, and what it accepted."""
        if line.word in FEEDS:
            return self.feeds(line.given, state)
        if line.word in QUESTIONS:
            return state, self.ask(line.word, *line.given, state), []
        if line.word == "follow":
            return state, self.follow(*line.given, state), []
        state, outcome = self.setting.alone(state, self.operation(line))
        return state, outcome + "\n", []

    def operation(self, line):
        """What a line does that switches a leaf, or that recovers, trims or retires a range."""
        if line.word == "trim":
            return "trim", self.setting.ranges.index(line.given[0]), line.given[1]
        if line.word in ("recover", "retire"):
            return line.word, self.setting.ranges.index(line.given[0]), self.setting.leaves.index(line.given[1])
        return "switch", self.setting.leaves.index(line.given[0]), line.word == "down"

    def feeds(self, names, state):
        text, accepted = "", []
        for name in names:
            state, printed, taken = self.feed(name, state)
            text += printed
            accepted += taken
        return state, text, accepted

    def feed(self, name, state):
        accepted, refused, lasts = [], [], {}
        for number, (end, value, fields) in enumerate(self.script.files[name], 1):
            last = lasts.get(fields, self.last_of(fields))
            if end <= last:
                refused.append(f"row {number}: OldPoint {last}")
                continue
            state, outcome = self.setting.alone(state, ("write", self.range_of(fields), (fields, end, value)))
            if outcome:
                refused.append(f"row {number}: {outcome}")
            else:
                accepted.append((end, value, fields))
                lasts[fields] = end
        lines = [f"feed {name}: {len(accepted)} accepted, {len(refused)} refused", *refused]
        return state, "".join(f"{line}\n" for line in lines), accepted

    def last_of(self, fields):
        return self.lasts.get(fields, -1)

    def accept(self, accepted):
        for end, _, fields in accepted:
            self.lasts[fields] = end

    # ---- queries

    def ask(self, word, moment, text, state):
        """What a query prints over all that was accepted and is not hidden."""
        operations = TEXTS[text][1]
        sizes = {place: [0, 0] for place in range(len(self.setting.ranges))}
        found = found_at(moment, text, state)
        rows = sums(found)
        for fields, values in found.items():
            sizes[self.range_of(fields)][0] += len(values)
            sizes[self.range_of(fields)][1] += 1
        sent = self.setting.look(state, sizes, self.limit)
        if isinstance(sent, str):
            return sent + "\n"
        if word != "explain":
            return table(rows, moment)
        names = enumerate(self.setting.leaves)
        told = [f"leaf {name} read {sent[leaf]}" if leaf in sent else f"leaf {name} unread 0" for leaf, name in names]
        return table(rows, moment) + "".join(f"{line}\n" for line in operations + told)

    def follow(self, moment, period, count, text, state):
        """What a query prints that is followed: its table at each moment over the same points."""
        asked = self.ask("query", moment, text, state)
        if asked.startswith("refused: "):
            return asked
        printed = ""
        for at in range(moment, moment + count * period, period):
            found = found_at(at, text, state)
            if load(found) > self.limit:
                return f"refused: StepLimit {self.limit}\n"
            printed += f"at {at}:\n{table(sums(found), at)}"
        return printed

    # ---- standing queries

    def stand(self, name, period, text):
        if any(name == other for other, _, _ in self.standing):
            return "refused: NameTaken\n"
        if text in REFUSED:
            return f"refused: {REFUSED[text]}\n"
        self.standing.append((name, period, text))
        return f"standing {name}: added\n"

    def tick(self, moment, given):
        if self.last is not None and moment < self.last:
            return f"refused: Backwards {self.last}\n"
        firsts = [moment // period if self.last is None else self.last // period + 1 for _, period, _ in self.standing]
        times = [range(first, moment // period + 1) for first, (_, period, _) in zip(firsts, self.standing)]
        if sum(map(len, times)) > MOST_DUE:
            return f"refused: TooManyDue {MOST_DUE}\n"
        self.last = moment
        dues = []
        for number, (name, period, text) in enumerate(self.standing):
            dues += [(times_of * period, number, name, text) for times_of in times[number]]
        return self.one_of(sorted(self.states), lambda state: (state, self.asked(sorted(dues), state), []), given)

    def asked(self, dues, state):
        return "".join(f"{name} at {at}:\n{self.ask('query', at, text, state)}" for at, _, name, text in dues)

    # ---- a block

    def block(self, part, given):
        """What the lines of a block print: what is given, if some order brings it about, and else what comes of one
        line after another."""
        told = self.told(part, given)
        if told is not None:
            return told
        text = ""
        state = min(self.states)
        for line in part:
            state, printed, accepted = self.run(line, state)
            self.accept(accepted)
            text += printed
        self.states = {state}
        return text

    def told(self, part, given):
        """The text that is given, if it may come; the states are then those in which it does."""
        works, brought, asked, text = [], [], [], ""
        for line in part:
            printed = printed_by(line, given, self.setting)
            if printed is None:
                return None
            given = given[len(printed) :]
            text += "".join(f"{one}\n" for one in printed)
            if line.word in FEEDS:
                for name, lines in zip(line.given, fed_by(line.given, printed)):
                    work, accepted = self.told_feed(name, lines[1:])
                    if work is None or lines[0].split(":")[1] != f" {len(accepted)} accepted, {len(lines) - 1} refused":
                        return None
                    works.append(work)
                    brought.append(accepted)
            elif line.word in QUESTIONS:
                asked.append((line, printed))
            else:
                works.append([(self.operation(line), printed[0])])
        trims = [of for [(of, why), *_] in filter(None, works) if of[0] == "trim" and not why.startswith("refused")]
        ends = set()
        for stood, starts in self.alike().items():
            beside = Beside(self.setting, works)
            found, fronts = beside.ends(starts), self.fronts_of(brought, stood, trims)
            if all(self.may_be_asked(line, printed, fronts, beside.passed) for line, printed in asked):
                ends |= found
        if not ends:
            return None
        self.states = ends
        for accepted in brought:
            self.accept(accepted)
        return text

    def told_feed(self, name, lines):
        """The work of a feed with the refusals that are told, and what it accepted; no work where those can't be."""
        refused = dict(line.removeprefix("row ").split(": ", 1) for line in lines if re.match(r"row \d+: ", line))
        if len(refused) != len(lines) or list(map(int, refused)) != sorted(map(int, refused)):
            return None, []
        work, accepted, lasts = [], [], {}
        for number, (end, value, fields) in enumerate(self.script.files[name], 1):
            why = refused.pop(str(number), "")
            last = lasts.get(fields, self.last_of(fields))
            if end <= last:
                if why != f"OldPoint {last}":
                    return None, accepted
                continue
            work.append((("write", self.range_of(fields), (fields, end, value)), why))
            if not why:
                accepted.append((end, value, fields))
                lasts[fields] = end
        return (None if refused else work), accepted

    def alike(self):
        """The states in which the same points stand, by the points of each range."""
        alike = {}
        for state in self.states:
            alike.setdefault(tuple(points for _, points in state.ranges), set()).add(state)
        return alike

    def may_be_asked(self, line, printed, fronts, passed):
        """Whether a query in a block may print this: its table is that of all that stood before, and of each feed and
        range a front, but for what some trims hide; or it is refused for what some state of the block has."""
        moment, text = line.given
        span, operations = TEXTS[text]
        if printed[0].startswith("refused: NoReplica "):
            return self.may_lack(printed[0], passed)
        if printed[0].startswith("refused: "):
            is_over = self.most_load(fronts, moment, span) > self.limit
            return is_over and printed[0] == f"refused: StepLimit {self.limit}"
        rows = table_rows(printed, moment)
        if rows is None or self.least_load(fronts, moment, span, rows) > self.limit:
            return False
        if line.word != "explain":
            return True
        told = printed[len(rows) + 2 :]
        return told[: len(operations)] == operations and self.may_have_sent(told[len(operations) :], rows, passed)

    def fronts_of(self, brought, stood, trims):
        """Of each range and feed the points that may be seen while its rows come and trims hide some, with their
        series; and the same of each range's series that no feed brings."""
        fronts, left = [], [set(points) for points in stood]
        for accepted in brought:
            for place in {self.range_of(fields) for _, _, fields in accepted}:
                rows = [(fields, end, value) for end, value, fields in accepted if self.range_of(fields) == place]
                own = {fields for fields, _, _ in rows}
                old = tuple(point for point in stood[place] if point[0] in own)
                left[place] -= set(old)
                fronts.append((own, views(old, rows, [before for _, of, before in trims if of == place])))
        for place, points in enumerate(left):
            bounds = [before for _, of, before in trims if of == place]
            fronts.append(({point[0] for point in points}, views(tuple(sorted(points)), [], bounds)))
        return fronts

    def most_load(self, fronts, moment, span):
        return sum(max(load(in_reach(points, moment, span)) for points in seen) for _, seen in fronts)

    def least_load(self, fronts, moment, span, wanted):
        """The least load with which these rows may be found, above any limit where they may not."""
        total, left = 0, set(wanted)
        for own, seen in fronts:
            rows = {fields: wanted[fields] for fields in own if fields in wanted}
            found = [in_reach(points, moment, span) for points in seen]
            total += min((load(of) for of in found if sums(of) == rows), default=float("inf"))
            left -= own
        return float("inf") if left else total

    def may_lack(self, refusal, passed):
        """Whether some state has each leaf down at its cut, and one no other leaf with a replica that serves."""
        told = re.fullmatch(r"refused: NoReplica (\S+):((?: \w+@\d+)+)", refusal)
        if told is None or told[1] not in self.setting.ranges:
            return False
        founds = [found.split("@") for found in told[2].split()]
        place = self.setting.ranges.index(told[1])
        leaves, _ = next(zone for zone in self.setting.zones if place in zone[1])
        named = [self.setting.leaves.index(name) for name, _ in founds if name in self.setting.leaves]
        if len(set(named)) != len(founds) or not set(named) <= set(leaves):
            return False
        cuts = {(leaf, of.length) for state in passed for leaf, of in enumerate(state.leaves) if of.down and of.held}
        if not all((leaf, int(cut)) in cuts for leaf, (_, cut) in zip(named, founds)):
            return False
        return any(set(state.serving(place)) <= set(named) for state in passed)

    def may_have_sent(self, told, rows, passed):
        """Whether each leaf is told in its order, those that were down all along as unread, and all rows were sent."""
        sent = 0
        for leaf, (name, line) in enumerate(zip(self.setting.leaves, told)):
            words = line.split(" ")
            if line == f"leaf {name} unread 0":
                continue
            if words[:3] != ["leaf", name, "read"] or all(state.leaves[leaf].down for state in passed):
                return False
            sent += int(words[3])
        return sent == len(rows)


def views(stood, rows, bounds):
    """The points that may be there while rows come, one behind the other, and trims hide what they find."""
    left, known = [(0, 0, stood)], set()
    while left:
        node = left.pop()
        if node in known:
            continue
        known.add(node)
        count, trimmed, points = node
        if count < len(rows):
            left.append((count + 1, trimmed, (*points, rows[count])))
        for number, before in enumerate(bounds):
            if not trimmed & 1 << number:
                left.append((count, trimmed | 1 << number, standing(points, before)))
    return {points for _, _, points in known}


def found_at(moment, text, state):
    """The values in the reach of a query of each series that has some."""
    return in_reach([point for _, points in state.ranges for point in points], moment, TEXTS[text][0])


def in_reach(points, moment, span):
    """The values in a reach of each series that has some."""
    found = {}
    for fields, end, value in points:
        if moment - span < end <= moment:
            found.setdefault(fields, []).append(value)
    return found


def sums(found):
    return {fields: sum(values) for fields, values in found.items()}


def load(found):
    """The load of points in reach, by series: the points and the rows."""
    return sum(map(len, found.values())) + len(found)


def is_front(text, given):
    """Whether the lines that are given begin with a text."""
    lines = text.split("\n")[:-1]
    return given[: len(lines)] == lines


def printed_by(line, given, setting):
    """The lines of what is given that one line printed, by their form; none where it could not."""
    if not given or not given[0]:
        return None
    count = 1
    if line.word in FEEDS:
        texts = fed_by(line.given, given)
        if texts is None:
            return None
        count = sum(map(len, texts))
    elif line.word in QUESTIONS and not given[0].startswith("refused: "):
        ends = [number for number, one in enumerate(given) if re.fullmatch(r"\d+ rows", one)]
        if not ends:
            return None
        count += ends[0]
        if line.word == "explain":
            count += len(TEXTS[line.given[1]][1]) + len(setting.leaves)
    return given[:count] if len(given) > count else None


def fed_by(names, given):
    """The lines that each of these files printed, one behind the other; none where they could not."""
    texts = []
    for name in names:
        told = re.fullmatch(r"feed (\S+): \d+ accepted, (\d+) refused", given[0]) if given else None
        if told is None or told[1] != name:
            return None
        texts.append(given[: int(told[2]) + 1])
        given = given[len(texts[-1]) :]
    return texts


def table_rows(lines, moment):
    """The rows of a table that the lines begin with, as sums by series; None where they are no such table."""
    if lines[0] != HEADING:
        return None
    rows = {}
    for line in lines[1:]:
        if line.endswith(" rows"):
            return rows if table(rows, moment) == "".join(f"{one}\n" for one in lines[: len(rows) + 2]) else None
        cells = line.split(",")
        if len(cells) != 6 or not cells[5].isdigit() or not cells[4].isdigit():
            return None
        rows[tuple(cells[1:5])] = int(cells[5])
    return None


def table(rows, moment):
    """A table of sums by series, as it is printed."""
    ordered = sorted(rows.items(), key=lambda row: (*row[0][:3], int(row[0][3])))
    lines = [HEADING, *(f"{moment},{','.join(fields)},{total}" for fields, total in ordered)]
    return "".join(f"{line}\n" for line in [*lines, f"{len(rows)} rows"])
