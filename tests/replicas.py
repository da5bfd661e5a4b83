"""What leaves and ranges come to while lines run beside each other, worked out step by step from the rules alone.

A state is a value: of each leaf how long its history is, whether it is down and whether it has held a row; of each
range its replicas, slot by slot, with whether they serve, and the points that were acknowledged there and that no trim
hides. A line's work is a list of operations, and each operation goes step by step: a row or a trim asks the leaf of
each replica for room and then enters each, a recovery asks its sources, then its leaf, and enters it, and a switch and
a retirement are one step. A range is held from the first step of a row, a trim or a recovery to its end. `ends` gives
all states in which lines beside each other may end, if each operation comes out as it is said to have."""

from typing import NamedTuple

MOST_REPLICAS, MOST_SLOTS = 3, 64
MOST_NODES = 100_000


class TooMany(Exception):
    """More orders would have to be looked at than are."""


def standing(points, before):
    """The points that a trim below a bound leaves."""
    return tuple(point for point in points if point[1] >= before)


class LeafState(NamedTuple):
    length: int
    down: bool
    held: bool


class State(NamedTuple):
    leaves: tuple
    # Of each range its slots, as pairs of a leaf and whether the replica serves, and its points in their order, as
    # series, ends and values.
    ranges: tuple

    def serving(self, place):
        """The leaves of the replicas of a range that serve, in the order of their slots."""
        return [leaf for leaf, serves in self.ranges[place][0] if serves]

    def with_leaf(self, leaf, length, down, held):
        changed = LeafState(length, down, held)
        return self._replace(leaves=self.leaves[:leaf] + (changed,) + self.leaves[leaf + 1 :])

    def with_range(self, place, slots, points):
        return self._replace(ranges=self.ranges[:place] + ((slots, points),) + self.ranges[place + 1 :])

    def without(self, place, leaves):
        """The slots of a range of which those on some leaves serve no more."""
        return tuple((leaf, serves and leaf not in leaves) for leaf, serves in self.ranges[place][0])


class Setting:
    """The leaves and ranges of zones, by their numbers."""

    def __init__(self, zones):
        self.leaves, self.ranges, self.zones, self.replicas = [], [], [], []
        for zone in zones:
            leaves = range(len(self.leaves), len(self.leaves) + len(zone["leaves"]))
            ranges = range(len(self.ranges), len(self.ranges) + len(zone["ranges"]))
            self.zones.append((leaves, ranges))
            self.leaves += zone["leaves"]
            self.ranges += [f"{zone['name']}/{number}" for number in range(len(zone["ranges"]))]
            self.replicas += [[leaves[zone["leaves"].index(name)] for name in of["leaves"]] for of in zone["ranges"]]

    def begin(self):
        """The state before any line."""
        lengths = [sum(leaf in replicas for replicas in self.replicas) for leaf in range(len(self.leaves))]
        leaves = tuple(LeafState(length, False, False) for length in lengths)
        return State(leaves, tuple((tuple((leaf, True) for leaf in of), ()) for of in self.replicas))

    def founds(self, founds):
        return "".join(f" {self.leaves[leaf]}@{cut}" for leaf, cut in founds)

    # ---- one step of an operation: the state then, its next phase or none, and its outcome, once it has one

    def step(self, state, operation, phase):
        word, *what = operation
        return getattr(self, word)(state, phase, *what)

    def write(self, state, phase, place, point):
        state, phase, missed = self.turn(state, phase, place, True)
        if missed is None or len(missed) == len(state.serving(place)):
            return state, phase, None if missed is None else self.unavailable(place, missed)
        points = tuple(sorted((*state.ranges[place][1], point)))
        return state.with_range(place, state.without(place, missed), points), None, ""

    def trim(self, state, phase, place, before):
        state, phase, missed = self.turn(state, phase, place, False)
        count = len(state.serving(place))
        if missed is None or len(missed) == count:
            return state, phase, None if missed is None else "refused: " + self.unavailable(place, missed)
        state = state.with_range(place, state.without(place, missed), standing(state.ranges[place][1], before))
        return state, None, f"trim {self.ranges[place]}: took {count - len(missed)}, missed {len(missed)}"

    def unavailable(self, place, missed):
        return f"Unavailable {self.ranges[place]}:{self.founds(missed.items())}"

    def turn(self, state, phase, place, is_row):
        """A row or a trim asks each leaf for room, and then enters each that had some: the state then, the next phase
        or none, and behind the last one the leaves that missed it, with their lengths."""
        leaves = state.serving(place)
        at, founds = phase or (0, ())
        entered = at - len(leaves)
        leaf = leaves[entered if entered >= 0 else at]
        length, down, held = state.leaves[leaf]
        if entered < 0:
            founds += (length if down else None,)
        elif down:
            founds = founds[:entered] + (length,) + founds[entered + 1 :]
        else:
            state = state.with_leaf(leaf, length + 1, False, held or is_row)
        at += 1
        while len(leaves) <= at < 2 * len(leaves) and founds[at - len(leaves)] is not None:
            at += 1
        if at < 2 * len(leaves):
            return state, (at, founds), None
        return state, None, {leaf: cut for leaf, cut in zip(leaves, founds) if cut is not None}

    def recover(self, state, phase, place, leaf):
        """A recovery asks the leaves of the replicas that serve until one is up, then its own leaf, and enters that."""
        slots, points = state.ranges[place]
        sources = state.serving(place)
        if not phase:
            if leaf in sources:
                return state, None, f"refused: Serving {slots.index((leaf, True))}"
            if len(sources) == MOST_REPLICAS:
                return state, None, "refused: ThreeServing"
            if len(slots) == MOST_SLOTS:
                return state, None, f"refused: SlotsSpent {MOST_SLOTS}"
        at, founds = phase or (0, ())
        length, down, held = state.leaves[sources[at] if at < len(sources) else leaf]
        if at < len(sources):
            if not down:
                return state, (len(sources), founds), None
            founds += ((sources[at], length),)
            if len(founds) == len(sources):
                return state, None, f"refused: SourceDown:{self.founds(founds)}"
            return state, (at + 1, founds), None
        if down:
            return state, None, f"refused: TargetDown {length}"
        if at == len(sources):
            return state, (at + 1, founds), None
        state = state.with_leaf(leaf, length + 1, False, held or len(points) > 0)
        state = state.with_range(place, (*slots, (leaf, True)), points)
        return state, None, f"recover {self.ranges[place]} {self.leaves[leaf]}: slot {len(slots)}"

    def retire(self, state, phase, place, leaf):
        slots, points = state.ranges[place]
        if leaf not in state.serving(place):
            return state, None, "refused: NotServing"
        slot = slots.index((leaf, True))
        if len(state.serving(place)) == 1:
            return state, None, f"refused: LastServing {slot}"
        state = state.with_range(place, state.without(place, [leaf]), points)
        return state, None, f"retire {self.ranges[place]} {self.leaves[leaf]}: slot {slot}"

    def switch(self, state, phase, leaf, goes_down):
        length, down, held = state.leaves[leaf]
        if down == goes_down:
            return state, None, f"refused: Already{'Down' if down else 'Up'} {length}"
        state = state.with_leaf(leaf, length + 1, goes_down, held)
        return state, None, f"{'down' if goes_down else 'up'} {self.leaves[leaf]}: done"

    def touched(self, state, operation, phase):
        """The leaf that the next step looks at, if it looks at one."""
        word, place, what = operation
        if word in ("switch", "retire"):
            return place if word == "switch" else None
        leaves = state.serving(place)
        at = phase[0] if phase else 0
        if at < len(leaves):
            return leaves[at]
        return what if word == "recover" else leaves[at - len(leaves)]

    def alone(self, state, operation):
        """An operation from its first step to its end: the state then, and its outcome."""
        phase = ()
        while phase is not None:
            state, phase, outcome = self.step(state, operation, phase)
        return state, outcome

    # ---- a query

    def look(self, state, sizes, limit):
        """What a query finds for which each range has so many points and rows: the rows that each leaf sends that is
        read, or why it is refused. A zone of which no leaf has held a row is left out."""
        sent = {}
        for leaves, ranges in self.zones:
            if any(state.leaves[leaf].held for leaf in leaves):
                found = self.look_in(state, leaves, ranges, sizes, limit)
                if isinstance(found, str):
                    return found
                sent |= found
                if sum(points + rows for points, rows in found.values()) > limit:
                    break
        if sum(points + rows for points, rows in sent.values()) > limit:
            return f"refused: StepLimit {limit}"
        return {leaf: rows for leaf, (_, rows) in sent.items()}

    def look_in(self, state, leaves, ranges, sizes, limit):
        founds = []
        while True:
            read = {}
            for place in ranges:
                serving = [leaf for leaf in state.serving(place) if leaf not in dict(founds)]
                if not serving:
                    return f"refused: NoReplica {self.ranges[place]}:{self.founds(founds)}"
                read.setdefault(serving[0], []).append(place)
            sent = self.visits(state, [leaf for leaf in leaves if leaf in read], read, sizes, limit, founds)
            if sent is not None:
                return sent

    def visits(self, state, leaves, read, sizes, limit, founds):
        """What each leaf has, or none where one is found down."""
        sent = {}
        for leaf in leaves:
            length, down, held = state.leaves[leaf]
            if not held:
                continue
            if down:
                founds.append((leaf, length))
                return None
            points, rows = (sum(sizes[place][part] for place in read[leaf]) for part in (0, 1))
            sent[leaf] = points, rows
            if points + rows > limit:
                break
        return sent


class Beside:
    """Lines beside each other: their works, each a list of operations with the outcomes that they are to have."""

    def __init__(self, setting, works):
        self.setting, self.works = setting, works
        operations = [[operation for operation, _ in work] for work in works]
        self.switched = {one[1] for work in operations for one in work if one[0] == "switch"}
        places = [{one[1] for one in work if one[0] != "switch"} for work in operations]
        self.shared = {place for of in places for place in of if sum(place in other for other in places) > 1}
        # The ranges to which more comes than rows.
        self.changed = {one[1] for work in operations for one in work if one[0] not in ("switch", "write")}
        # All states that were come through.
        self.passed = set()

    def ends(self, starts):
        """The states in which the lines may end that begin in one of these."""
        begun = tuple((0, ()) for _ in self.works)
        left, known, found = [(state, begun) for state in starts], set(), set()
        while left:
            node = self.hurried(*left.pop())
            if node is None or node in known:
                continue
            known.add(node)
            if len(known) > MOST_NODES:
                raise TooMany
            state, places = node
            self.passed.add(state)
            if all(self.has_ended(line, places) for line in range(len(self.works))):
                found.add(state)
            for line in range(len(self.works)):
                if not self.has_ended(line, places) and not self.waits(line, places):
                    node = self.stepped(line, state, places)
                    left += [node] if node is not None else []
        return found

    def has_ended(self, line, places):
        return places[line][0] == len(self.works[line])

    def waits(self, line, places):
        """Whether another line holds the range of the operation that a line is to begin."""
        number, phase = places[line]
        word, place, *_ = self.works[line][number][0]
        if phase or word == "switch":
            return False
        for other, (at, begun) in enumerate(places):
            if other != line and begun and self.works[other][at][0][1] == place:
                return True
        return False

    def stepped(self, line, state, places):
        """The state and the places behind a line's next step, or none where that comes out as it did not."""
        number, phase = places[line]
        operation, wanted = self.works[line][number]
        state, phase, outcome = self.setting.step(state, operation, phase)
        if phase is None and outcome != wanted:
            return None
        then = (number + 1, ()) if phase is None else (number, phase)
        return state, places[:line] + (then,) + places[line + 1 :]

    def hurried(self, state, places):
        """The same behind all steps that no step of another line comes before or behind with another outcome."""
        line = 0
        while line < len(self.works):
            if self.has_ended(line, places) or not self.is_free(line, state, places):
                line += 1
                continue
            node = self.stepped(line, state, places)
            if node is None:
                return None
            state, places = node
        return state, places

    def is_free(self, line, state, places):
        """Whether a line's next step looks at a leaf that no line switches, in a range that is its own."""
        number, phase = places[line]
        operation = self.works[line][number][0]
        if operation[0] == "switch" or (not phase and self.has_order(state, operation[1])):
            return False
        return self.setting.touched(state, operation, phase) not in self.switched

    def has_order(self, state, place):
        """Whether it may count which of several lines goes first at a range."""
        if place not in self.shared:
            return False
        return place in self.changed or any(leaf in self.switched for leaf in state.serving(place))
