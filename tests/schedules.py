"""Makes schedules by chance: writes, queries, switches of leaves, recoveries, trims and retirements by up to fourteen
actors beside one another, over one leaf, over three leaves with ranges on one to three of them, and over two zones with
three leaves each.
"""

import weaving

# Each configuration of tests/tables with the locations of its rows, and how much of the schedules is over it.
SETTINGS = [("one_leaf.json", "e", 1), ("three_leaves.json", "e", 2), ("six_leaves.json", "efw", 3)]
USERS = ["alpha", "gamma", "kappa", "omega", "psi", "tau", ""]
WRITE_EVENTS = ["reserve", "enter", "raise_root", "raise_zone", "put", "ack"]
TRIM_EVENTS = ["reserve", "enter", "put", "ack"]
RECOVERY_EVENTS = ["reserve", "reserve", "enter", "raise_root", "raise_zone", "put", "ack"]
QUERY_EVENTS = ["load_zone", "resolve", "visit", "visit", "visit"]
EVENTS = {
    "write": WRITE_EVENTS,
    "trim": TRIM_EVENTS,
    "recovery": RECOVERY_EVENTS,
    "query": QUERY_EVENTS,
    "switch": ["switch"],
    "retirement": ["retire"],
}

QUERIES = [
    "fetch T::/m",
    "fetch T::/m",
    "fetch T::/m",
    "fetch T::/d",
    'fetch T::/m | filter u=="alpha"',
    'fetch T::/m | filter u=="kappa" || u=="tau"',
    'fetch T::/m | filter z=="e" && u!="psi"',
    'fetch T::/m | filter z=="w"',
    'fetch T::/m | filter u=~".*ga" || u=~"ga.*"',
    'fetch T::/m | filter !(u=~".*app.*")',
    "fetch T::/m | filter v<4",
    "fetch T::/m | align next_older(60s) | filter v>=3",
    "fetch T::/m | group_by [], sum(v), count()",
    "fetch T::/m | group_by [z], max(v), count()",
    "fetch T::/m | group_by [u,z], sum(v)",
    "fetch T::/d | align delta(60s) | group_by [u], sum(d)",
    'fetch T::/d | filter d>2 | group_by [z], min(d)',
    "fetch T::/c",
    "fetch T::/c | align delta(60s) | group_by [u], sum(c)",
    'fetch T::/c | filter u!="psi" | filter c>2 | group_by [z], sum(c), count()',
    '{fetch T::/m | filter u=="tau";fetch T::/m | filter z=="e"} | union',
    "{fetch T::/m;fetch T::/m} | union | group_by [z], sum(v), count()",
]

REFUSALS = {
    "": "refused: Parse 0 Expected fetch",
    "fetch T::/m ": "refused: Parse 12 Expected |",
    "fetch T::/q": "refused: Typing 9 UnknownMetric",
    "fetch Q::/m": "refused: Typing 6 UnknownSchema",
}


class Maker:
    """A schedule that is made: its lines so far, and the store that they were run on."""

    def __init__(self, chance, setting, locations):
        self.chance, self.setting, self.locations = chance, setting, locations
        self.weave = weaving.Weave(setting, REFUSALS)
        self.lines = []
        self.waiting = chance.sample(range(1, weaving.MOST_ACTORS + 1), chance.randint(5, 14))
        self.kinds = {}
        self.now = 10

    def add(self, line, times=1):
        """Adds a line so often, as long as it is lawful."""
        for _ in range(times):
            if not self.is_lawful(line):
                break
            weaving.run_line(self.weave, line.encode())
            self.lines.append(line)

    def is_lawful(self, line):
        word, number, *_ = line.split(" ")
        actor = self.weave.actors.get(int(number))
        return word not in ("step", "until", "finish") or actor.ended is None

    def make(self):
        for _ in range(self.chance.randint(1, 4)):
            self.add(f"finish {self.declare_write()}")
        for _ in range(self.chance.randint(12, 40)):
            self.chance.choice([self.declare, self.declare, self.meet, self.tangle, *[self.go] * 5])()
        if self.chance.random() < 0.5:
            self.finish_all()
        if self.chance.random() < 0.2:
            self.lines.append(self.refused_line())
        return self.lines

    def declare(self):
        if not self.waiting:
            return
        how = self.chance.random()
        if how < 0.36:
            self.declare_write()
        elif how < 0.62:
            self.declare_query()
        elif how < 0.75:
            self.declare_switch()
        elif how < 0.84:
            self.declare_recovery()
        elif how < 0.93:
            self.declare_trim()
        else:
            self.declare_retirement()

    def declare_write(self):
        number = self.waiting.pop(0)
        self.kinds[number] = "write"
        self.add(f"write {number} {self.row()}")
        return number

    def declare_query(self):
        number = self.waiting.pop(0)
        self.kinds[number] = "query"
        self.add(f"query {number} {self.query()}")
        return number

    def declare_switch(self):
        number = self.waiting.pop(0)
        self.kinds[number] = "switch"
        leaf = self.chance.randrange(len(self.setting.leaf_names))
        is_likely = self.chance.random() < 0.9
        word = "up" if self.weave.down[leaf] == is_likely else "down"
        self.add(f"{word} {number} {self.setting.leaf_names[leaf]}")
        return number

    def declare_recovery(self):
        number = self.waiting.pop(0)
        self.kinds[number] = "recovery"
        _, leaves, ranges = self.chance.choice(self.setting.zones)
        place = self.chance.choice(ranges)
        others = [leaf for leaf in leaves if self.weave.serving_on(place, leaf) is None]
        leaf = self.chance.choice(others if others and self.chance.random() < 0.8 else leaves)
        self.add(f"recover {number} {self.weave.named(place, leaf)}")
        return number

    def declare_trim(self):
        number = self.waiting.pop(0)
        self.kinds[number] = "trim"
        bound = max(0, self.now + self.chance.choice([-9, -4, -2, -1, 0, 0, 1, 5]))
        self.add(f"trim {number} {self.chance.choice(self.setting.range_names)} {bound}")
        return number

    def declare_retirement(self):
        number = self.waiting.pop(0)
        self.kinds[number] = "retirement"
        place = self.chance.randrange(len(self.setting.ranges))
        leaves = [self.weave.slots[place][slot] for slot in self.weave.serving[place]]
        is_likely = self.chance.random() < 0.85
        leaf = self.chance.choice(leaves) if is_likely else self.chance.randrange(len(self.setting.leaves))
        self.add(f"retire {number} {self.weave.named(place, leaf)}")
        return number

    def row(self):
        location = self.chance.choice(self.locations) if self.chance.random() < 0.97 else "nowhere"
        user = self.chance.choice(USERS)
        end = max(1, self.now - self.chance.choice([0, 0, 0, 0, 1, 5]))
        self.now += self.chance.choice([0, 1, 1, 3])
        metric = self.chance.choice(["/m", "/m", "/m", "/d", "/c", "/c"])
        start = end if metric == "/m" else end - self.chance.randint(1, min(end, 9))
        if metric == "/c":
            start = self.chance.choice([start, 0, 0, end // 20 * 20 if end % 20 else 0])
        return f"T,{metric},{start},{end},{self.chance.randint(-2, 9)},{user},{location}"

    def query(self):
        if self.chance.random() < 0.03:
            return f"10 {self.chance.choice(list(REFUSALS))}"
        moment = max(0, self.now + self.chance.choice([-2, 0, 0, 2, 2, 5, 10, 40, 57, 59, 62]))
        return f"{moment} {self.chance.choice(QUERIES)}"

    def open(self):
        return [number for number, actor in self.weave.actors.items() if actor.ended is None]

    def go(self):
        """Lets an actor that has not ended go on."""
        numbers = self.open()
        if not numbers:
            return
        number = self.chance.choice(numbers)
        events = EVENTS[self.kinds[number]]
        how = self.chance.random()
        if how < 0.35:
            self.add(f"step {number}", self.chance.choice([1, 1, 2, 3, 5]))
        elif how < 0.8:
            self.add(f"until {number} {self.chance.choice(events)}")
        else:
            self.add(f"finish {number}")

    def tangle(self):
        """Lets a query come to a leaf, a write or a trim go on beside it, and the query look."""
        queries = [number for number in self.open() if self.kinds[number] == "query"]
        writes = [number for number in self.open() if self.kinds[number] in ("write", "trim")]
        if not queries or not writes:
            return
        query, write = self.chance.choice(queries), self.chance.choice(writes)
        self.add(f"until {query} visit")
        self.add(f"until {write} {self.chance.choice(['put', 'put', 'put', 'raise_zone', 'enter', 'ack'])}")
        if self.chance.random() < 0.3:
            self.add(f"finish {write}")
        if self.waiting and self.chance.random() < 0.3:
            self.add(f"finish {self.declare_switch()}")
        self.add(f"step {query}")

    def meet(self):
        """Lets an actor that has not begun meet one that has ended."""
        new = [number for number in self.open() if not self.weave.actors[number].begun]
        ended = [number for number, actor in self.weave.actors.items() if actor.ended is not None]
        if new and ended:
            self.add(f"meet {self.chance.choice(new)} {self.chance.choice(ended)}")

    def finish_all(self):
        """Lets the actors end in some order, and asks for all that is there."""
        for _ in range(3):
            numbers = self.open()
            self.chance.shuffle(numbers)
            for number in numbers:
                self.add(f"finish {number}")
        if self.waiting:
            number = self.declare_query()
            self.meet()
            self.add(f"finish {number}")

    def refused_line(self):
        """A line that can't come here, or never."""
        numbers = list(self.weave.actors) or [1]
        number = self.chance.choice(numbers)
        other = next(other for other in range(1, weaving.MOST_ACTORS + 1) if other not in self.weave.actors)
        lines = [f"step {other}", f"until {other} put", f"meet {number} {other}", f"meet {number} {number}"]
        lines += [f"query {number} 1 fetch T::/m", f"until {number} nothing", "step 0", "finish 65", f"down {other} e9"]
        lines += [f"recover {other} {self.setting.range_names[0]} e9", f"recover {other} east/9 e1"]
        lines += [f"trim {other} east/9 5", f"trim {other} east/0 -1", f"trim {other} east/0", f"trim {number} east/0 5"]
        lines += [f"retire {other} east/0 e9", f"retire {other} east/9 e1", f"retire {number} east/0 e1"]
        ended = [number for number, actor in self.weave.actors.items() if actor.ended is not None]
        if ended:
            lines += [f"step {self.chance.choice(ended)}", f"meet {self.chance.choice(ended)} {self.chance.choice(ended)}"]
        if self.open():
            lines.append(f"meet {other} {self.chance.choice(self.open())}")
        return self.chance.choice(lines)
