#!/usr/bin/env python3
"""Times schedules of many lines, and prints ratios within this run.

    bench/weave.py [PROGRAM]

The schedule has 64 actors over four zones with eight leaves each. In each zone eight writes of long texts, which raise some
400 bits on each of three leaves, go beside one another, an event a line; then eight queries for these texts. It is cut at
25,000, 50,000 and 100,000 lines. What each prints is compared with tests/weaving.py. It prints the time and the peak memory
of each run, and how much longer twice as many lines take.
"""

import json
import pathlib
import random
import sys
import tempfile

from made import PROGRAM, timed_run
import weaving

SIZES = [25_000, 50_000, 100_000]
ROUNDS = 5
ZONES, LEAVES, LETTERS = 4, 8, 400
FIELDS = [{"name": "u", "type": "text"}, {"name": "z", "type": "text", "location": True}]
ALPHABET = "abcdefghijklmnopqrstuvwxyz"


def zone(number):
    """A zone with a range for each of its leaves, which is on that leaf and the two behind it."""
    leaves = [f"z{number}_{place}" for place in range(LEAVES)]
    ranges = [
        {
            "from": ["T", ALPHABET[place]] if place else [],
            "leaves": [leaves[(place + slot) % LEAVES] for slot in range(3)],
        }
        for place in range(LEAVES)
    ]
    return {"name": f"z{number}", "locations": [f"at{number}"], "leaves": leaves, "ranges": ranges}


CONFIG = {
    "buckets": 4096,
    "targets": [{"name": "T", "fields": FIELDS}],
    "metrics": [{"name": "/m", "kind": "gauge", "type": "int", "column": "v"}],
    "zones": [zone(number) for number in range(ZONES)],
}


class Long:
    """The schedule, and what it has printed by each line."""

    def __init__(self):
        self.weave = weaving.Weave(weaving.Setting(CONFIG), {})
        self.lines, self.printed = [], []
        chance = random.Random(1)
        for number in range(ZONES):
            texts = [ALPHABET[place] + "".join(chance.choices(ALPHABET, k=LETTERS)) for place in range(LEAVES)]
            first = 2 * LEAVES * number + 1
            self.go_round(first, [f"T,/m,10,10,{place},{text},at{number}" for place, text in enumerate(texts)], "write")
            self.go_round(first + LEAVES, [f'10 fetch T::/m | filter u=="{text}"' for text in texts], "query")

    def go_round(self, first, calls, word):
        """Declares actors, and lets each do an event in turn until all have ended."""
        numbers = range(first, first + len(calls))
        for number, call in zip(numbers, calls):
            self.add(f"{word} {number} {call}")
        while any(self.is_open(number) for number in numbers):
            for number in numbers:
                if self.is_open(number):
                    self.add(f"step {number}")

    def is_open(self, number):
        return self.weave.actors[number].ended is None

    def add(self, line):
        self.lines.append(line + "\n")
        self.printed.append(weaving.run_line(self.weave, line.encode()) or "")

    def front(self, size):
        """So many lines of it, and what they print."""
        if len(self.lines) < size:
            sys.exit(f"only {len(self.lines)} lines")
        declared, ended = [], set()
        for line, text in zip(self.lines[:size], self.printed):
            word, number, *_ = line.split()
            if word != "step":
                declared.append(int(number))
            elif text.startswith("actor"):
                ended.add(int(number))
        left = [f"{number} unfinished\n" for number in sorted(set(declared) - ended)]
        return "".join(self.lines[:size]), "".join(self.printed[:size] + left)


def measure(program, folder, size):
    """The least time and the greatest peak of several runs."""
    runs = []
    for _ in range(ROUNDS):
        taken, peak, status = timed_run(program, folder, f"s{size}.txt", "weave")
        if status != 0:
            sys.exit(f"unexpected: status {status} of {size} lines")
        runs.append((taken, peak))
    return min(taken for taken, _ in runs), max(peak for _, peak in runs)


def main():
    program = pathlib.Path(sys.argv[1]).resolve() if len(sys.argv) > 1 else PROGRAM
    schedule = Long()
    with tempfile.TemporaryDirectory() as name:
        folder = pathlib.Path(name)
        (folder / "config.json").write_text(json.dumps(CONFIG))
        times = {}
        for size in SIZES:
            text, printed = schedule.front(size)
            (folder / f"s{size}.txt").write_text(text)
            times[size], peak = measure(program, folder, size)
            if (folder / "out.txt").read_text() != printed:
                sys.exit(f"unexpected: what {size} lines print")
            print(f"{size} lines: {times[size]:.3f} s, peak {peak:.1f} MiB")
        for size in SIZES[1:]:
            print(f"{size} to {size // 2} lines: {times[size] / times[size // 2]:.2f}")


if __name__ == "__main__":
    main()
