#!/usr/bin/env python3
"""Times one feed under configurations of more and more leaves and ranges, and prints ratios within this run.

    bench/many_ranges.py [PROGRAM]

The feed has 200,000 points of 1,000 series in four zones, and each range lies on two leaves of its zone. At each lock a
caller and what it comes to compare how far both have seen the history of each leaf and of each range, so a row costs more
the more of them there are. Where a built program is named, that one is run; else the one of this repository, which is
built where it isn't yet."""

import json
import pathlib
import statistics
import sys
import tempfile

from made import PROGRAM, timed_run

ZONES, SERIES, POINTS, ROUNDS = 4, 1_000, 200_000, 5
# Leaves and ranges of a zone; the last are as many as a configuration may have in all.
SIZES = ((2, 2), (4, 16), (8, 64), (16, 128))


def a_zone(number, leaves, ranges):
    names = [f"z{number}l{leaf}" for leaf in range(leaves)]
    bounds = [[]] + [["T", f"s{SERIES * place // ranges:06}"] for place in range(1, ranges)]
    held = [[names[place % leaves], names[(place + 1) % leaves]] for place in range(ranges)]
    return {
        "name": f"z{number}",
        "locations": [f"e{number}"],
        "leaves": names,
        "ranges": [{"from": bound, "leaves": both} for bound, both in zip(bounds, held)],
    }


def write_run(folder, leaves, ranges):
    fields = [{"name": "name", "type": "text"}, {"name": "place", "type": "text", "location": True}]
    config = {
        "targets": [{"name": "T", "fields": fields}],
        "metrics": [{"name": "/m", "kind": "gauge", "type": "int", "column": "v"}],
        "zones": [a_zone(number, leaves, ranges) for number in range(ZONES)],
    }
    (folder / "config.json").write_text(json.dumps(config))
    lines = (
        f"T,/m,{row // SERIES + 1},{row // SERIES + 1},{row},s{row % SERIES:06},e{row % SERIES % ZONES}\n"
        for row in range(POINTS)
    )
    (folder / "p.csv").write_text("".join(lines))
    (folder / "script.txt").write_text("feed p.csv\n")


def main(words):
    program = pathlib.Path(words[0]) if words else PROGRAM
    folders = []
    with tempfile.TemporaryDirectory() as name:
        for leaves, ranges in SIZES:
            folder = pathlib.Path(name) / f"{leaves}x{ranges}"
            folder.mkdir()
            write_run(folder, leaves, ranges)
            folders.append(folder)
        taken = [[] for _ in SIZES]
        for _ in range(ROUNDS):
            for times, folder in zip(taken, folders):
                seconds, _, status = timed_run(program, folder, "script.txt")
                if status != 0:
                    sys.exit(f"unexpected: status {status} of {folder.name}")
                times.append(seconds)
    first = taken[0]
    for (leaves, ranges), times in zip(SIZES, taken):
        ratio = statistics.median(own / base for own, base in zip(times, first))
        print(f"{ZONES * leaves:3} leaves, {ZONES * ranges:3} ranges: {min(times):.2f} s, {ratio:.2f} of the first")


main(sys.argv[1:])
