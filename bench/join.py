#!/usr/bin/env python3
"""A join of a key that occurs 3,000 times on each side, under a limit of 1,000,000.

    bench/join.py

Its 9,000,000 pairs are above the limit, so the query is refused. It prints the time and the peak memory of that run, and
those of a run whose join has just under a million rows, which are made and printed.
"""

import json
import pathlib
import subprocess
import sys
import tempfile

from made import PROGRAM, ROOT, timed_run

MANY = 3000
FEW = 990
QUERY = "{fetch Left::/size | value [a: size]; fetch Right::/size | value [b: size]} | join"


def target(name, field):
    return {
        "name": name,
        "fields": [{"name": field, "type": "text"}, {"name": "cell", "type": "text", "location": True}],
    }


CONFIG = {
    "limit": 1000000,
    "targets": [target("Left", "left"), target("Right", "right")],
    "metrics": [{"name": "/size", "kind": "gauge", "type": "int", "column": "size"}],
    "zones": [
        {"name": "all", "locations": ["aa"], "leaves": ["leaf"], "ranges": [{"from": [], "leaves": ["leaf"]}]}
    ],
}


def write_input(folder, count):
    """So many series on each side, all in one cell, which is their common column."""
    (folder / "config.json").write_text(json.dumps(CONFIG))
    with open(folder / f"p{count}.csv", "w", encoding="utf-8") as out:
        for side in ("Left", "Right"):
            for number in range(count):
                out.write(f"{side},/size,10,10,{number},s{number},aa\n")
    (folder / f"feed{count}.txt").write_text(f"feed p{count}.csv\n")
    (folder / f"join{count}.txt").write_text(f"feed p{count}.csv\nquery 10 {QUERY}\n")


def run(folder, name):
    """Seconds, peak memory in MiB, status and the last line of a run."""
    taken, peak, status = timed_run(PROGRAM, folder, name)
    last = (folder / "out.txt").read_text().splitlines()[-1]
    return taken, peak, status, last


def main():
    if len(sys.argv) != 1:
        sys.exit(__doc__)
    # Builds the program where it isn't built.
    subprocess.run([ROOT / "mon", "run", "config.json", "script.txt"], cwd=ROOT / "examples/first", check=True)
    with tempfile.TemporaryDirectory() as name:
        folder = pathlib.Path(name)
        for count in (MANY, FEW):
            write_input(folder, count)
        _, fed, _, _ = run(folder, f"feed{MANY}.txt")
        taken, peak, status, last = run(folder, f"join{MANY}.txt")
        print(f"{MANY} by {MANY}: status {status}, {last}; {taken:.3f} s, peak {peak:.1f} MiB, of which the feed {fed:.1f} MiB")
        if (status, last) != (7, "refused: StepLimit 1000000"):
            sys.exit("unexpected")
        taken, rows, status, last = run(folder, f"join{FEW}.txt")
        print(f"{FEW} by {FEW}: status {status}, {last}; {taken:.3f} s, peak {rows:.1f} MiB")
        if (status, last) != (0, f"{FEW * FEW} rows"):
            sys.exit("unexpected")
        print(f"peak of the refused join to that of the rows: {peak / rows:.3f}")


if __name__ == "__main__":
    main()
