#!/usr/bin/env python3
"""Times two files that are poured beside the same files fed in turn and in a block, and prints ratios within this run.

    bench/pours.py [PROGRAM [ROUNDS]]

The files have 100,000 records each, of the input that is made from 0. Each round runs the three scripts one after
another; told are the least times of all rounds, by the clock and of processors.
"""

import os
import pathlib
import subprocess
import sys
import tempfile
import time

from made import FILES, PROGRAM
from trial import put_files

SCRIPTS = {
    "in turn": "feed first.csv\nfeed second.csv\n",
    "poured": "pour first.csv second.csv\n",
    "in a block": "together\nfeed first.csv\nfeed second.csv\nend\n",
}
WANTED = "feed first.csv: 100000 accepted, 0 refused\nfeed second.csv: 100000 accepted, 0 refused\n"


def once(program, folder, script):
    """Seconds by the clock and of processors of a run of a script, in which no record is refused."""
    (folder / "script.txt").write_text(script)
    begun = time.monotonic()
    words = [program, "run", "config.json", "script.txt"]
    child = subprocess.Popen(words, cwd=folder, stdout=subprocess.PIPE, text=True)
    printed = child.stdout.read()
    _, status, usage = os.wait4(child.pid, 0)
    if status != 0 or printed != WANTED:
        sys.exit(f"unexpected: status {status}, {printed!r}")
    return time.monotonic() - begun, usage.ru_utime + usage.ru_stime


def main():
    if len(sys.argv) > 3:
        sys.exit(__doc__)
    program = pathlib.Path(sys.argv[1]).resolve() if len(sys.argv) > 1 else PROGRAM
    rounds = int(sys.argv[2]) if len(sys.argv) == 3 else 5
    with tempfile.TemporaryDirectory() as name:
        folder = pathlib.Path(name)
        put_files(program, folder, "0")
        points = [(folder / f"p{number}.csv").read_text() for number in range(FILES)]
        (folder / "first.csv").write_text("".join(points[: FILES // 2]))
        (folder / "second.csv").write_text("".join(points[FILES // 2 :]))
        taken = [[once(program, folder, script) for script in SCRIPTS.values()] for _ in range(rounds)]
    least = [tuple(map(min, zip(*times))) for times in zip(*taken)]
    for name, (clock, processors) in zip(SCRIPTS, least):
        print(f"{name}: {clock:.2f} s by the clock, {processors:.2f} s of processors; to those in turn "
              f"{clock / least[0][0]:.2f} and {processors / least[0][1]:.2f}")


if __name__ == "__main__":
    main()
