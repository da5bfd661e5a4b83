#!/usr/bin/env python3
"""Times the feeds and a query of a made input, at half and at full size.

    bench/made.py [PROGRAM]

The input is four files of 50,000 points of a delta, 100 points of each of 500 series a file, made by a linear
congruential generator (Knuth's multiplier); half of it is two of the files. It prints the time and the peak memory of
each run, and how much longer the whole takes than the half. Where another program is named, it runs that one on the
same input in turn with this one, and prints the ratios of time and of peak memory. The zone is one, with all
locations.
"""

import json
import os
import pathlib
import statistics
import subprocess
import sys
import tempfile
import time

ROOT = pathlib.Path(__file__).resolve().parent.parent
sys.path.append(str(ROOT / "tests"))

from sql import SCHEMAS

PROGRAM = ROOT / "crates/program/out/program"
FILES = 4
ROWS = 50000
TASKS = 500
ROUNDS = 15

ZONE = {
    "name": "all",
    "locations": ["c0", "c1", "c2", "c3"],
    "leaves": ["leaf"],
    "ranges": [{"from": [], "leaves": ["leaf"]}],
}
CONFIG = {**SCHEMAS, "zones": [ZONE]}


def made_values():
    """Values from 0 to 999, one for each point."""
    state = 0
    while True:
        state = (state * 6364136223846793005 + 1442695040888963407) % 2**64
        yield state // 2**33 % 1000


def write_points(folder, times=1):
    """The files of points, with so many times the series and the points."""
    values = made_values()
    tasks = TASKS * times
    for number in range(FILES):
        with open(folder / f"p{number}.csv", "w", encoding="utf-8") as out:
            for row in range(ROWS * times):
                task = row % tasks
                end = 10 * (row // tasks + 1)
                out.write(f"Task,/work,{end - 10},{end},{next(values)},u{number},job{task % 10},c{task % 4},{task}\n")


def write_input(folder):
    (folder / "config.json").write_text(json.dumps(CONFIG))
    write_points(folder)
    for count in (FILES // 2, FILES):
        lines = [f"feed p{number}.csv\n" for number in range(count)]
        (folder / f"script{count}.txt").write_text("".join(lines) + "query 1000 fetch Task::/work\n")


def timed_run(program, folder, script, command="run"):
    """Seconds, peak memory in MiB and status of a run of a script, which prints to the folder's out.txt."""
    start = time.perf_counter()
    with open(folder / "out.txt", "w", encoding="utf-8") as out:
        child = subprocess.Popen([program, command, "config.json", script], cwd=folder, stdout=out)
        _, status, usage = os.wait4(child.pid, 0)
    return time.perf_counter() - start, usage.ru_maxrss / 1024, os.waitstatus_to_exitcode(status)


def run(program, folder, count):
    """Seconds and peak memory, in MiB, of a run over so many files, and what it printed."""
    taken, peak, status = timed_run(program, folder, f"script{count}.txt")
    printed = (folder / "out.txt").read_text()
    last = printed.splitlines()[-1]
    if status != 0 or last != f"{count * TASKS} rows":
        sys.exit(f"unexpected: status {status}, {last}")
    return taken, peak, printed


def measure(programs, folder):
    """Runs the programs in turn over half of the files and over all, several times, and prints the least time and the
    greatest peak of each. Gives the times, the peak and the text of each over all files."""
    measured = {}
    for count in (FILES // 2, FILES):
        rounds = [[run(program, folder, count) for program in programs.values()] for _ in range(ROUNDS)]
        for place, name in enumerate(programs):
            times = [runs[place][0] for runs in rounds]
            peak = max(runs[place][1] for runs in rounds)
            print(f"{name}: {count * ROWS} points: {min(times):.3f} s, peak {peak:.1f} MiB")
            if count == FILES:
                print(f"{name}: whole to half: {min(times) / min(measured[name][0]):.2f}")
            measured[name] = times, peak, rounds[-1][place][2]
    return measured


def compare(one, other):
    """Prints the ratios of time and of peak memory. That of time is the median of the ratios of the runs of one round,
    since the speed of a processor changes from one moment to the next."""
    if one[2] != other[2]:
        sys.exit("the two programs print different texts")
    ratio = statistics.median(own / others for own, others in zip(one[0], other[0]))
    print(f"time to the other's: {ratio:.3f}")
    print(f"peak to the other's: {one[1] / other[1]:.3f}")


def main():
    if len(sys.argv) > 2:
        sys.exit(__doc__)
    # Builds the program where it isn't built.
    subprocess.run([ROOT / "mon", "run", "config.json", "script.txt"], cwd=ROOT / "examples/first", check=True)
    programs = {"this program": PROGRAM}
    if len(sys.argv) == 2:
        programs["the other"] = pathlib.Path(sys.argv[1]).resolve()
    with tempfile.TemporaryDirectory() as name:
        folder = pathlib.Path(name)
        write_input(folder)
        measured = list(measure(programs, folder).values())
    if len(measured) == 2:
        compare(*measured)


if __name__ == "__main__":
    main()
