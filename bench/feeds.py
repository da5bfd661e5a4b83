#!/usr/bin/env python3
"""Times feeds of points files, and prints ratios within this run.

    bench/feeds.py

It makes files of points of 500 series, runs `mon` on them, and prints, for each pair of sizes, how much longer
twice as many records take; for the larger files also how the feed compares with a Python program that reads
the same file with the module csv, parses the numbers, and keeps the points in a dictionary by series.
"""

import pathlib
import subprocess
import sys
import tempfile
import time

ROOT = pathlib.Path(__file__).resolve().parent.parent
PROGRAM = ROOT / "crates/program/out/program"
SERIES = 500
ROUNDS = 5


def write_points(path, count):
    """Points of all series in turn, with ends that rise."""
    with open(path, "w", encoding="utf-8") as out:
        for number in range(count):
            series = number % SERIES
            end = 10 + number // SERIES
            out.write(f"T,/m,{end},{end},{number % 1000},u{series},e\n")


def seconds(work):
    """The least time of several rounds, in seconds."""
    best = None
    for _ in range(ROUNDS):
        start = time.perf_counter()
        work()
        taken = time.perf_counter() - start
        best = taken if best is None else min(best, taken)
    return best


def feed(folder, count):
    """Runs the program on a script that feeds the file, and checks that it took every record."""
    done = subprocess.run(
        [PROGRAM, "run", "config.json", f"feed{count}.txt"],
        cwd=folder,
        capture_output=True,
        text=True,
        check=True,
    )
    if done.stdout != f"feed p{count}.csv: {count} accepted, 0 refused\n":
        sys.exit(f"unexpected: {done.stdout[:200]}")


def read_in_python(folder, count):
    """Reads the same file as a Python program would, in a process of its own."""
    program = (
        "import csv, sys\n"
        "points = {}\n"
        "with open(sys.argv[1], newline='', encoding='utf-8') as source:\n"
        "    for schema, metric, start, end, value, *fields in csv.reader(source):\n"
        "        key = (schema, metric, tuple(fields))\n"
        "        points.setdefault(key, []).append((int(start), int(end), int(value)))\n"
    )
    subprocess.run([sys.executable, "-c", program, f"p{count}.csv"], cwd=folder, check=True)


def main():
    # Builds the program where it isn't built.
    subprocess.run([ROOT / "mon", "run", "config.json", "script.txt"], cwd=ROOT / "examples/first", check=True)
    with tempfile.TemporaryDirectory() as name:
        folder = pathlib.Path(name)
        (folder / "config.json").write_text((ROOT / "examples/first/config.json").read_text())
        times = {}
        for count in (20000, 40000, 50000, 100000):
            write_points(folder / f"p{count}.csv", count)
            (folder / f"feed{count}.txt").write_text(f"feed p{count}.csv\n")
            times[count] = seconds(lambda: feed(folder, count))
            print(f"feed of {count} records: {times[count]:.3f} s")
        print(f"40000 to 20000 records: {times[40000] / times[20000]:.2f}")
        print(f"100000 to 50000 records: {times[100000] / times[50000]:.2f}")
        python = seconds(lambda: read_in_python(folder, 100000))
        print(f"Python on 100000 records: {python:.3f} s")
        print(f"feed to Python, 100000 records: {times[100000] / python:.2f}")


if __name__ == "__main__":
    main()
