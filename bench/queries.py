#!/usr/bin/env python3
"""Times eight queries over made points, beside SQLite, and prints ratios within this run.

    bench/queries.py

The points are those of bench/made.py, at half and at full size. For each query it prints the time that it takes
behind the feeds and the peak memory of the run with the feeds, and the time of the same answer by SQL: a Python
program loads the same files with the module csv into a table in memory, makes an index over the fields and the end of
a point, and runs the query and fetches its rows. Both must answer the same. Feeding is compared with that load. The
joins of a key that occurs often are in bench/join.py.
"""

import csv
import json
import os
import pathlib
import sqlite3
import subprocess
import sys
import tempfile
import time

from made import FILES, PROGRAM, ROOT, ROWS, timed_run, write_input
from sql import MOMENT, QUERIES, add_records, make_table

ROUNDS = 5
# How often a query is asked in a run, so that its time stands out from that of the feeds.
REPEATS = 20


def run(folder, name):
    """Seconds and peak memory, in MiB, of a run of a script."""
    taken, peak, status = timed_run(PROGRAM, folder, name)
    if status != 0:
        sys.exit(f"unexpected: status {status} of {name}")
    return taken, peak


def measure(folder, name):
    """The least time and the greatest peak of several runs."""
    runs = [run(folder, name) for _ in range(ROUNDS)]
    return min(taken for taken, _ in runs), max(peak for _, peak in runs)


def write_script(folder, name, count, queries):
    lines = [f"feed p{number}.csv\n" for number in range(count)]
    (folder / name).write_text("".join(lines) + "".join(f"query {MOMENT} {query}\n" for query in queries))


def answer(folder, count):
    """The rows that the last run printed for its last query, without their time."""
    lines = (folder / "out.txt").read_text().splitlines()
    table = lines[count:]
    size = int(table[-1].split()[0])
    return [row[1:] for row in csv.reader(table[-1 - size : -1])]


def in_sqlite(folder, count):
    """What the process below prints: the time of the load, the time of each query, and its rows."""
    child = subprocess.Popen(
        [sys.executable, __file__, "sqlite", str(count)], cwd=folder, stdout=subprocess.PIPE, text=True
    )
    printed = child.stdout.read()
    _, status, usage = os.wait4(child.pid, 0)
    if status != 0:
        sys.exit("the SQLite process failed")
    return json.loads(printed), usage.ru_maxrss / 1024


def sqlite_process(count):
    start = time.process_time()
    base = sqlite3.connect(":memory:")
    make_table(base)
    for number in range(count):
        with open(f"p{number}.csv", newline="", encoding="utf-8") as source:
            add_records(base, csv.reader(source))
    base.execute("CREATE INDEX by_series ON points (user, job, cluster, task, end)")
    base.execute("ANALYZE")
    load = time.process_time() - start
    times, answers = [], []
    for _, sql in QUERIES:
        best = None
        for _ in range(ROUNDS):
            start = time.process_time()
            rows = base.execute(sql).fetchall()
            taken = time.process_time() - start
            best = taken if best is None else min(best, taken)
        times.append(best)
        answers.append([[str(cell) for cell in row] for row in rows])
    print(json.dumps({"load": load, "times": times, "answers": answers}))


def main():
    # Builds the program where it isn't built.
    subprocess.run([ROOT / "mon", "run", "config.json", "script.txt"], cwd=ROOT / "examples/first", check=True)
    with tempfile.TemporaryDirectory() as name:
        folder = pathlib.Path(name)
        write_input(folder)
        times = {}
        for count in (FILES // 2, FILES):
            points = count * ROWS
            write_script(folder, "feeds.txt", count, [])
            fed, fed_peak = measure(folder, "feeds.txt")
            sql, sql_peak = in_sqlite(folder, count)
            print(f"{points} points: fed in {fed:.3f} s, peak {fed_peak:.1f} MiB;"
                  f" SQLite loads in {sql['load']:.3f} s, peak of all {sql_peak:.1f} MiB; {fed / sql['load']:.3f} of it")
            for number, (query, _) in enumerate(QUERIES):
                write_script(folder, "one.txt", count, [query])
                _, peak = run(folder, "one.txt")
                if sorted(answer(folder, count)) != sorted(sql["answers"][number]):
                    sys.exit(f"query {number + 1} and SQLite answer otherwise")
                write_script(folder, "many.txt", count, [query] * REPEATS)
                taken, _ = measure(folder, "many.txt")
                times[number, count] = (taken - fed) / REPEATS
                mine, other = times[number, count], sql["times"][number]
                print(f"  query {number + 1}: {mine * 1000:.2f} ms, peak {peak:.1f} MiB;"
                      f" SQLite {other * 1000:.2f} ms; {mine / other:.3f} of it")
        for number in range(len(QUERIES)):
            print(f"query {number + 1}: whole to half: {times[number, FILES] / times[number, FILES // 2]:.2f}")


if __name__ == "__main__":
    if len(sys.argv) == 3 and sys.argv[1] == "sqlite":
        sqlite_process(int(sys.argv[2]))
    elif len(sys.argv) == 1:
        main()
    else:
        sys.exit(__doc__)
