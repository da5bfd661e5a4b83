#!/usr/bin/env python3
"""Times eight queries over four zones of two leaves each, beside SQLite, and prints ratios within this run.

    bench/zones.py [PROGRAM]

The points and the queries are those of bench/queries.py, at one, two and four times the series and the points. Each
range is held by both leaves of its zone, so that each point is kept twice. A run feeds all points and asks the eight
queries once; its time and its peak memory are those of the whole. SQLite loads the same points into one table in memory
with an index, and answers the same by SQL; both must answer the same. The time of each query is that of a run that asks it
often, without the feeds. Where a built program is named, that one is run; else the one of this repository, which is built
where it isn't yet.
"""

import copy
import json
import pathlib
import subprocess
import sys
import tempfile

from made import CONFIG, FILES, PROGRAM, ROOT, ROWS, TASKS, timed_run, write_points
from queries import REPEATS, answer, in_sqlite, write_script
from sql import QUERIES, zone

TIMES = (1, 2, 4)
REPLICAS = 2
ROUNDS = 5
# Above the load of each query at four times the points.
LIMIT = 1 << 24


def write_config(folder):
    config = copy.deepcopy(CONFIG)
    config["limit"] = LIMIT
    config["zones"] = [zone(number) for number in range(4)]
    (folder / "config.json").write_text(json.dumps(config))


def rows_wanted(times):
    """How many rows each query has."""
    series = FILES * TASKS * times
    return [series, 1, 4, 10, 10, series // FILES, FILES, 1]


def run(program, folder, name):
    """Seconds of a run of a script."""
    taken, _, status = timed_run(program, folder, name)
    if status != 0:
        sys.exit(f"unexpected: status {status} of {name}")
    return taken


def measure(program, folder, name):
    """The least time of several runs."""
    return min(run(program, folder, name) for _ in range(ROUNDS))


def resident(child, program):
    """The greatest resident memory of a program so far, in MiB, or 0 where it is not yet begun or has ended."""
    try:
        status = pathlib.Path(f"/proc/{child.pid}/status").read_text(encoding="utf-8")
    except OSError:
        return 0
    fields = dict(line.split(":", 1) for line in status.splitlines())
    if fields["Name"].strip() != program.name[:15] or "VmHWM" not in fields:
        return 0
    return int(fields["VmHWM"].split()[0]) / 1024


def memory(program, folder, name):
    """The greatest resident memory of a run, in MiB, looked at again and again while it runs: what the system tells of a
    child at its end counts what this process had when it started the child."""
    peak = 0
    with open(folder / "out.txt", "w", encoding="utf-8") as out:
        child = subprocess.Popen([program, "run", "config.json", name], cwd=folder, stdout=out)
        while child.poll() is None:
            peak = max(peak, resident(child, program))
    if child.returncode != 0 or peak == 0:
        sys.exit(f"unexpected: status {child.returncode}, peak {peak:.1f} MiB of {name}")
    return peak


def compare_whole(program, folder, times, sql, sql_peak):
    """The time of the feeds and the eight queries in one run."""
    write_script(folder, "whole.txt", FILES, [query for query, _ in QUERIES])
    whole, peak = measure(program, folder, "whole.txt"), memory(program, folder, "whole.txt")
    sql_whole = sql["load"] + sum(sql["times"])
    points = FILES * ROWS * times
    print(f"{points} points: the whole run in {whole:.3f} s, peak {peak:.1f} MiB,"
          f" {peak * 2**20 / (REPLICAS * points):.0f} bytes for each point and replica;"
          f" SQLite {sql_whole:.3f} s, peak {sql_peak:.1f} MiB; {whole / sql_whole:.3f} of its time")
    return whole


def compare_feeds(program, folder, sql):
    """The time of the feeds alone."""
    write_script(folder, "feeds.txt", FILES, [])
    fed = measure(program, folder, "feeds.txt")
    print(f"  feeds: {fed:.3f} s; SQLite loads in {sql['load']:.3f} s; {fed / sql['load']:.3f} of it")
    return fed


def compare_query(program, folder, number, wanted, sql, fed):
    """The time of a query, without the feeds."""
    query, _ = QUERIES[number]
    write_script(folder, "one.txt", FILES, [query])
    run(program, folder, "one.txt")
    rows = answer(folder, FILES)
    if len(rows) != wanted or sorted(rows) != sorted(sql["answers"][number]):
        sys.exit(f"query {number + 1} has {len(rows)} rows, and SQLite answers otherwise or they should be {wanted}")
    write_script(folder, "many.txt", FILES, [query] * REPEATS)
    mine, other = (measure(program, folder, "many.txt") - fed) / REPEATS, sql["times"][number]
    print(f"  query {number + 1}: {mine * 1000:.2f} ms; SQLite {other * 1000:.2f} ms; {mine / other:.3f} of it")
    return mine


def compare(program, folder, times):
    """The whole run, the feeds and each query at so many times the points; gives their times."""
    write_points(folder, times)
    sql, sql_peak = in_sqlite(folder, FILES)
    whole = compare_whole(program, folder, times, sql, sql_peak)
    fed = compare_feeds(program, folder, sql)
    wanted = rows_wanted(times)
    queries = [compare_query(program, folder, number, wanted[number], sql, fed) for number in range(len(QUERIES))]
    return [whole, fed] + queries


def built():
    """The program of this repository, which is built where it isn't."""
    subprocess.run([ROOT / "mon", "run", "config.json", "script.txt"], cwd=ROOT / "examples/first", check=True)
    return PROGRAM


def main():
    if len(sys.argv) > 2:
        sys.exit(__doc__)
    program = pathlib.Path(sys.argv[1]).resolve() if len(sys.argv) == 2 else built()
    names = ["the whole run", "the feeds"] + [f"query {number + 1}" for number in range(len(QUERIES))]
    with tempfile.TemporaryDirectory() as name:
        folder = pathlib.Path(name)
        write_config(folder)
        before = None
        for times in TIMES:
            taken = compare(program, folder, times)
            if before is not None:
                ratios = ", ".join(f"{what} {now / old:.2f}" for what, now, old in zip(names, taken, before))
                print(f"  to half as many points: {ratios}")
            before = taken


if __name__ == "__main__":
    main()
