#!/usr/bin/env python3
"""Times `trial N` beside a run of the same input from files, and beside SQLite, and prints ratios within this run.

    bench/trial.py [PROGRAM [N]]

The input is what `gen N` prints, put into files. SQLite loads the same points and answers the same eight queries by
SQL (`in_sqlite` of bench/queries.py). Times are those of processors, the least of several runs; a peak is the greatest.
"""

import os
import pathlib
import subprocess
import sys
import tempfile

from made import FILES, PROGRAM, ROOT
from queries import in_sqlite

ROUNDS = 5


def put_files(program, folder, number):
    """The made input of a number, as files."""
    made = subprocess.run([program, "gen", number], stdout=subprocess.PIPE, text=True, check=True).stdout
    for section in made.split("== ")[1:]:
        name, text = section.split(" ==\n", 1)
        (folder / name).write_text(text)


def once(program, folder, words):
    """Seconds of processors and peak memory, in MiB, of a run, and what it printed."""
    child = subprocess.Popen([program, *words], cwd=folder, stdout=subprocess.PIPE, text=True)
    printed = child.stdout.read()
    _, status, usage = os.wait4(child.pid, 0)
    if status != 0:
        sys.exit(f"unexpected: status {status} of {words}")
    return usage.ru_utime + usage.ru_stime, usage.ru_maxrss / 1024, printed


def measure(program, folder, words):
    """The least time and the greatest peak of several runs, which all print the same."""
    runs = [once(program, folder, words) for _ in range(ROUNDS)]
    if len({printed for _, _, printed in runs}) != 1:
        sys.exit(f"{words} printed two texts")
    return min(taken for taken, _, _ in runs), max(peak for _, peak, _ in runs)


def main():
    if len(sys.argv) > 3:
        sys.exit(__doc__)
    program = pathlib.Path(sys.argv[1]).resolve() if len(sys.argv) > 1 else PROGRAM
    number = sys.argv[2] if len(sys.argv) == 3 else "0"
    with tempfile.TemporaryDirectory() as name:
        folder = pathlib.Path(name)
        put_files(program, folder, number)
        trial, trial_peak = measure(program, folder, ["trial", number])
        run, run_peak = measure(program, folder, ["run", "config.json", "script.txt"])
        sql, sql_peak = in_sqlite(folder, FILES)
        whole = sql["load"] + sum(sql["times"])
    print(f"trial {number}: {trial:.2f} s, peak {trial_peak:.1f} MiB")
    print(f"a run of the same files: {run:.2f} s, peak {run_peak:.1f} MiB; trial to run {trial / run:.2f}, "
          f"peaks {trial_peak / run_peak:.2f}")
    print(f"SQLite, load and queries: {whole:.2f} s, peak {sql_peak:.1f} MiB; trial to SQLite {trial / whole:.2f}, "
          f"peaks {trial_peak / sql_peak:.2f}")


if __name__ == "__main__":
    main()
