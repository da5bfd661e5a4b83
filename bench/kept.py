#!/usr/bin/env python3
"""Times rows that are added to a kept result, and the same query asked afresh beside it.

    bench/kept.py [ROWS [HUNDREDS [SECONDS]]]

A program of its own, whose text is kept.txt, adds ROWS rows of 2,000 series, 500 if no number is given. After each
hundred it takes the result that was kept, and after each HUNDREDS of them, 1 if none is given, it asks the query over
all rows so far, whose time then counts for all of these; both have the same sum each time.
It is made in a copy of the crates and run by `rt try`, which proves nothing, compiles without optimizing and with all
checks, and stops the run after SECONDS, 600 if none are given. `bench/README.md` says how the same program is compiled
as it is to be measured.
"""

import pathlib
import shutil
import subprocess
import sys
import tempfile

ROOT = pathlib.Path(__file__).resolve().parent.parent
NAME = "kept_bench"
LIBRARIES = "mon_value mon_schema mon_series mql_ast mql_parse typed_trees mql_types mon_meaning standing_incr"


def make(folder, name=NAME, libraries=LIBRARIES, text=ROOT / "bench" / "kept.txt"):
    """A copy of the repository's crates with a program among them; where the program lies."""
    shutil.copytree(ROOT / "crates", folder / "crates", ignore=shutil.ignore_patterns("out"))
    shutil.copy(ROOT / "HANDLES", folder)
    crates = (ROOT / "crates.txt").read_text()
    (folder / "crates.txt").write_text(f"{crates}{name}: {libraries}\n")
    source = folder / "crates" / name / "src"
    source.mkdir(parents=True)
    shutil.copy(text, source / "main.rt")
    return source.parent


def main(rows="500", hundreds="1", seconds="600"):
    with tempfile.TemporaryDirectory(prefix="kept_bench_") as folder:
        words = ["rt", "try", "--seconds", seconds, "--", rows, hundreds]
        return subprocess.run(words, cwd=make(pathlib.Path(folder))).returncode


if __name__ == "__main__":
    if not 1 <= len(sys.argv) <= 4 or not all(word.isdecimal() for word in sys.argv[1:]):
        sys.exit(__doc__)
    sys.exit(main(*sys.argv[1:]))
