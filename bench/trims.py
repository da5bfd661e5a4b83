#!/usr/bin/env python3
"""Times trims of 200,000 points of 2,000 series, and a query before and behind them, and prints ratios within this run.

    bench/trims.py [PROGRAM [ROUNDS]]

The points are those of bench/made.py, in one range on one leaf. Each round runs two scripts. One hides all points by
one trim. The other asks a query twenty times, hides the older half of the points, asks it as often again, over points
none of which was hidden, and then trims to the same bound, by which no point more is hidden. A line's time is that from
the text of the line before it to its own, by the clock, as they come through a pipe; told are the medians over all
rounds.
"""

import pathlib
import statistics
import subprocess
import sys
import tempfile
import time

from made import CONFIG, FILES, PROGRAM, ROWS, write_input

REPEATS = 20
QUERY = "query 1000 fetch Task::/work | align delta(100s) | group_by [user], sum(work)"
FEEDS = [f"feed p{number}.csv" for number in range(FILES)]
# The ends of the points are 10, 20 and so on up to 1,000.
WHOLE, HALF = "trim all/0 1001", "trim all/0 501"
QUERIES = REPEATS * [QUERY]
SCRIPTS = {
    "whole": [*FEEDS, QUERY, WHOLE, QUERY],
    "half": [*FEEDS, *QUERIES, HALF, *QUERIES, *(REPEATS * [HALF])],
}


def times_of(program, folder, lines):
    """The seconds that each line of a script takes, with its text."""
    (folder / "script.txt").write_text("".join(f"{line}\n" for line in lines))
    words = [program, "run", "config.json", "script.txt"]
    child = subprocess.Popen(words, cwd=folder, stdout=subprocess.PIPE, text=True)
    taken, begun = [], time.perf_counter()
    for line in lines:
        text = child.stdout.readline()
        while line.startswith("query") and not text.endswith(" rows\n"):
            more = child.stdout.readline()
            if not more:
                sys.exit(f"unexpected: {text!r} of {line}")
            text += more
        ended = time.perf_counter()
        taken.append((ended - begun, text))
        begun = ended
    if child.stdout.read() or child.wait() != 0:
        sys.exit(f"unexpected: status {child.returncode}")
    return taken


def one_round(program, folder):
    """Seconds of the trim of all, of that of half, of one that hides nothing, and of a query before and behind."""
    whole = times_of(program, folder, SCRIPTS["whole"])
    half = times_of(program, folder, SCRIPTS["half"])
    first = len(FEEDS)
    before, behind = half[first : first + REPEATS], half[first + REPEATS + 1 : first + 2 * REPEATS + 1]
    trims = [whole[first + 1], half[first + REPEATS], *half[-REPEATS:]]
    fed = "".join(f"feed p{number}.csv: {ROWS} accepted, 0 refused\n" for number in range(FILES))
    is_fed = all("".join(text for _, text in run[:first]) == fed for run in (whole, half))
    if not is_fed or {text for _, text in trims} != {"trim all/0: took 1, missed 0\n"}:
        sys.exit("unexpected: a feed or a trim came to something else")
    if len({text for _, text in [*before, *behind, whole[first]]}) != 1 or not whole[-1][1].endswith("\n0 rows\n"):
        sys.exit("unexpected: a query's table is another one")
    medians = [statistics.median(seconds for seconds, _ in lines) for lines in (half[-REPEATS:], before, behind)]
    return [whole[first + 1][0], half[first + REPEATS][0], *medians]


def main():
    if len(sys.argv) > 3:
        sys.exit(__doc__)
    program = pathlib.Path(sys.argv[1]).resolve() if len(sys.argv) > 1 else PROGRAM
    rounds = int(sys.argv[2]) if len(sys.argv) == 3 else 9
    points = FILES * ROWS
    with tempfile.TemporaryDirectory() as name:
        folder = pathlib.Path(name)
        write_input(folder)
        taken = [one_round(program, folder) for _ in range(rounds)]
    whole, half, nothing, before, behind = (statistics.median(times) for times in zip(*taken))
    ratio = statistics.median(own[4] / own[3] for own in taken)
    print(f"a query: {1000 * before:.2f} ms before, {1000 * behind:.2f} ms behind a trim, {ratio:.2f} of that before")
    for what, seconds in ((f"all {points}", whole), (f"{points // 2}", half), ("no", nothing)):
        print(f"a trim that hides {what} points: {1000 * seconds:.2f} ms, {seconds / before:.2f} of the query")


if __name__ == "__main__":
    main()
