#!/usr/bin/env python3
"""Runs inputs that are made to cost much, each at one, two and four times its size, and prints a table.

    bench/worst.py [PROGRAM [CASE ..]]

A case is one kind of file, or one operation of the query language, at its worst: long texts, wide tables, deep chains,
many series. For each it prints the processor seconds and the peak memory of the largest run, and by how much the cost
grew from one size to twice that size, at its worst. Seconds of a run that takes next to none are not compared. A star
marks the cases that grow faster than their input, or that take more than SECONDS or MEBIBYTES, and the last line counts
them. The largest input of a case has a megabyte at most."""
import functools
import json
import os
import pathlib
import random
import subprocess
import sys
import tempfile
import time

sys.dont_write_bytecode = True

import colliding

ROOT = pathlib.Path(__file__).resolve().parent.parent
PROGRAM = ROOT / "crates/program/out/program"
SIZES = (1, 2, 4)
SECONDS, MEBIBYTES, GROWTH = 2.0, 300, 1.2
# Runs that take less than this are too short to be compared, in seconds.
SHORT = 0.05
LIMIT_OF_A_RUN = 120


def a_config(fields, metrics, **more):
    """One zone with one leaf; a target T with these fields besides its location z."""
    target = {"name": "T", "fields": fields + [{"name": "z", "type": "text", "location": True}]}
    zone = {"name": "east", "locations": ["e"], "leaves": ["e1"], "ranges": [{"from": [], "leaves": ["e1"]}]}
    return {"targets": [target], "metrics": metrics, "zones": [zone], "limit": 1 << 24, "range_points": 1 << 24, **more}


def text_fields(count):
    return [{"name": f"f{number}", "type": "text"} for number in range(count)]


def gauge(name="/m", column="v", **more):
    return {"name": name, "kind": "gauge", "type": "int", "column": column, **more}


ONE_FIELD = a_config(text_fields(1), [gauge(), gauge("/n", "w")])
DISTRIBUTION = {"name": "/h", "kind": "delta", "type": "dist", "bounds": list(range(64)), "column": "h"}


def rows(lines):
    return "".join(f"{line}\n" for line in lines)


def series(count, points=1, metric="/m"):
    """So many points of so many series, in turn."""
    return rows(f"T,{metric},{at},{at},{number},s{number:06},e" for at in range(1, points + 1) for number in range(count))


def case(config, script, **files):
    return {"config.json": config if isinstance(config, str) else json.dumps(config), "script.txt": rows(script), **files}


def feed(config, points, *queries):
    return case(config, ["feed p.csv", *queries], **{"p.csv": points})


def ask(config, points, text, moment=1000):
    return feed(config, points, f"query {moment} {text}")


# ---- configurations

def config_of_locations(size):
    config = a_config(text_fields(1), [gauge()])
    config["zones"][0]["locations"] = [f"e{number}" for number in range(20_000 * size)]
    return case(config, [])


def config_of_metrics(size):
    return case(a_config(text_fields(1), [gauge(f"/m{number}", fields=text_fields(16)) for number in range(256 * size)]), [])


def config_of_unknown_keys(size):
    return case(json.dumps({**a_config([], []), **{f"k{number}": 0 for number in range(20_000 * size)}}), [])


def config_of_brackets(size):
    return case("[" * (250_000 * size), [])


def config_of_ranges(size):
    config = a_config(text_fields(1), [gauge()])
    config["zones"][0]["ranges"] += [{"from": ["T", f"{number:03}" + "x" * 500], "leaves": ["e1"]} for number in range(127 * size)]
    return case(config, [])


# ---- scripts and query texts

def script_of_comments(size):
    return case(ONE_FIELD, ["#"] * (25_000 * size))


def script_of_queries(size):
    return case(ONE_FIELD, ["query 1 fetch T::/m"] * (10_000 * size))


def standing(first, end):
    """Lines of queries that stand, each with a period of many years."""
    return [f"standing a{number} 1000000000 fetch T::/m" for number in range(first, end)]


def script_of_ticks(size):
    """Ticks at which none of the queries that stand is due."""
    return case(ONE_FIELD, ["tick 0", *standing(0, 3_200 * size)] + ["tick 1"] * (16_000 * size))


def script_of_ticks_beside_a_minute(size):
    """A tick at each minute, at which one query among those that stand is due."""
    middle, end = 1_600 * size, 3_200 * size
    stand = [*standing(0, middle), "standing m 60 fetch T::/m", *standing(middle, end)]
    return case(ONE_FIELD, ["tick 0", *stand, *(f"tick {60 * minute}" for minute in range(1, 9_000 * size))])


def chain(part, count, start="fetch T::/m"):
    return start + "".join(f" | {part}" for _ in range(count))


def text_of_conditions(size):
    return ask(ONE_FIELD, series(100), "fetch T::/m | filter " + " || ".join(f'f0=="{n}"' for n in range(1_000 * size)))


def text_of_patterns(size):
    return ask(ONE_FIELD, series(100), "fetch T::/m | filter " + " && ".join('f0=~".*s.*0.*"' for _ in range(700 * size)))


def text_of_operations(size):
    return ask(ONE_FIELD, series(100), chain("filter v>0", 1_200 * size))


def text_of_a_sum(size):
    return ask(ONE_FIELD, series(100), "fetch T::/m | value [x: " + "+".join("v" for _ in range(8_000 * size)) + "]")


def text_of_columns(size):
    return ask(ONE_FIELD, series(100), "fetch T::/m | value [" + ", ".join(f"c{n}: v" for n in range(1_200 * size)) + "]")


def text_of_branches(size):
    return ask(ONE_FIELD, series(20), "{" + ";".join("fetch T::/m" for _ in range(1_200 * size)) + "} | union")


def text_of_joins(size):
    return ask(ONE_FIELD, series(20), "{" + ";".join(f"fetch T::/m | value [c{n}: v]" for n in range(400 * size)) + "} | join")


def text_of_wide_joins(size):
    wide = [", ".join(f"{name}{number}: v" for number in range(400 * size)) for name in "ab"]
    return ask(ONE_FIELD, series(20), "{" + ";".join(f"fetch T::/m | value [{items}]" for items in wide) + "} | join")


def wide_joins_over_leaves(size):
    """The same over 64 leaves, each with a point."""
    made = text_of_wide_joins(size)
    config = a_config(text_fields(1), [gauge()])
    config["zones"] = [
        {"name": f"z{zone}", "locations": [f"l{zone}"], "leaves": [f"e{zone}_{leaf}" for leaf in range(32)],
         "ranges": [{"from": [] if leaf == 0 else ["T", f"{leaf:03}"], "leaves": [f"e{zone}_{leaf}"]} for leaf in range(32)]}
        for zone in range(2)]
    points = rows(f"T,/m,1,1,1,{leaf:03},l{zone}" for zone in range(2) for leaf in range(32))
    return {**made, "config.json": json.dumps(config), "p.csv": points}


def text_of_groups(size):
    return ask(ONE_FIELD, series(100), "fetch T::/m | group_by [f0], " + ", ".join(f"c{n}: sum(v)" for n in range(1_000 * size)))


def text_that_is_no_query(size):
    return ask(ONE_FIELD, "", "fetch T::/m | filter " + "(" * 60 + 'f0=="a" && ' * (1_200 * size))


# ---- points

def points_of_long_texts(size):
    """Rows of new series with 15 texts of 1,000 bytes by chance each, over as many buckets as there may be."""
    config = a_config(text_fields(15), [gauge()], buckets=4_096)
    letters = [chr(byte) for byte in range(35, 127) if chr(byte) != ","]
    chance = random.Random(1)
    texts = lambda: ",".join("".join(chance.choices(letters, k=1_000)) for _ in range(15))
    return feed(config, rows(f"T,/m,1,1,1,{texts()},e" for _ in range(4 * size)))


def points_of_new_series(size):
    return feed(ONE_FIELD, series(8_000 * size))


@functools.cache
def colliding_texts():
    return colliding.texts(2_000, "T", "e", "/m")


def points_of_colliding_keys(size):
    """Rows of new series whose keys all lie on one path of a map."""
    return feed(ONE_FIELD, rows(f"T,/m,1,1,1,{text},e" for text in colliding_texts()[: 500 * size]))


def points_of_one_series(size):
    return feed(ONE_FIELD, series(1, 8_000 * size))


def points_of_three_replicas(size):
    config = a_config(text_fields(1), [gauge()])
    config["zones"][0].update(leaves=["e1", "e2", "e3"], ranges=[{"from": [], "leaves": ["e1", "e2", "e3"]}])
    return feed(config, series(8_000 * size))


def points_that_are_refused(size):
    return feed(ONE_FIELD, rows(f"T,/m,1,1,{number},s,q" for number in range(12_000 * size)))


def points_of_few_cells(size):
    return feed(ONE_FIELD, "x\n" * (120_000 * size))


def points_of_many_cells(size):
    return feed(ONE_FIELD, "," * (250_000 * size))


def points_in_a_quote(size):
    return feed(ONE_FIELD, '"' + 'a""' * (80_000 * size))


def points_of_distributions(size):
    counts = ";".join(str(number) for number in range(65))
    return feed(a_config(text_fields(1), [DISTRIBUTION]), rows(f"T,/h,{at},{at + 1},{counts},s,e" for at in range(1_000 * size)))


# ---- queries over points

def query_of_new_series(text):
    return lambda size: ask(ONE_FIELD, series(5_000 * size), text, 60)


def query_of_times(size):
    return ask(ONE_FIELD, series(60), f"fetch T::/m | align next_older(1000000s) | every 1s | within {2_000 * size}s", 100_000)


def long_keys(text):
    """A query of 60 series with 14 KB of key text each."""
    config = a_config(text_fields(15), [gauge()])
    series = lambda size: range(15 * size)
    points = lambda size: rows(f"T,/m,1,1,1,{','.join('k' * 1_000 for _ in range(14))},{n},e" for n in series(size))
    return lambda size: ask(config, points(size), f"fetch T::/m | align next_older(1000000s){text}", 10_000)


def wide_rows(size):
    items = ", ".join(f"c{number}: v" for number in range(1_000))
    return ask(ONE_FIELD, series(1_250 * size), f"fetch T::/m | value [{items}] | top 1, c0", 60)


def patterns_in_long_texts(size):
    config = a_config(text_fields(15), [gauge()])
    points = rows(f"T,/m,1,1,1,{','.join('a' * 1_000 for _ in range(14))},{number},e" for number in range(15 * size))
    return ask(config, points, 'fetch T::/m | filter ' + " || ".join(f'f{n}=~".*a.*a.*a.*ab.*"' for n in range(14)), 60)


def join_of_one_key(size):
    points = series(500 * size) + series(500 * size, metric="/n")
    return ask(ONE_FIELD, points, "{fetch T::/m; fetch T::/n} | join | group_by [], count()", 60)


def percentiles(size):
    points = rows(f"T,/h,1,2,{';'.join('1' for _ in range(65))},s{number},e" for number in range(1_500 * size))
    items = ", ".join(f"p{p}: percentile(h,{p})" for p in range(1, 100))
    return ask(a_config(text_fields(1), [DISTRIBUTION]), points, f"fetch T::/h | value [{items}] | top 1, p50", 60)


CASES = {
    "configuration: locations": config_of_locations,
    "configuration: metrics of 16 fields": config_of_metrics,
    "configuration: unknown keys": config_of_unknown_keys,
    "configuration: open brackets": config_of_brackets,
    "configuration: ranges with long bounds": config_of_ranges,
    "script: comments": script_of_comments,
    "script: queries": script_of_queries,
    "script: ticks": script_of_ticks,
    "script: ticks beside a minute": script_of_ticks_beside_a_minute,
    "text: conditions": text_of_conditions,
    "text: patterns": text_of_patterns,
    "text: operations": text_of_operations,
    "text: one sum": text_of_a_sum,
    "text: columns": text_of_columns,
    "text: branches of a union": text_of_branches,
    "text: branches of a join": text_of_joins,
    "text: a wide join": text_of_wide_joins,
    "text: a wide join over 64 leaves": wide_joins_over_leaves,
    "text: aggregates": text_of_groups,
    "text: no query": text_that_is_no_query,
    "points: long texts": points_of_long_texts,
    "points: new series": points_of_new_series,
    "points: colliding keys": points_of_colliding_keys,
    "points: one series": points_of_one_series,
    "points: three replicas": points_of_three_replicas,
    "points: refused": points_that_are_refused,
    "points: short records": points_of_few_cells,
    "points: many cells": points_of_many_cells,
    "points: one quote": points_in_a_quote,
    "points: distributions": points_of_distributions,
    "query: fetch": query_of_new_series("fetch T::/m"),
    "query: filter": query_of_new_series('fetch T::/m | filter f0=~"s.*1"'),
    "query: group": query_of_new_series("fetch T::/m | group_by [f0], sum(v)"),
    "query: group into one": query_of_new_series("fetch T::/m | group_by [], mean(v)"),
    "query: top": query_of_new_series("fetch T::/m | top 10, v"),
    "query: union": query_of_new_series("{fetch T::/m; fetch T::/m} | union | group_by [], count()"),
    "query: join": query_of_new_series("{fetch T::/m; fetch T::/m | value [w: v]} | join | top 10, w"),
    "query: join of two metrics": join_of_one_key,
    "query: times": query_of_times,
    "query: long keys over 10,000 times": long_keys(" | group_by [], count() | every 1s | within 10000s"),
    "query: long keys over 100 times, printed": long_keys(" | every 1s | within 100s"),
    "query: rows of 1,000 columns": wide_rows,
    "query: patterns in long texts": patterns_in_long_texts,
    "query: 99 percentiles": percentiles,
}


def peak_of(child, name):
    """The greatest resident memory so far, in MiB, read while it runs."""
    try:
        lines = pathlib.Path(f"/proc/{child.pid}/status").read_text().splitlines()
    except OSError:
        return 0.0
    fields = dict(line.split(":", 1) for line in lines if ":" in line)
    if fields.get("Name", "").strip() != name[:15] or "VmHWM" not in fields:
        return 0.0
    return int(fields["VmHWM"].split()[0]) / 1024


def run(program, made):
    """Processor seconds, peak memory in MiB, and status of a run."""
    with tempfile.TemporaryDirectory() as folder:
        for name, text in made.items():
            pathlib.Path(folder, name).write_text(text)
        with open(os.devnull, "w") as out:
            child = subprocess.Popen([program, "run", "config.json", "script.txt"], cwd=folder, stdout=out)
        peak, begun = 0.0, time.monotonic()
        while True:
            done, status, usage = os.wait4(child.pid, os.WNOHANG)
            if done:
                return usage.ru_utime + usage.ru_stime, peak, os.waitstatus_to_exitcode(status)
            peak = max(peak, peak_of(child, program.name))
            if time.monotonic() - begun > LIMIT_OF_A_RUN:
                child.kill()
            time.sleep(0.002)


def measured(program, make):
    """Seconds and peak of the largest run, the greatest growth of the seconds in comparable runs, and the statuses."""
    taken, statuses, peak = [], [], 0.0
    for size in SIZES:
        seconds, peak, status = run(program, make(size))
        taken.append(seconds)
        statuses.append(status)
    grown = [later / earlier / 2 for earlier, later in zip(taken, taken[1:]) if earlier >= SHORT]
    return taken[-1], peak, max(grown, default=0.0), statuses


def main(words):
    program = pathlib.Path(words[0]).resolve() if words else PROGRAM
    unknown = [name for name in words[1:] if name not in CASES]
    if unknown or not program.exists():
        sys.exit(__doc__)
    dear = []
    print(f"{'case':50} {'seconds':>8} {'MiB':>6} {'growth':>7}  status")
    for name in words[1:] or CASES:
        seconds, peak, growth, statuses = measured(program, CASES[name])
        is_dear = seconds > SECONDS or peak > MEBIBYTES or growth > GROWTH
        dear += [name] * is_dear
        print(f"{name:50} {seconds:8.2f} {peak:6.0f} {growth or '':7.3}  {statuses[-1]}{' *' * is_dear}", flush=True)
    print(f"{len(dear)} of {len(words[1:] or CASES)} cost too much or grow too fast" if dear else "none costs too much")


main(sys.argv[1:])
