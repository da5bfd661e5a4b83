"""Queries over points of one schema, and the same in SQL."""

import re

SCHEMAS = {
    "targets": [
        {
            "name": "Task",
            "fields": [
                {"name": "user", "type": "text"},
                {"name": "job", "type": "text"},
                {"name": "cluster", "type": "text", "location": True},
                {"name": "task", "type": "int"},
            ],
        }
    ],
    "metrics": [
        {"name": "/work", "kind": "delta", "type": "int", "column": "work"},
        {"name": "/served", "kind": "cumulative", "type": "int", "column": "served"},
    ],
}
MOMENT = 1000
# The ends of points, by which a query at another moment differs.
END = re.compile(r"(end (?:>|<=) )(\d+)")
ALL = "fetch Task::/work | align delta(1000s)"
SERIES = (
    "SELECT user, job, cluster, task, SUM(work) AS work FROM points WHERE end > 0 AND end <= 1000"
    " GROUP BY user, job, cluster, task"
)
LATER = SERIES.replace("end > 0", "end > 500 AND user = 'u1'")
FIXED = SERIES.replace("end > 0", "end > 0 AND user = 'u1' AND job = 'job7' AND cluster = 'c2'")

# Each query, and the same in SQL.
# Without a row there is no group, which SQL says by GROUP BY NULL.
QUERIES = [
    (ALL, SERIES),
    (f"{ALL} | group_by [], sum(work)", f"SELECT SUM(work) AS work FROM ({SERIES}) GROUP BY NULL"),
    (
        f"{ALL} | group_by [cluster], sum(work)",
        f"SELECT cluster, SUM(work) AS work FROM ({SERIES}) GROUP BY cluster",
    ),
    (
        f"{ALL} | group_by [job], mean(work)",
        f"SELECT job, SUM(work) / COUNT(*) AS work FROM ({SERIES}) GROUP BY job",
    ),
    (
        f"{ALL} | top 10, work",
        f"SELECT * FROM ({SERIES}) ORDER BY work DESC, user, job, cluster, task LIMIT 10",
    ),
    ('fetch Task::/work | filter user=="u1" | align delta(500s)', LATER),
    (
        'fetch Task::/work | filter job=~".*ob7" | align delta(1000s) | group_by [user, job], max(work)',
        "SELECT user, job, MAX(work) AS work"
        f" FROM ({SERIES.replace('end > 0', 'end > 0 AND job GLOB ' + repr('*ob7'))}) GROUP BY user, job",
    ),
    (
        'fetch Task::/work | filter user=="u1" && job=="job7" && cluster=="c2" | align delta(1000s)'
        " | group_by [task], max(work)",
        f"SELECT task, MAX(work) AS work FROM ({FIXED}) GROUP BY task",
    ),
    (
        f'{{{ALL} | filter cluster=="c2" && user=="u1";{ALL} | filter job=="job7"}} | join | group_by [task], count()',
        f"SELECT task, COUNT(*) AS count FROM ({FIXED}) GROUP BY task",
    ),
    (
        f"{{{ALL} | filter cluster==\"c2\";{ALL} | filter cluster==\"c2\" && user!=\"u1\"}} | union"
        " | group_by [], sum(work)",
        f"SELECT SUM(work * (1 + (user <> 'u1'))) AS work FROM ({SERIES}) WHERE cluster = 'c2' GROUP BY NULL",
    ),
    (
        f"{{{ALL};{ALL}}}|join|group_by [], count()",
        f"WITH sums AS MATERIALIZED ({SERIES})"
        " SELECT COUNT(*) AS count FROM sums JOIN sums AS others USING (user, job, cluster, task, work) GROUP BY NULL",
    ),
]


# What each point of a series adds to the one before it, which is its whole value where the count began anew between.
INCREASES = (
    "SELECT *, served - IIF(start IS LAG(start) OVER series, LAG(served) OVER series, 0) AS increase FROM totals"
    " WINDOW series AS (PARTITION BY user, job, cluster, task ORDER BY end)"
)
SERVED = (
    f"SELECT user, job, cluster, task, SUM(increase) AS served FROM ({INCREASES})"
    " WHERE end > 500 AND end <= 1000 GROUP BY user, job, cluster, task"
)
# The same of queries over a cumulative metric.
TOTAL_QUERIES = [
    ("fetch Task::/served | align delta(500s)", SERVED),
    ("fetch Task::/served | within 500s | every 500s", SERVED),
    ("fetch Task::/served | align delta(1000s)", SERVED.replace("end > 500", "end > 0")),
    (
        'fetch Task::/served | filter user=="u1" || job=="job7" | align delta(500s)',
        SERVED.replace("end > 500", "end > 500 AND (user = 'u1' OR job = 'job7')"),
    ),
    (
        "fetch Task::/served | filter served>300 | align delta(500s)",
        SERVED.replace("FROM totals", "FROM (SELECT * FROM totals WHERE served > 300)"),
    ),
    (
        "fetch Task::/served | align delta(500s) | group_by [cluster], sum(served), count()",
        f"SELECT cluster, SUM(served) AS served, COUNT(*) AS count FROM ({SERVED}) GROUP BY cluster",
    ),
    (
        "fetch Task::/served | align delta(500s) | top 5, served",
        f"SELECT * FROM ({SERVED}) ORDER BY served DESC, user, job, cluster, task LIMIT 5",
    ),
]


def zone(number):
    """A zone of one location, with two leaves and two ranges that both hold."""
    first, second = f"z{number}a", f"z{number}b"
    return {
        "name": f"z{number}",
        "locations": [f"c{number}"],
        "leaves": [first, second],
        "ranges": [{"from": [], "leaves": [first, second]}, {"from": ["Task", "u2"], "leaves": [second, first]}],
    }


def make_table(base):
    for table, column in (("points", "work"), ("totals", "served")):
        base.execute(
            f"CREATE TABLE {table} (start INTEGER, end INTEGER, {column} INTEGER,"
            " user TEXT, job TEXT, cluster TEXT, task INTEGER)"
        )


def add_records(base, records):
    """Adds the records of a file of points."""
    rows = {"/work": [], "/served": []}
    for row in records:
        rows[row[1]].append((int(row[2]), int(row[3]), int(row[4]), row[5], row[6], row[7], int(row[8])))
    base.executemany("INSERT INTO points VALUES (?, ?, ?, ?, ?, ?, ?)", rows["/work"])
    base.executemany("INSERT INTO totals VALUES (?, ?, ?, ?, ?, ?, ?)", rows["/served"])


def table(base, sql, moment=MOMENT):
    """What a query prints that means the same as an SQL query whose rows stand in one time."""
    found = base.execute(END.sub(lambda end: f"{end[1]}{int(end[2]) + moment - MOMENT}", sql))
    names = ["time"] + [column[0] for column in found.description]
    rows = sorted(found)
    lines = [",".join(map(str, row)) for row in [names] + [(moment, *row) for row in rows]]
    return "".join(f"{line}\n" for line in [*lines, f"{len(rows)} rows"])


def tables(base, sql, moments):
    """What such a query prints that is followed."""
    return "".join(f"at {moment}:\n{table(base, sql, moment)}" for moment in moments)
