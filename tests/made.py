"""Made input, worked out by its rules alone: what `gen N` and `trial N` print. It shares nothing with the crates."""

import json

FILES, ROWS, TASKS, JOBS, CLUSTERS = 4, 50000, 500, 10, 4
FACTOR, ADDEND, WORD = 6364136223846793005, 1442695040888963407, 2**64
ALL = "fetch Task::/work | align delta(1000s)"
QUERIES = (
    ALL,
    f"{ALL} | group_by [], sum(work)",
    f"{ALL} | group_by [cluster], sum(work)",
    f"{ALL} | group_by [job], mean(work)",
    f"{ALL} | top 10, work",
    'fetch Task::/work | filter user=="u1" | align delta(500s)',
    'fetch Task::/work | filter job=~".*ob7" | align delta(1000s) | group_by [user, job], max(work)',
    f"{{{ALL};{ALL}}}|join|group_by [], count()",
)


def zone(number):
    """A zone with one location, two leaves, and two ranges that both hold."""
    first, second = leaves = [f"z{number}a", f"z{number}b"]
    ranges = [{"from": [], "leaves": leaves}, {"from": ["Task", "u2"], "leaves": [second, first]}]
    return {"name": f"z{number}", "locations": [f"c{number}"], "leaves": leaves, "ranges": ranges}


def config():
    fields = [{"name": name, "type": "text"} for name in ("user", "job", "cluster")] + [{"name": "task", "type": "int"}]
    fields[2]["location"] = True
    metric = {"name": "/work", "kind": "delta", "type": "int", "column": "work"}
    whole = {
        "targets": [{"name": "Task", "fields": fields}],
        "metrics": [metric],
        "zones": [zone(number) for number in range(FILES)],
    }
    return json.dumps(whole, separators=(",", ":")) + "\n"


def script():
    feeds = [f"feed p{number}.csv" for number in range(FILES)]
    return "".join(f"{line}\n" for line in ["together", *feeds, "end", *(f"query 1000 {text}" for text in QUERIES)])


def values(number):
    """The points of each file: task, end and value."""
    state = number
    for _file in range(FILES):
        found = []
        for row in range(ROWS):
            state = (state * FACTOR + ADDEND) % WORD
            found.append((row % TASKS, 10 * (row // TASKS + 1), state // 2**33 % 1000))
        yield found


def points(number):
    """The texts of the files of points."""
    for file, found in enumerate(values(number)):
        yield "".join(
            f"Task,/work,{end - 10},{end},{value},u{file},job{task % JOBS},c{task % CLUSTERS},{task}\n"
            for task, end, value in found
        )


def sections(number):
    """The names of the made files with their texts."""
    yield "config.json", config()
    for file, text in enumerate(points(number)):
        yield f"p{file}.csv", text
    yield "script.txt", script()


def printed(number):
    """What `gen` prints of a number."""
    return "".join(f"== {name} ==\n{text}" for name, text in sections(number))


def work(found, after):
    """The work of each task of a file, at ends after one."""
    total = [0] * TASKS
    for task, end, value in found:
        if end > after:
            total[task] += value
    return total


def answers(number):
    """How many rows each query has, and the sum of its last column."""
    files = list(values(number))
    work_of = [work(found, 0) for found in files]
    tasks = [one for total in work_of for one in total]
    jobs = [[one for total in work_of for one in total[job::JOBS]] for job in range(JOBS)]
    clusters = [sum(sum(total[cluster::CLUSTERS]) for total in work_of) for cluster in range(CLUSTERS)]
    columns = (
        tasks,
        [sum(tasks)],
        clusters,
        [sum(job) // len(job) for job in jobs],
        sorted(tasks)[-10:],
        work(files[1], 500),
        [max(total[7::JOBS]) for total in work_of],
        [len(tasks)],
    )
    return [(len(column), sum(column)) for column in columns]


def summary(number):
    """What `trial` prints of a number."""
    count = FILES * ROWS
    queries = (f"query {place}: {rows} rows, sum {total}\n" for place, (rows, total) in enumerate(answers(number), 1))
    return f"points {count}\naccepted {count}\nrefused 0\n" + "".join(queries)
