"""Tables of cases: how they are written, and how a case of each kind becomes a run."""

import json
import re
from dataclasses import dataclass, replace

import made
from runs import Run

CONFIG, SCRIPT, POINTS = "c.json", "s.txt", "p.csv"
ESCAPE = re.compile(rb"\\(?:([nr])|x([0-9a-f]{2})|\{(\d+) ((?:[^}\\]|\\n)*)\}|<(\d+) ((?:[^>\\]|\\n)*)>|)")
ENDS = {b"n": b"\n", b"r": b"\r"}


class Misspelled(Exception):
    """A table, a folder or a case is of no known form."""


@dataclass(frozen=True)
class Case:
    """A case: where it stands, its kind, what is given and wanted, and the files that it stands under."""

    place: str
    kind: str
    given: str
    wanted: bytes
    files: dict

    def run(self):
        """The run, and the answer that is wanted of it."""
        return KINDS[self.kind](self)


def expanded(text):
    """The bytes that a text of a table writes."""
    return ESCAPE.sub(expanded_escape, text.encode())


def expanded_escape(found):
    end, byte, count, piece, other_count, other_piece = found.groups()
    if end or byte:
        return ENDS[end] if end else bytes([int(byte, 16)])
    if not count and not other_count:
        raise Misspelled("no escape stands behind a backslash")
    return int(count or other_count) * (piece or other_piece or b"").replace(b"\\n", b"\n")


def expanded_lines(lines):
    """The bytes of lines of a table, each with its line feed but for one that ends with a backslash."""
    return b"".join(expanded(line[:-1]) if line.endswith("\\") else expanded(line) + b"\n" for line in lines)


def read_table(path):
    """The cases of a table."""
    table = Table(path)
    while table.place < len(table.lines):
        line = table.place + 1
        try:
            table.take()
        except (Misspelled, OSError, ValueError) as fault:
            raise Misspelled(f"{path}:{line}: is of no known form ({fault})") from None
    if not table.cases or table.end != len(table.cases):
        raise Misspelled(f"{path}: has {len(table.cases)} cases, and says {table.end}")
    return table.cases


class Table:
    """A table that is read: its lines and the place of the next one, its cases so far, and what they stand under."""

    def __init__(self, path):
        self.path, self.place, self.cases, self.end = path, 1, [], None
        self.files, self.around = {}, ("", "")
        self.lines = path.read_bytes().decode().split("\n")
        first, _, self.kind = self.lines[0].partition("cases of ")
        if first or self.kind not in KINDS:
            raise Misspelled(f"{path}:1: names no kind of cases")

    def take(self):
        """Takes the next line, or the paragraph that it begins."""
        line, begun = self.lines[self.place], self.place
        self.place += 1
        word, _, rest = line.partition(" ")
        if line and self.end is not None:
            raise Misspelled("it stands behind the last line")
        if not line or line.startswith("# "):
            return
        if word in ("under", "with"):
            name = CONFIG if word == "under" else rest
            self.files = {**self.files, name: (self.path.parent / rest).read_bytes()}
        elif word == "within":
            front, back = rest.split("@")
            self.around = (front, back)
        elif word == "end":
            self.end = int(rest)
        elif " => " in line:
            given, wanted = line.split(" => ", 1)
            self.add(begun, given.join(self.around), expanded(wanted))
        else:
            self.take_paragraph(begun)

    def take_paragraph(self, begun):
        """Takes the lines up to an empty one; the answer begins with the first that begins with `=>`."""
        self.place = self.lines.index("", begun)
        lines = self.lines[begun : self.place]
        answer = [number for number, line in enumerate(lines) if line == "=>" or line.startswith("=> ")]
        if not answer:
            raise Misspelled("it has no answer")
        wanted = [line.removeprefix("=> ") for line in lines[answer[0] :] if line != "=>"]
        self.add(begun, "".join(f"{line}\n" for line in lines[: answer[0]]), expanded_lines(wanted))

    def add(self, begun, given, wanted):
        self.cases.append(Case(f"{self.path}:{begun + 1}", self.kind, given, wanted, self.files))


# ---- the kinds of cases


def runs(case):
    """The words, the script and the files of a run, line by line; its status and its text, or those of several runs."""
    files, without, how = {}, [], {"words": ("run", CONFIG, SCRIPT)}
    for line in case.given.splitlines():
        word, _, rest = line.partition(" ")
        name, sign, content = line.partition(": ")
        if line.startswith(">"):
            files.setdefault(SCRIPT, []).append(line[1:].removeprefix(" "))
        elif word == "$":
            how["words"] = tuple(rest.split())
        elif word == "without":
            without.append(rest)
        elif word in ("folder", "room", "told", "each", "output"):
            of = {"folder": lambda name: ("folders", (name,)), "room": lambda size: ("room", int(size))}
            key, value = of[word](rest) if word in of else (word, rest or True)
            how[key] = value
        elif sign:
            files.setdefault(name, []).append(content)
        else:
            raise Misspelled(line)
    files = {**case.files, SCRIPT: b"", **{name: expanded_lines(lines) for name, lines in files.items()}}
    return Run({name: files[name] for name in files if name not in without}, **how), case.wanted


def schedules(case):
    """A schedule; what it prints."""
    is_refused = re.search(rb"^line \d+: \w+\n\Z", case.wanted, re.MULTILINE)
    run = Run({**case.files, SCRIPT: expanded(case.given)}, ("weave", CONFIG, SCRIPT))
    return run, (b"3\n" if is_refused else b"0\n") + case.wanted


def configurations(case):
    """A configuration; `read`, or its fault."""
    wanted = b"0\n" if case.wanted == b"read" else b"2\nconfig: %s\n" % case.wanted
    return Run({CONFIG: expanded(case.given), SCRIPT: b""}, ("run", CONFIG, SCRIPT)), wanted


def scripts(case):
    """A script; `line N: KIND` where that line is refused, or what it prints."""
    run, wanted = of_script(case, expanded(case.given), case.wanted)
    return run, b"3\nscript %s\n" % case.wanted if case.wanted.startswith(b"line ") else wanted


def queries(case):
    """A query over no points; why it is refused, or the names of its columns, and its levels where they are given."""
    text, (columns, _, levels) = expanded(case.given), case.wanted.partition(b" > ")
    if re.match(rb"(Parse|Typing) ", case.wanted):
        return of_script(case, b"query 10 %s\n" % text, b"refused: %s\n" % case.wanted)
    table = b"time,%s\n0 rows\n" % columns
    if not levels:
        return of_script(case, b"query 10 %s\n" % text, table)
    leaves = (leaf for zone in json.loads(case.files[CONFIG])["zones"] for leaf in zone["leaves"])
    unread = b"".join(b"leaf %s unread 0\n" % leaf.encode() for leaf in leaves)
    return of_script(case, b"explain 10 %s\n" % text, table + levels.replace(b", ", b"\n") + b"\n" + unread)


def points(case):
    """A text of points; each record as `SCHEMA::METRIC: ROW` with the row that a query prints, or as its fault."""
    script, refused, printed, reads = b"feed p.csv\n", b"", b"", case.wanted.split(b" | ") if case.wanted else []
    for number, read in enumerate(reads, 1):
        series, _, row = read.partition(b": ")
        if row:
            script += b"query %s fetch %s | every 1s\n" % (row.split(b",")[0], series)
            printed += heading(case.files[CONFIG], series.decode()) + row + b"\n1 rows\n"
        else:
            refused += b"row %d: %s\n" % (number, read)
    count = refused.count(b"\n")
    return of_script(case, script, fed(len(reads) - count, count) + refused + printed, expanded(case.given))


def heading(config, series):
    """The first line of the table of a metric."""
    config, named = json.loads(config), []
    for key, name in zip(("targets", "metrics"), series.split("::")):
        named += [schema for schema in config[key] if schema["name"] == name]
    fields = [field["name"] for schema in named for field in schema.get("fields", [])]
    return ",".join(["time", *fields, named[1]["column"]]).encode() + b"\n"


def meanings(case):
    """`at MOMENT within LIMIT: QUERY`, and points; the table, or `over` where its load is above the limit."""
    head, _, points = case.given.partition("\n")
    moment, limit, query = re.fullmatch(r"at (\d+) within (\d+): (.*)", head).groups()
    config = json.dumps({**json.loads(case.files[CONFIG]), "limit": int(limit)}).encode()
    printed = b"refused: StepLimit %d\n" % int(limit) if case.wanted == b"over\n" else case.wanted
    script = b"feed p.csv\nquery %s %s\n" % (moment.encode(), expanded(query))
    return of_script(case, script, fed(points.count("\n"), 0) + printed, expanded(points), config)


def patterns(case):
    """`[PATTERN] [TEXT]`; whether the whole text matches."""
    pattern, text = (expanded(part) for part in re.fullmatch(r"\[(.*?)\] \[(.*)\]", case.given).groups())
    pattern = pattern.replace(b"\\", b"\\\\").replace(b'"', b'\\"')
    return of_filter(case, b'u =~ "%s"' % pattern, b"T,/m,10,10,1,%s,e\n" % quoted(text))


def predicates(case):
    """`NAME=VALUE NAME=VALUE .. ? PREDICATE`; whether the predicate holds of a row with these cells."""
    row, predicate = case.given.split(" ? ", 1)
    return of_filter(case, expanded(predicate), *of_cells(case, row))


def formulas(case):
    """The same of the one series of a leaf, whose keys these are; and whether a query for it reads the leaf."""
    row, predicate = case.given.split(" ? ", 1)
    holds, _, read = case.wanted.partition(b", ")
    sent = b"leaf e1 %s %d\n" % (read, holds == b"true")
    run, wanted = of_filter(replace(case, wanted=holds), expanded(predicate), *of_cells(case, row + " measured=#0"))
    files = {**run.files, SCRIPT: run.files[SCRIPT].replace(b"query", b"explain")}
    return replace(run, files=files), wanted + b"fetch leaf\nfilter leaf\ngroup_by root\n" + sent


def of_cells(case, row):
    """The record of a point with the cells of a row, the last of which is its value, and a configuration for it."""
    cells = [expanded(cell).decode().split("=", 1) for cell in row.split(" ")]
    types = [{"type": {"#": "int", "!": "bool"}.get(value[:1], "text")} for _, value in cells]
    fields = [{"name": name, **of} for (name, _), of in zip(cells, types)]
    metric = {"name": "/m", "kind": "gauge", "column": cells[-1][0], "fields": fields[:-1], **types[-1]}
    config = json.dumps({**json.loads(case.files[CONFIG]), "metrics": [metric]}).encode()
    texts = [quoted(value.lstrip("#!").encode()) for _, value in cells]
    return b"T,/m,10,10,%s\n" % b",".join([texts[-1], b"e", *texts[:-1]]), config


def inputs(case):
    """`N`; the first record of the points that are made from it. The run prints the whole input, as its rules say."""
    text = made.printed(int(case.given)).encode()
    if text.split(b"\n== p0.csv ==\n")[1].split(b"\n")[0] != case.wanted:
        raise Misspelled("the record is another one")
    return Run({}, ("gen", case.given)), b"0\n" + text


def trials(case):
    """`N`; how many rows each query over its input has. The run prints the whole summary, as its rules say."""
    rows = [count for count, _sum in made.answers(int(case.given))]
    if b" ".join(b"%d" % count for count in rows) != case.wanted.strip():
        raise Misspelled("the queries have other rows")
    return Run({}, ("trial", case.given)), b"0\n" + made.summary(int(case.given)).encode()


def limits(case):
    """`QUERY LIMIT`; what that query over the input that is made from 0 comes to under a limit of its load."""
    query, limit = (int(word) for word in case.given.split())
    files = {name: text.encode() for name, text in made.sections(0)}
    feeds = [f"feed {name}\n".encode() for name in files if name.endswith(".csv")]
    files[CONFIG] = json.dumps({"limit": limit, **json.loads(files["config.json"])}).encode()
    files[SCRIPT] = b"".join(feeds) + f"query 1000 {made.QUERIES[query - 1]}\n".encode()
    printed = b"".join(b"%s: %d accepted, 0 refused\n" % (feed.strip(), made.ROWS) for feed in feeds)
    status = b"7\n" if case.wanted.startswith(b"refused: ") else b"0\n"
    return Run(files, ("run", CONFIG, SCRIPT)), status + printed + case.wanted.rstrip(b"\n") + b"\n"


def of_filter(case, predicate, record, config=None):
    """The run that counts the one point that is fed where a filter takes it."""
    script = b"feed p.csv\nquery 10 fetch T::/m | filter %s | group_by [], count()\n" % predicate
    rows = {b"true": b"10,1\n1 rows\n", b"false": b"0 rows\n"}[case.wanted]
    return of_script(case, script, fed(1, 0) + b"time,count\n" + rows, record, config)


def of_script(case, script, printed, points=b"", config=None):
    """The run of a script over points, and its answer."""
    files = {CONFIG: config or case.files[CONFIG], SCRIPT: script, POINTS: points or case.files.get(POINTS, b"")}
    status = b"7\n" if re.search(rb"^refused: ", printed, re.MULTILINE) else b"0\n"
    return Run(files, ("run", CONFIG, SCRIPT)), status + printed


def fed(accepted, refused):
    return b"feed p.csv: %d accepted, %d refused\n" % (accepted, refused)


def quoted(text):
    return b'"%s"' % text.replace(b'"', b'""')


CASES_OF_RUNS = (runs, schedules, configurations, scripts, points, meanings, inputs, trials, limits)
CASES_OF_QUERIES = (queries, patterns, predicates, formulas)
KINDS = {kind.__name__: kind for kind in CASES_OF_RUNS + CASES_OF_QUERIES}
