"""Reads what `mon run` prints: its tables, and the lines between them."""

import csv
import re
from dataclasses import dataclass

from command_line import Refusal

HEADING = re.compile(r"time(,[A-Za-z_]\w*)*", re.ASCII)
ASKED = re.compile(r"(?:([A-Za-z_]\w*) )?at (\d{1,19}):", re.ASCII)
COUNT = re.compile(r"(\d{1,12}) rows", re.ASCII)
TIME = re.compile(r"\d{1,19}", re.ASCII)


@dataclass(frozen=True)
class Asked:
    """The standing query that a tick asked, and the moment; or that of a query that was followed, which has no name, and
    the number of its first table."""

    name: str
    moment: int
    first: int = 0


@dataclass(frozen=True)
class Line:
    """A line that is of no table. A standing query that is refused prints one."""

    text: str
    asked: Asked | None = None


@dataclass(frozen=True)
class Table:
    """A table: its number among those of the output, from 1, its columns without the time, and its rows with it."""

    number: int
    columns: tuple
    rows: list
    asked: Asked | None = None


class Lines:
    """The lines of a text, each with its line feed, and the number of the one that was given last."""

    def __init__(self, text):
        self.rest, self.number = iter(text.removesuffix("\n").split("\n") if text else ()), 0

    def __iter__(self):
        return self

    def __next__(self):
        line = next(self.rest)
        self.number += 1
        return line + "\n"


def items(text):
    """The tables of an output and the lines between them, in their order; one that is cut off is refused."""
    lines, found, asked, last = Lines(text), 0, None, None
    for line in lines:
        line = line[:-1]
        named = ASKED.fullmatch(line)
        if named:
            moment = int(named[2])
            goes_on = last and not named[1] and not last.name and last.moment < moment
            asked = Asked(named[1] or "", moment, last.first if goes_on else (found + 1) * (not named[1]))
        elif HEADING.fullmatch(line):
            found += 1
            columns = tuple(line.split(",")[1:])
            yield Table(found, columns, rows(lines, len(columns) + 1), asked)
            asked, last = None, asked
        else:
            yield Line(line, asked)
            asked, last = None, asked


def rows(lines, width):
    """The rows of a table whose heading was the last line, up to the line that counts them."""
    begun, taken = lines.number, []
    try:
        for row in csv.reader(lines, strict=True):
            count = COUNT.fullmatch(row[0]) if len(row) == 1 else None
            if count:
                return counted(taken, int(count[1]), lines.number)
            if len(row) != width:
                raise Refusal(f"line {lines.number}: the row has {len(row)} cells, and its table has {width} columns")
            if not TIME.fullmatch(row[0]):
                raise Refusal(f"line {lines.number}: the row does not begin with a time")
            taken.append((int(row[0]), *row[1:]))
    except csv.Error as fault:
        raise Refusal(f"line {lines.number}: is no row of a table ({fault})") from None
    raise Refusal(f"line {begun}: the table that begins there is cut off")


def counted(taken, count, number):
    """The rows of a table, as many as its last line says."""
    if count != len(taken):
        raise Refusal(f"line {number}: says {count} rows, and {len(taken)} stand above it")
    return taken


def tables(text):
    """The tables of an output; where it has none, why the run printed none if its last line tells it."""
    found, last = [], None
    for item in items(text):
        if isinstance(item, Table):
            found.append(item)
        else:
            last = item.text
    if not found and last is None:
        raise Refusal("nothing was printed, so there is no table")
    if not found:
        raise Refusal(f"no table was printed; the last line is: {last[:200]}")
    return found
