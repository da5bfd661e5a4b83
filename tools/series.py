"""What of a printed table is drawn: its columns of numbers or of distributions, as a series for each group of rows."""

import re
from dataclasses import dataclass

from command_line import Refusal, printable

NUMBER = re.compile(r"-?\d{1,40}", re.ASCII)
COUNTS = re.compile(r"\d{1,40}(;\d{1,40})+", re.ASCII)


@dataclass(frozen=True)
class Picture:
    """What one picture is drawn of: a table, or all tables of a standing query, with the numbers that these have."""

    numbers: tuple
    name: str
    columns: tuple
    rows: list

    def called(self):
        """How it is called in what is told."""
        return f"table {self.numbers[0]}" + (f" ({self.name})" if self.name else "")


@dataclass(frozen=True)
class Panel:
    """One column to be drawn: the columns that tell its groups apart, and for each group its times and values."""

    column: str
    by: tuple
    is_counts: bool
    groups: dict


def pictures(tables):
    """The pictures of all tables. Those of one standing query with the same columns are one, and so are those of one
    query that was followed."""
    alike = {}
    for table in tables:
        key = (table.asked.name, table.asked.first, table.columns) if table.asked else table.number
        alike.setdefault(key, []).append(table)
    return [picture(group) for group in alike.values()]


def picture(tables):
    """The picture of some tables. Of a time that several of them have, the last one's rows count."""
    at = {}
    for table in tables:
        own = {}
        for row in table.rows:
            own.setdefault(row[0], []).append(row)
        at |= own
    rows = [row for time in sorted(at) for row in at[time]]
    first = tables[0]
    name = first.asked.name if first.asked else ""
    return Picture(tuple(table.number for table in tables), name, first.columns, rows)


def chosen(found, word):
    """The picture that a word names: by a table's number in the output, or by the name of a standing query."""
    for one in found:
        if word == one.name or word in map(str, one.numbers):
            return one
    raise Refusal(f"there is no table {word}; there are {sum(len(one.numbers) for one in found)}")


def panels(drawn, values=(), by=None):
    """What is drawn of a picture, or why nothing is. The columns of values, and those that tell groups apart, are said
    or found."""
    if not drawn.rows:
        raise Refusal(f"{drawn.called()} has no rows")
    for column in [*values, *(by or ())]:
        if column not in drawn.columns:
            raise Refusal(f"{drawn.called()} has no column {column}; it has {', '.join(drawn.columns)}")
    forms = {column: form(drawn, column) for column in drawn.columns}
    drawable = [column for column in drawn.columns if forms[column] and column not in (by or ())]
    for column in values:
        if column not in drawable:
            raise Refusal(f"{drawn.called()}: the column {column} has no numbers to draw")
    if not drawable:
        raise Refusal(f"{drawn.called()} has no column of numbers or distributions")
    if by is None:
        further = [column for column in drawable if column not in values] if values else drawable[:-1]
        by = told_apart(drawn, forms, [column for column in further if forms[column] is NUMBER])
    return [panel(drawn, column, by, forms[column] is COUNTS) for column in values or drawable if column not in by]


def form(drawn, column):
    """The form that all cells of a column have, or none. Distributions have one number of buckets."""
    cells = [row[drawn.columns.index(column) + 1] for row in drawn.rows]
    if all(map(NUMBER.fullmatch, cells)):
        return NUMBER
    is_counts = all(map(COUNTS.fullmatch, cells)) and len({cell.count(";") for cell in cells}) == 1
    return COUNTS if is_counts else None


def told_apart(drawn, forms, further):
    """The columns that tell groups apart: those of texts, and of the further ones, from the left, so many that no two
    rows of one time have the same group."""
    by = [column for column in drawn.columns if not forms[column]]
    for column in further:
        if tells_apart(drawn, by):
            break
        by.append(column)
    return tuple(column for column in drawn.columns if column in by)


def tells_apart(drawn, by):
    """Whether no two rows of one time are equal in some columns."""
    places = [drawn.columns.index(column) + 1 for column in by]
    seen = {(row[0], *(row[place] for place in places)) for row in drawn.rows}
    return len(seen) == len(drawn.rows)


def panel(drawn, column, by, is_counts):
    """One column as a series for each group, in the order of the groups' first rows."""
    places = [drawn.columns.index(it) + 1 for it in by]
    place, groups = drawn.columns.index(column) + 1, {}
    for row in drawn.rows:
        times, values = groups.setdefault(tuple(row[it] for it in places), ([], []))
        times.append(row[0])
        cell = row[place]
        values.append([float(count) for count in cell.split(";")] if is_counts else float(cell))
    return Panel(column, by, is_counts, groups)


def greatest(one, most):
    """The groups that reach the greatest values, at most so many, in the order in which they stand."""
    if len(one.groups) <= most:
        return dict(one.groups)
    height = sum if one.is_counts else float
    tops = {group: max(map(height, values)) for group, (_, values) in one.groups.items()}
    kept = set(sorted(tops, key=tops.get, reverse=True)[:most])
    return {group: series for group, series in one.groups.items() if group in kept}


def label(group):
    """How a group is called: its cells, in one line of at most 40 characters."""
    plain = printable(",".join(group))
    return plain if len(plain) <= 40 else plain[:39] + "…"
