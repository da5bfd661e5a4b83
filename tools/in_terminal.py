"""Draws series with characters."""

import shutil

from series import label

MARKS = "abcdefghijklmnopqrstuvwxyzABCDEFGHIJKLMNOPQRSTUVWXYZ"
SEVERAL, SHADES = "*", " .:-=+*#%@"
HEIGHT, NARROWEST, WIDEST = 15, 20, 200


def drawn(title, panels, bounds):
    """A picture as lines of text."""
    lines = [title]
    for panel in panels:
        lines += ["", *(heat_maps(panel, bounds) if panel.is_counts else chart(panel))]
    return "\n".join(line.rstrip() for line in lines) + "\n"


def chart(panel):
    """A column of numbers: a mark for each point, and what the marks stand for."""
    low, high = extent(value for _, values in panel.groups.values() for value in values)
    names = [f"{high:.10g}" if high != low else "", f"{low:.10g}"]
    margin = max(map(len, names))
    width, first, last = room(margin), *extent(time for times, _ in panel.groups.values() for time in times)
    canvas = [[" "] * width for _ in range(HEIGHT)]
    for mark, (times, values) in zip(marks(panel), panel.groups.values()):
        for time, value in zip(times, values):
            row = canvas[HEIGHT - 1 - place(value, low, high, HEIGHT)]
            column = place(time, first, last, width)
            row[column] = mark if row[column] in (" ", mark) else SEVERAL
    sides = [names[0], *[""] * (HEIGHT - 2), names[1]]
    lines = [f"{side:>{margin}} |{''.join(row)}" for side, row in zip(sides, canvas)]
    return [panel.column, *lines, *under(margin, width, first, last), *legend(panel)]


def heat_maps(panel, bounds):
    """A column of distributions: for each group a row for each bucket, the last one on top."""
    lines, buckets = [], len(next(iter(panel.groups.values()))[1][0])
    names = bucket_names(buckets, bounds)
    margin = max(map(len, names))
    width, first, last = room(margin), *extent(time for times, _ in panel.groups.values() for time in times)
    for group, (times, values) in panel.groups.items():
        width = min(width, len(set(times)))
        cells = [[0.0] * width for _ in range(buckets)]
        for time, counts in zip(times, values):
            for bucket, count in enumerate(counts):
                cells[bucket][place(time, first, last, width)] += count
        most = max(map(max, cells)) or 1.0
        lines.append(f"{panel.column} {label(group)}".rstrip() + f", at most {most:.10g}")
        for name, row in reversed(list(zip(names, cells))):
            lines.append(f"{name:>{margin}} |" + "".join(shade(count, most) for count in row))
        lines += under(margin, width, first, last)
    return lines


def shade(count, most):
    """The character of a count: a blank for none, and never for one that is above 0."""
    if count == 0:
        return SHADES[0]
    return SHADES[max(1, round(count / most * (len(SHADES) - 1)))]


def bucket_names(buckets, bounds):
    """How the buckets are called: by the bounds, where they are said and as many as there have to be."""
    if len(bounds) + 1 != buckets:
        return [f"bucket {number}" for number in range(1, buckets + 1)]
    return [f"to {bound}" for bound in bounds] + [f"above {bounds[-1]}"]


def marks(panel):
    return [MARKS[number % len(MARKS)] for number in range(len(panel.groups))]


def legend(panel):
    """What the marks stand for, with the newest value of each group."""
    if list(panel.groups) == [()]:
        return []
    newest = [(label(group), values[-1]) for group, (_, values) in panel.groups.items()]
    lines = [f"{mark} {name}: {value:.10g}" for mark, (name, value) in zip(marks(panel), newest)]
    return [f"by {', '.join(panel.by)}, with the newest value:", *lines]


def under(margin, width, first, last):
    """The line below a drawing, and the first and the last time."""
    space = max(width - len(str(first)) - len(str(last)), 1)
    times = f"{first}{' ' * space}{last}" if first != last else str(first)
    return [f"{'':>{margin}} +{'-' * width}", f"{'':>{margin}}  {times}"]


def room(margin):
    """How many characters a drawing is wide."""
    return min(max(shutil.get_terminal_size((80, 24)).columns - margin - 2, NARROWEST), WIDEST)


def extent(numbers):
    numbers = list(numbers)
    return min(numbers), max(numbers)


def place(number, low, high, size):
    """Where a number stands between the least and the greatest."""
    return 0 if low == high else int((number - low) / (high - low) * (size - 1) + 0.5)
