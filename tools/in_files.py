"""Draws series to a file, by matplotlib."""

import datetime
import logging
import warnings

import matplotlib

matplotlib.use("Agg")
# What the library does for itself, as collecting its fonts, is of no interest.
logging.getLogger("matplotlib").setLevel(logging.ERROR)

import matplotlib.dates
import matplotlib.pyplot as pyplot
from command_line import Refusal, reason
from in_terminal import bucket_names
from series import label

# Times from the second year on, up to the last year that has a date, are shown as dates.
FIRST_DATE, LAST_DATE = 31_536_000, 253_402_300_799
WIDTH, HEIGHT, HEAT_HEIGHT, SHORTEST = 9, 3.2, 2.4, 3
MOST_BUCKET_NAMES = 12
STYLE = {"svg.fonttype": "none", "svg.hashsalt": "tables", "axes.grid": True, "grid.alpha": 0.3, "figure.dpi": 100}


def draw(path, title, panels, bounds):
    """Draws the panels below each other to a file; the same panels give the same file."""
    warnings.filterwarnings("ignore", message="Glyph")
    rows = [row for panel in panels for row in split(panel)]
    heights = [HEAT_HEIGHT if panel.is_counts else HEIGHT for panel, _ in rows]
    with matplotlib.rc_context(STYLE):
        figure, axes = pyplot.subplots(
            len(rows),
            figsize=(WIDTH, max(sum(heights), SHORTEST)),
            squeeze=False,
            constrained_layout=True,
            gridspec_kw={"height_ratios": heights},
        )
        if title:
            figure.suptitle(plain(title))
        as_dates = all(FIRST_DATE <= time <= LAST_DATE for time in all_times(panels))
        for (panel, groups), axis in zip(rows, axes[:, 0]):
            (heat_map if panel.is_counts else lines)(figure, axis, panel, groups, as_dates, bounds)
            name_times(axis, as_dates)
        save(figure, path)


def split(panel):
    """The drawings of a panel, each with its groups: one of all lines, or one for each distribution."""
    if not panel.is_counts:
        return [(panel, panel.groups)]
    return [(panel, {group: series}) for group, series in panel.groups.items()]


def lines(_figure, axis, panel, groups, as_dates, _bounds):
    """A line for each group."""
    colours = pyplot.get_cmap("tab10" if len(groups) <= 10 else "tab20").colors
    drawn = []
    for number, (times, values) in enumerate(groups.values()):
        style = {"marker": "o" if len(times) <= 60 else "", "markersize": 3, "color": colours[number % len(colours)]}
        drawn += axis.plot(places(times, as_dates), values, **style)
    axis.set_ylabel(panel.column)
    if list(groups) != [()]:
        names = [legend_name(group) for group in groups]
        beside = {"loc": "upper left", "bbox_to_anchor": (1.01, 1)}
        axis.legend(drawn, names, title=", ".join(panel.by), fontsize="small", **beside)


def heat_map(figure, axis, panel, groups, as_dates, bounds):
    """The counts of each bucket at each time, the bucket of the least values at the bottom."""
    [(group, (times, values))] = groups.items()
    edges, columns = cells(times, values)
    buckets = len(columns[0])
    grid = [[column[bucket] for column in columns] for bucket in range(buckets)]
    # All groups of a column have one scale.
    most = max(max(map(max, counts)) for _, counts in panel.groups.values()) or 1
    drawn = axis.pcolormesh(places(edges, as_dates), range(buckets + 1), grid, vmin=0, vmax=most, cmap="viridis")
    figure.colorbar(drawn, ax=axis, label="count")
    names, step = bucket_names(buckets, bounds), -(-buckets // MOST_BUCKET_NAMES)
    axis.set_yticks([number + 0.5 for number in range(0, buckets, step)], names[::step])
    axis.set_ylabel(panel.column)
    axis.grid(False)
    if group:
        axis.set_title(legend_name(group), fontsize="small", loc="left")


def cells(times, values):
    """The edges of the cells of a heat map, and the counts of each. A cell reaches back from its time by the least step
    between two times; where a time is lacking, the cell between has no count."""
    together = {}
    for time, counts in zip(times, values):
        together[time] = [sum(pair) for pair in zip(together[time], counts)] if time in together else counts
    order = sorted(together)
    step = min((later - time for time, later in zip(order, order[1:])), default=60)
    nothing = [float("nan")] * len(values[0])
    edges, columns = [order[0] - step], []
    for time in order:
        if edges[-1] < time - step:
            edges.append(time - step)
            columns.append(nothing)
        edges.append(time)
        columns.append(together[time])
    return edges, columns


def name_times(axis, as_dates):
    """How the times are written below a drawing."""
    if as_dates:
        locator = matplotlib.dates.AutoDateLocator()
        axis.xaxis.set_major_locator(locator)
        axis.xaxis.set_major_formatter(matplotlib.dates.ConciseDateFormatter(locator))
    else:
        axis.ticklabel_format(axis="x", useOffset=False, style="plain")
    axis.set_xlabel("time (UTC)" if as_dates else "time (s)")


def places(times, as_dates):
    """Where times stand on the axis."""
    if not as_dates:
        return [float(time) for time in times]
    start = datetime.datetime(1970, 1, 1)
    return [start + datetime.timedelta(seconds=time) for time in times]


def all_times(panels):
    return (time for panel in panels for times, _ in panel.groups.values() for time in times)


def legend_name(group):
    """A group's name; the library leaves out those that begin with an underscore."""
    name = plain(label(group))
    return f" {name}" if name.startswith("_") else name


def plain(text):
    """A text in which no sign begins a formula."""
    return text.replace("$", r"\$")


def save(figure, path):
    """Writes the picture, without the time at which it was drawn."""
    no_date = {"Date": None} if path.suffix == ".svg" else {"Software": None}
    try:
        figure.savefig(path, metadata=no_date)
    except (OSError, ValueError) as fault:
        raise Refusal(f"cannot write {path}: {reason(fault)}") from None
    finally:
        pyplot.close(figure)
