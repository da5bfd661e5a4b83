"""Reads a file of comma-separated values with a header, and makes points of its rows."""

import csv
import datetime
import io
import re

from command_line import Refusal
from points import Unfit, typed, whole

TIME = re.compile(r"\d{1,19}", re.ASCII)


class Separated:
    """A file whose rows become points: each column that the mapping lists as a metric is one of a row's target."""

    def __init__(self, points, mapping, tell):
        self.points, self.mapping, self.tell = points, mapping, tell
        self.header = []

    def read(self, content, name):
        """Takes all rows, and tells each that is left out."""
        # What is no UTF-8 is told where it stands.
        text = content.decode("utf-8-sig", "surrogateescape")
        reader = csv.reader(io.StringIO(text, newline=""), strict=True)
        begun = 1
        while True:
            try:
                row = next(reader, None)
                if row is None:
                    break
                if self.header:
                    self.take(begun, row)
                else:
                    self.begin(row, name)
            except csv.Error as fault:
                self.tell(begun, f"is no row ({fault})")
            except Unfit as cause:
                self.tell(begun, str(cause))
            begun = reader.line_num + 1
        if not self.header:
            raise Refusal(f"{name}: has no header")

    def begin(self, header, name):
        """Takes the header, which has to have all columns that the mapping names."""
        given = self.mapping
        wanted = [given.time, *([given.start] if given.start else []), *given.metrics]
        wanted += [column for setting in given.metrics.values() for column in setting.fields]
        wanted += [column for column in given.fields if column not in given.set]
        for column in wanted:
            if header.count(column) != 1:
                raise Refusal(f"{name}: the header has the column {column} {header.count(column)} times")
        if not given.metrics:
            raise Refusal("the mapping names no metrics, which are the columns that become points")
        for column, setting in given.metrics.items():
            if setting.type != "int" and setting.kind not in ("", "gauge"):
                raise Refusal(f"the metric {column} is no number, so it can't be a {setting.kind}")
        self.header = header

    def take(self, number, row):
        """Takes a row."""
        if not row:
            return
        if len(row) != len(self.header):
            raise Unfit(f"has {len(row)} cells, and the header {len(self.header)}")
        if any("\udc80" <= sign <= "\udcff" for cell in row for sign in cell):
            raise Unfit("is no UTF-8")
        cells, given = dict(zip(self.header, row)), self.mapping
        time = self.seconds(cells[given.time])
        start = self.seconds(cells[given.start]) if given.start else None
        labels = {name: cells[name] for name in given.fields if name in cells}
        self.points.target(labels)
        for column, setting in given.metrics.items():
            if cells[column]:
                try:
                    own = {name: cells[name] for name in setting.fields}
                    self.put(column, setting, {**labels, **own}, time, start, cells[column])
                except Unfit as cause:
                    self.tell(number, f"{column}: {cause}")

    def put(self, column, setting, labels, time, start, cell):
        """Makes a point of a cell."""
        kind = setting.kind or "gauge"
        value = whole(cell, setting.scale) if setting.type == "int" else typed(cell, setting.type)
        metric = self.points.metric(column, setting, kind, setting.type)
        self.points.put(metric, kind, labels, time, value, start if kind == "delta" else None)

    def seconds(self, cell):
        """The time of a cell, in seconds from the epoch."""
        if self.mapping.unit == "iso":
            return since_epoch(cell)
        if not TIME.fullmatch(cell):
            raise Unfit(f"its time {cell[:40]} is no whole number")
        return int(cell) // (1000 if self.mapping.unit == "ms" else 1)


def since_epoch(cell):
    """The seconds up to a date and time, which is one of UTC where it has no offset; parts of a second are dropped."""
    try:
        time = datetime.datetime.fromisoformat(re.sub(r"Z$", "+00:00", cell))
    except ValueError:
        raise Unfit(f"its time {cell[:40]} is no date and time") from None
    if time.tzinfo is None:
        time = time.replace(tzinfo=datetime.timezone.utc)
    return (time - datetime.datetime(1970, 1, 1, tzinfo=datetime.timezone.utc)) // datetime.timedelta(seconds=1)
