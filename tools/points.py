"""Points that a store takes, made of what was read elsewhere, and the configuration that they fit."""

import csv
import decimal
import io
import re
from dataclasses import dataclass, field

from mapping import LONGEST_METRIC, MOST_FIELDS, is_column, is_metric

NUMBER = re.compile(r"[+-]?(\d+\.?\d*|\.\d+)([eE][+-]?\d+)?", re.ASCII)
GREATEST, LONGEST_TEXT = 2**63 - 1, 1024
MOST_METRICS = 1024
# A feed reads files up to 64 MiB.
LONGEST_FILE = 64_000_000


class Unfit(Exception):
    """Why a sample or a row is no point of the store, in one line."""


@dataclass
class Metric:
    """A metric of the store. Its fields come as they are met."""

    name: str
    column: str
    kind: str
    type: str
    bounds: tuple = ()
    fields: list = field(default_factory=list)


@dataclass
class Last:
    """The newest time of a series, and what its counter stood at then."""

    time: int
    count: object


def whole(value, scale=None, is_exact=False):
    """The whole number of 64 bits that a number in decimals is, or comes to by a scale, where it is rounded."""
    if not NUMBER.fullmatch(value):
        raise Unfit(f"{value[:40]} is no number")
    with decimal.localcontext() as context:
        context.prec = 60
        try:
            number = decimal.Decimal(value) * (scale or 1)
        except decimal.DecimalException:
            raise Unfit(f"{value[:40]} has too many digits") from None
        if abs(number) > GREATEST:
            raise Unfit(f"{value[:40]} has more than 64 bits")
        rounded = number.to_integral_value()
    if rounded != number and (scale is None or is_exact):
        raise Unfit(f"{value[:40]} is no whole number" + (", and has no scale" if scale is None else " by its scale"))
    return int(rounded)


def typed(value, of):
    """A value of a field, as the store reads it."""
    if of == "int":
        return str(whole(value))
    if of == "bool" and value not in ("true", "false"):
        raise Unfit(f"{value[:40]} is neither true nor false")
    if len(value.encode()) > LONGEST_TEXT:
        raise Unfit(f"a text has more than {LONGEST_TEXT} bytes")
    return value


class Points:
    """All points of the files that were read, and the schemas that they fit."""

    def __init__(self, mapping):
        self.mapping, self.metrics, self.last = mapping, {}, {}
        self.locations, self.rows, self.baselines = {}, [], 0
        self.listed = {place for places in (mapping.zones or {}).values() for place in places}

    def metric(self, source, setting, kind, of, bounds=()):
        """The metric of a name in the input, which is new or as it was before."""
        found = self.metrics.get(source)
        if found is None:
            name, column = setting.name or f"/{source}", setting.column or source
            if not is_metric(name):
                raise Unfit(f"{name[:80]} is no lawful metric: letters, digits, _ and ., at most {LONGEST_METRIC}")
            if not is_column(column) or column in self.mapping.fields:
                raise Unfit(f"{column[:80]} is no lawful column, or a field of the target")
            if name in {other.name for other in self.metrics.values()}:
                raise Unfit(f"another metric is called {name}")
            if len(self.metrics) == MOST_METRICS:
                raise Unfit(f"there are more than {MOST_METRICS} metrics")
            found = self.metrics[source] = Metric(name, column, "gauge" if kind == "gauge" else "delta", of, bounds)
        if found.bounds != bounds:
            raise Unfit("its buckets have other bounds than before")
        return found

    def target(self, labels):
        """The fields of a target, of labels and of what the mapping sets."""
        told = {**self.mapping.set, **{name: value for name, value in labels.items() if value}}
        place = told.get(self.mapping.location)
        if not place:
            raise Unfit(f"it has no location: neither {self.mapping.location}, nor is it set")
        if self.mapping.zones is not None and place not in self.listed:
            raise Unfit(f"no zone lists the location {place[:80]}")
        fields = tuple(typed(told.get(name, ""), of) for name, of in self.mapping.fields.items())
        self.locations.setdefault(place)
        return fields

    def put(self, metric, kind, labels, time, value, start=None):
        """Adds a point of a series: its value, or how far its counter rose."""
        if not 0 <= time <= GREATEST:
            raise Unfit(f"the time {time} is below 0 or has more than 63 bits")
        if start is not None and not 0 <= start < time:
            raise Unfit(f"the start {start} is below 0, or not before the time {time}")
        target = self.target(labels)
        own = {name: typed(text, "text") for name, text in labels.items() if name not in self.mapping.fields}
        series = (metric.name, target, tuple(sorted(pair for pair in own.items() if pair[1])))
        last = self.last.get(series)
        if last and time <= last.time:
            raise Unfit(f"the time {time} is not behind the series' last one, {last.time}")
        self.add_fields(metric, own)
        if kind == "gauge":
            self.add(metric, time, time, value, target, own)
        elif start is not None or last:
            risen = rise(last.count, value) if kind == "counter" else value
            self.add(metric, last.time if start is None else start, time, risen, target, own)
        else:
            self.baselines += 1
        self.last[series] = Last(time, value)

    def add_fields(self, metric, own):
        """Adds the fields that a metric has not had so far."""
        new = [name for name in own if name not in metric.fields]
        for name in new:
            if not is_column(name) or name == metric.column:
                raise Unfit(f"{name[:80]} is no lawful field, or the metric's own column")
        if len(metric.fields) + len(new) > MOST_FIELDS:
            raise Unfit(f"the metric has more than {MOST_FIELDS} fields")
        metric.fields += new

    def add(self, metric, start, end, value, target, own):
        if metric.type == "dist":
            value = ";".join(map(str, value))
        self.rows.append((metric, start, end, value, target, own))

    def texts(self, rows):
        """Points as texts of files, none longer than a feed reads."""
        texts, out = [], io.StringIO()
        writer = csv.writer(out, lineterminator="\n")
        for metric, start, end, value, target, own in rows:
            fields = [own.get(name, "") for name in metric.fields]
            writer.writerow([self.mapping.target, metric.name, start, end, value, *target, *fields])
            # A sign of a text takes up to four bytes.
            if out.tell() > LONGEST_FILE // 4:
                texts.append(out.getvalue())
                out.seek(0)
                out.truncate()
        return [*texts, out.getvalue()]

    def config(self):
        """The configuration that the points fit: its zones have one leaf and one range each."""
        zones = self.mapping.zones or {"main": list(self.locations)}
        given = self.mapping
        fields = [{"name": name, "type": of, "location": name == given.location} for name, of in given.fields.items()]
        return {
            "targets": [{"name": given.target, "fields": fields}],
            "metrics": [described(metric) for metric in self.metrics.values()],
            "zones": [
                {"name": name, "locations": places, "leaves": [leaf], "ranges": [{"from": [], "leaves": [leaf]}]}
                for leaf, (name, places) in zip((f"leaf{number}" for number in range(1, 33)), zones.items())
            ],
        }


def rise(before, now):
    """How far a counter, or each of the counts of a distribution, rose; one that fell began anew at 0."""
    if isinstance(now, tuple):
        risen = tuple(later - earlier for earlier, later in zip(before, now))
        return now if min(risen) < 0 else risen
    return now if now < before else now - before


def described(metric):
    """A metric as it stands in a configuration."""
    fields = [{"name": name, "type": "text"} for name in metric.fields]
    told = {"name": metric.name, "kind": metric.kind, "type": metric.type, "column": metric.column, "fields": fields}
    return {**told, "bounds": list(metric.bounds)} if metric.bounds else told
