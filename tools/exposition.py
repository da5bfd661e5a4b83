"""Reads texts of the Prometheus exposition format, and makes points of their samples."""

import re
from dataclasses import dataclass

from mapping import Setting
from points import Unfit, whole

SAMPLE = re.compile(
    r"[ \t]*([a-zA-Z_:][a-zA-Z0-9_:]*)"
    r'(?:[ \t]*\{((?:[^"}]|"(?:[^"\\]|\\.)*")*)\}[ \t]*|[ \t]+)'
    r"([^\s{]+)(?:[ \t]+(\S+))?[ \t]*"
)
LABEL = re.compile(r'[ \t]*([a-zA-Z_][a-zA-Z0-9_]*)[ \t]*=[ \t]*"((?:[^"\\]|\\.)*)"[ \t]*(?:,|$)')
TYPE = re.compile(r"#[ \t]+TYPE[ \t]+(\S+)[ \t]+(\S+)[ \t]*")
STAMP = re.compile(r"\d{1,19}", re.ASCII)
ESCAPES = {"\\n": "\n", '\\"': '"', "\\\\": "\\"}
MOST_BOUNDS = 64


@dataclass(frozen=True)
class Sample:
    """A sample: its metric, its labels, its value as it is written, and its time in seconds."""

    name: str
    labels: dict
    value: str
    time: int


class Exposition:
    """A text that is read line by line into points."""

    def __init__(self, points, mapping, tell, time):
        self.points, self.mapping, self.tell, self.time = points, mapping, tell, time
        self.types = {}
        # The buckets of the histogram whose lines are read: for each time and labels its first line and its counts.
        self.family, self.buckets = None, {}

    def read(self, content):
        """Takes all samples of a text, and tells each line that is left out."""
        *lines, last = content.split(b"\n")
        for number, line in enumerate(lines, 1):
            try:
                self.take(number, line.decode().removesuffix("\r"))
            except UnicodeDecodeError:
                self.tell(number, "is no UTF-8")
            except Unfit as cause:
                self.tell(number, str(cause))
        if last:
            self.tell(len(lines) + 1, "is cut off: it has no line end")
        self.end_family()

    def take(self, number, line):
        """Takes a line: a sample, a comment, or what a comment says of a type."""
        if not line.strip() or line.lstrip().startswith("#"):
            typed = TYPE.fullmatch(line)
            if typed:
                self.types[typed[1]] = typed[2]
            return
        found = SAMPLE.fullmatch(line)
        if not found:
            raise Unfit("is no sample")
        name = found[1]
        family, part = self.of_family(name)
        if family != self.family:
            self.end_family()
            self.family = family
        if not self.mapping.others and not {name, family} & self.mapping.metrics.keys():
            return
        try:
            self.put(number, Sample(name, labels(found[2] or ""), found[3], self.seconds(found[4])), family, part)
        except Unfit as cause:
            raise Unfit(f"{name}: {cause}") from None

    def of_family(self, name):
        """The metric that a comment gave a type to, and which part of it a sample's name is."""
        if name in self.types:
            return name, ""
        for part in ("_bucket", "_sum", "_count"):
            family = name.removesuffix(part)
            if family != name and self.types.get(family) in ("histogram", "summary"):
                return family, part
        return name, ""

    def seconds(self, stamp):
        """The time of a sample, whose stamp has milliseconds."""
        if stamp is None:
            if self.time is None:
                raise Unfit("it has no time (--time says one)")
            return self.time
        if not STAMP.fullmatch(stamp):
            raise Unfit(f"its time {stamp[:40]} is no whole number of milliseconds from the epoch")
        return int(stamp) // 1000

    def put(self, number, sample, family, part):
        """Makes a point of a sample, or keeps it for the distribution that it is a bucket of."""
        of_family = self.mapping.metrics.get(family, Setting())
        if part == "_bucket":
            return self.put_bucket(number, sample)
        setting = self.mapping.metrics.get(sample.name) or Setting(scale=of_family.scale if part == "_sum" else None)
        counts = part or self.types.get(family) == "counter"
        kind = setting.kind or ("counter" if counts else "gauge")
        value = whole(sample.value, setting.scale)
        metric = self.points.metric(sample.name, setting, kind, "int")
        self.points.put(metric, kind, sample.labels, sample.time, value)

    def put_bucket(self, number, sample):
        """Keeps the count of a bucket, by its bound."""
        own = {name: value for name, value in sample.labels.items() if name != "le"}
        bound = sample.labels.get("le")
        if bound is None:
            raise Unfit("the bucket has no label le")
        key = (sample.time, tuple(sorted(own.items())))
        _, counts = self.buckets.setdefault(key, (number, {}))
        counts[bound] = whole(sample.value)

    def end_family(self):
        """Makes distributions of the buckets of a histogram whose lines have all been read."""
        kept, self.buckets = self.buckets, {}
        for (time, own), (number, counts) in kept.items():
            try:
                self.put_counts(dict(own), time, counts)
            except Unfit as cause:
                self.tell(number, f"{self.family}: {cause}")

    def put_counts(self, own, time, counts):
        """Makes a point of the counts up to each bound."""
        setting = self.mapping.metrics.get(self.family, Setting())
        kind = setting.kind or "counter"
        top = counts.pop("+Inf", None)
        if top is None or not 0 < len(counts) <= MOST_BOUNDS:
            raise Unfit(f'its buckets are not one to {MOST_BOUNDS} and one of le="+Inf"')
        up_to = {whole(bound, setting.scale, is_exact=True): count for bound, count in counts.items()}
        if len(up_to) < len(counts):
            raise Unfit("two of its bounds are the same number")
        bounds = tuple(sorted(up_to))
        sums = [0, *(up_to[bound] for bound in bounds), top]
        inside = tuple(later - earlier for earlier, later in zip(sums, sums[1:]))
        if min(inside) < 0:
            raise Unfit("the counts of its buckets fall")
        metric = self.points.metric(self.family, setting, kind, "dist", bounds)
        self.points.put(metric, kind, own, time, inside)


def labels(text):
    """The labels of a sample."""
    found, place, text = {}, 0, text.strip()
    while place < len(text):
        label = LABEL.match(text, place)
        if not label:
            raise Unfit('its labels are not written as NAME="VALUE" with commas between')
        found[label[1]] = re.sub(r"\\.", lambda sign: ESCAPES.get(sign[0], sign[0]), label[2])
        place = label.end()
    return found
