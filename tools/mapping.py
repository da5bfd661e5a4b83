"""The mapping that says how samples or rows become points of the store."""

import decimal
import json
import re
from dataclasses import dataclass, field

from command_line import Refusal, text

NAME = re.compile(r"[A-Za-z_][A-Za-z0-9_]{0,63}")
METRIC = re.compile(r"(/[A-Za-z0-9_.]+)+")
KEPT_BACK = ("time", "true", "false")
LONGEST_METRIC, MOST_FIELDS = 256, 16
HELP = """The mapping is a JSON object:

  "fields"*    the target's fields with their types, text, int or bool: {"instance": "text", "zone": "text"}
  "location"*  the one of them that is the location, a text
  "target"     the name of the target's schema, "Target" if left out
  "set"        values of fields for what doesn't tell them: {"zone": "east"}; the option --set says more
  "zones"      zones with their locations: {"north": ["east", "west"]}; one zone of all locations if left out
  "metrics"    settings of metrics, by their names in the input: {"node_load1": {"scale": 100}}; keys of a setting:
    "scale"      a number that values, and bounds of buckets, are multiplied by; values are rounded then
    "kind"       gauge; delta, what came since the row before; or counter, which counts up and becomes a delta
    "name", "column"   what it is called in the store, if not /NAME and NAME"""


@dataclass(frozen=True)
class Setting:
    """What a mapping says of a metric."""

    name: str = ""
    column: str = ""
    scale: decimal.Decimal | None = None
    kind: str = ""
    type: str = "int"
    fields: tuple = ()


@dataclass(frozen=True)
class Mapping:
    """What a mapping says."""

    fields: dict
    location: str
    target: str = "Target"
    set: dict = field(default_factory=dict)
    zones: dict | None = None
    metrics: dict = field(default_factory=dict)
    others: bool = True
    time: str = "time"
    start: str = ""
    unit: str = "s"


def is_text(value):
    return isinstance(value, str)


def is_name(value):
    return is_text(value) and bool(NAME.fullmatch(value))


def is_column(value):
    return is_name(value) and value not in KEPT_BACK


def is_metric(value):
    return is_text(value) and bool(METRIC.fullmatch(value)) and len(value) <= LONGEST_METRIC


def is_texts(value):
    return isinstance(value, list) and all(map(is_text, value)) and len(set(value)) == len(value)


def is_fields(value):
    lawful = isinstance(value, dict) and 0 < len(value) <= MOST_FIELDS and all(map(is_column, value))
    return lawful and all(is_text(of) and of in ("text", "int", "bool") for of in value.values())


def is_zones(value):
    lawful = isinstance(value, dict) and 0 < len(value) <= 32 and all(map(is_name, value))
    places = [place for list_of in value.values() if is_texts(list_of) for place in list_of] if lawful else []
    return lawful and all(map(is_texts, value.values())) and len(set(places)) == len(places)


def is_scale(value):
    return isinstance(value, (int, decimal.Decimal)) and not isinstance(value, bool) and 0 < value < 10**18


def is_one_of(*words):
    return lambda value: is_text(value) and value in words


KEYS = {
    "fields": (is_fields, "an object of 1 to 16 lawful names with the types text, int or bool"),
    "location": (is_text, "the name of a field"),
    "target": (is_name, "a lawful name"),
    "set": (lambda value: isinstance(value, dict) and all(map(is_text, value.values())), "an object of texts"),
    "zones": (is_zones, "an object of 1 to 32 lawful names with lists of texts, each of which stands once"),
    "metrics": (lambda value: isinstance(value, dict), "an object"),
    "others": (lambda value: isinstance(value, bool), "true or false"),
    "time": (is_text, "the name of a column"),
    "start": (is_text, "the name of a column"),
    "unit": (is_one_of("s", "ms", "iso"), "s, ms or iso"),
}
SETTING_KEYS = {
    "name": (is_metric, "a lawful metric, as /cpu/time"),
    "column": (is_column, "a lawful name"),
    "scale": (is_scale, "a number above 0 and below 10^18"),
    "kind": (is_one_of("gauge", "delta", "counter"), "gauge, delta or counter"),
    "type": (is_one_of("int", "bool", "text"), "int, bool or text"),
    "fields": (is_texts, "a list of names of columns"),
}


def read(path, options):
    """The mapping of a file, with the values of fields that the options set."""
    try:
        found = json.loads(text(path), parse_float=decimal.Decimal)
    except (ValueError, RecursionError, decimal.DecimalException) as fault:
        raise Refusal(f"{path}: is no JSON ({fault})") from None
    checked(found, KEYS, path)
    for key in ("fields", "location"):
        if key not in found:
            raise Refusal(f'{path}: the key "{key}" is missing')
    settings = {name: setting(of, f"{path}: {name}") for name, of in found.get("metrics", {}).items()}
    given = Mapping(**{**found, "metrics": settings, "set": {**found.get("set", {}), **options}})
    if given.fields.get(given.location) != "text":
        raise Refusal(f"{path}: the location {given.location} is no field of the type text")
    for name in given.set:
        if name not in given.fields:
            raise Refusal(f"{path}: {name} is set, and no field")
    return given


def setting(found, where):
    """The setting of a metric."""
    checked(found, SETTING_KEYS, where)
    scale = found.get("scale")
    fields = tuple(found.get("fields", ()))
    return Setting(**{**found, "fields": fields, "scale": None if scale is None else decimal.Decimal(scale)})


def checked(found, keys, where):
    """Refuses what is no object of these keys with fitting values."""
    if not isinstance(found, dict):
        raise Refusal(f"{where}: is no object")
    for key, value in found.items():
        if key not in keys:
            raise Refusal(f'{where}: the key "{key}" is unknown (see --help)')
        fits, wanted = keys[key]
        if not fits(value):
            raise Refusal(f'{where}: "{key}" is not {wanted}')
