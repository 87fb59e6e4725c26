"""A study as its two files have it, read once `coord` has taken them. Pairs come from `coord pairs`."""

import csv
import io
import tomllib
from dataclasses import dataclass, field

from .program import fail


@dataclass(frozen=True)
class Key:
    """A key of a table: its limits if it is a number, its default, its unit, the format it came with."""

    low: int = None
    high: int = None
    default: int = None
    unit: str = ""
    since: int = 1
    example: str = ""

    @property
    def is_number(self):
        return self.low is not None


NAME = Key()
CUSTOM = ("custom_k", "custom_c", "custom_j", "custom_h")

# The keys of docs/FORMATS.md in their order.
KEYS = {
    "top": {
        "format": Key(1, 4, unit="the format of the file"),
        "study": Key(),
        "line": Key(),
        "relay": Key(),
        "fault": Key(),
        "exempt": Key(),
        "interval": Key(since=3),
    },
    "study": {
        "cti_ms": Key(1, 10_000, unit="milliseconds", example="0.3 s is 300"),
        "sense": Key(105, 500, 110, "hundredths of the pickup", example="1.1 times the pickup is 110"),
        "cap": Key(5, 30, 20, "multiples of the pickup"),
        "load_percent": Key(100, 300, 120, "percent of the load", example="1.2 times the load is 120"),
    },
    "line": {"name": NAME, "from": NAME, "to": NAME},
    "relay": {
        "name": NAME,
        "line": NAME,
        "bus": NAME,
        "curve": Key(),
        "ct_primary": Key(1, 10_000, unit="amperes", example="of a transformer 1200:5 it is 1200"),
        "ct_secondary": Key(1, 5, unit="amperes, 1 or 5", example="of a transformer 1200:5 it is 5"),
        "plug_first": Key(1, 10_000, unit="hundredths of a secondary ampere", example="0.5 A is 50"),
        "plug_step": Key(1, 10_000, 1, "hundredths of a secondary ampere", example="0.5 A is 50"),
        "plug_count": Key(1, 64, 1, "steps"),
        "dial_first": Key(1, 15_000, unit="thousandths", example="0.05 is 50"),
        "dial_step": Key(1, 15_000, 1, "thousandths", example="0.01 is 10"),
        "dial_count": Key(1, 4_000, 1, "steps"),
        "load_amps": Key(0, 100_000, 0, "primary amperes", example="0.4 kA is 400"),
        "least_ms": Key(0, 100_000, 0, "milliseconds", 2, "0.2 s is 200"),
        "most_ms": Key(0, 20_000_000, 0, "milliseconds", 2, "1.5 s is 1500"),
        "custom_k": Key(1, 10_000_000, unit="ten-thousandths of a second", since=4, example="0.14 s is 1400"),
        "custom_c": Key(0, 1_000_000, unit="ten-thousandths of a second", since=4, example="0.114 s is 1140"),
        "custom_j": Key(1, 4, unit="the upper part of the exponent j/h", since=4),
        "custom_h": Key(1, 100, unit="the lower part of the exponent j/h", since=4),
    },
    "fault": {"name": NAME, "line": NAME, "weight": Key(1, 1_000, 1, "a weight")},
    "exempt": {"backup": NAME, "primary": NAME},
    "interval": {"backup": NAME, "primary": NAME, "cti_ms": Key(1, 10_000, unit="milliseconds", since=3, example="0.3 s is 300")},
}

CURVES = ("iec-a", "iec-b", "iec-c", "ieee-mi", "ieee-vi", "ieee-ei")


def keys_of(table, document, element=None):
    """The keys that a table has in the document's format; those of a custom curve only if the relay has one."""
    version = document.get("format", 1)
    version = version if isinstance(version, int) else 1
    is_custom = isinstance(element, dict) and element.get("curve") == "custom"
    return [it for it, key in KEYS[table].items() if key.since <= version and (it not in CUSTOM or is_custom)]


def with_defaults(table, element):
    return {it: key.default for it, key in KEYS[table].items() if key.default is not None} | element


def amperes(hundredths):
    return f"{hundredths // 100}.{hundredths % 100:02}"


@dataclass
class Entry:
    """A record of the currents table: its number after the header, and its line in the file."""

    fault: str
    relay: str
    amps: int
    number: int
    line: int


@dataclass
class Study:
    document: dict
    pairs: list  # (primary, backup), by names, as `coord pairs` prints them
    entries: list
    study: dict = field(init=False)
    relays: dict = field(init=False)
    lines: dict = field(init=False)
    faults: dict = field(init=False)
    amps: dict = field(init=False)
    terms: list = field(init=False)  # (fault, relay): the relay is on its line and has a current there; by fault, then relay
    rows: list = field(init=False)  # (fault, backup, primary): the interval rows; the backup has a current at a term of its primary

    def __post_init__(self):
        by_name = lambda table: {it["name"]: with_defaults(table, it) for it in self.document.get(table, [])}
        self.study = with_defaults("study", self.document["study"])
        self.relays, self.lines, self.faults = by_name("relay"), by_name("line"), by_name("fault")
        self.amps = {(it.fault, it.relay): it.amps for it in self.entries if it.amps > 0}
        self.terms = [(f, r) for f, it in self.faults.items() for r, relay in self.relays.items() if relay["line"] == it["line"] and (f, r) in self.amps]
        backups = {name: [b for p, b in self.pairs if p == name] for name in self.relays}
        self.rows = [(f, b, p) for f, p in self.terms for b in backups[p] if (f, b) in self.amps]

    @classmethod
    def read(cls, coord, network, currents):
        """A study that `coord` takes. If it refuses a file, that answer comes back in its place."""
        if refusal := coord.inputs(network, currents):
            return refusal
        said = coord.run("pairs", network)
        if said.status:
            return said
        pairs = [(words[1], words[3]) for words in map(str.split, said.lines) if words[0] == "primary"]
        return cls(read_document(network), pairs, read_entries(currents))

    def limits(self, key):
        """The limit rows (fault, relay) of `least_ms` or `most_ms`."""
        return [(f, r) for f, r in self.terms if self.relays[r][key] > 0]

    def interval(self, backup, primary):
        """The pair's interval in milliseconds, its own or the study's."""
        own = [it["cti_ms"] for it in self.document.get("interval", []) if (it["backup"], it["primary"]) == (backup, primary)]
        return own[0] if own else self.study["cti_ms"]

    def plugs(self, name):
        """The plugs of a relay in hundredths of a secondary ampere, by step."""
        it = self.relays[name]
        return [it["plug_first"] + step * it["plug_step"] for step in range(it["plug_count"])]

    def dials(self, name):
        it = self.relays[name]
        return [it["dial_first"] + step * it["dial_step"] for step in range(it["dial_count"])]

    def pickup(self, name, plug):
        """The pickup in primary amperes."""
        it = self.relays[name]
        return plug * it["ct_primary"] / (100 * it["ct_secondary"])

    def multiple(self, name, plug, amps):
        """The multiple of pickup, before the cap."""
        return amps / self.pickup(name, plug)

    def least_current(self, name):
        """The least current of the relay in a term or a row, with its fault; None if it has none."""
        used = {f for f, p in self.terms if p == name} | {f for f, b, _ in self.rows if b == name}
        return min(((self.amps[f, name], f) for f in used), default=None)

    def clears_load(self, name, plug):
        it = self.relays[name]
        return plug * it["ct_primary"] >= self.study["load_percent"] * it["load_amps"] * it["ct_secondary"]

    def senses(self, name, plug, amps):
        it = self.relays[name]
        return 100 * 100 * amps * it["ct_secondary"] >= self.study["sense"] * plug * it["ct_primary"]


def read_document(network):
    try:
        with open(network, encoding="utf-8-sig", newline="") as file:
            return tomllib.loads(file.read())
    except (OSError, UnicodeDecodeError, tomllib.TOMLDecodeError) as error:
        fail(f"{network}: coord takes this file, and Python's TOML reader does not: {error}")


def read_entries(currents):
    """The records after the header of a table that `coord` takes."""
    with open(currents, encoding="utf-8-sig", newline="") as file:
        reader = csv.reader(io.StringIO(file.read()))
        records = [(it, reader.line_num) for it in reader if it][1:]
    return [Entry(fault, relay, int(amps), number, line) for number, ((fault, relay, amps), line) in enumerate(records, 1)]


def document_text(document):
    """A network file of a document, with the keys that it has."""
    value = lambda it: f'"{it}"' if isinstance(it, str) else str(it)
    pairs = lambda table: "".join(f"{key} = {value(it)}\n" for key, it in table.items())
    text = f"format = {document['format']}\n\n[study]\n" + pairs(document["study"])
    for table in ("line", "relay", "fault", "exempt", "interval"):
        text += "".join(f"\n[[{table}]]\n" + pairs(it) for it in document.get(table, []))
    return text
