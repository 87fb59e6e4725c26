"""Where a refused file is wrong, and what stands there: the network file and the currents table."""

import csv
import difflib
import io
import re
import sys
import tomllib

from .places import Places
from .study import CURVES, KEYS, keys_of, read_document

NAME_FORM = "1 to 16 letters, digits, `_`, `-` or `.`"
HEADER = ["fault", "relay", "amps"]


def like(word, words):
    """`; did you mean ..?` if a word is near, else nothing."""
    folded = {it.strip().casefold(): it for it in words}
    near = folded.get(word.strip().casefold()) or next(iter(difflib.get_close_matches(word, words, 1)), None)
    return f"; did you mean `{near}`?" if near else ""


def shown(value):
    """A value as a network file has it."""
    if isinstance(value, bool):
        return str(value).lower()
    if isinstance(value, str):
        return f'"{value}"'
    return f"{value}" if isinstance(value, (int, float)) else "a table" if isinstance(value, dict) else "a list" if isinstance(value, list) else f"{value}"


def where(line, network, currents):
    """The place of a refusal `network: ..` or `currents: ..`, in lines; none if Python can't read the file as `coord` does."""
    kind, _, rest = line.partition(": ")
    try:
        if kind == "network":
            return Network(network).explain(*rest.split())
        if kind == "currents":
            return Currents(currents, read_document(network)).explain(*rest.split())
    except (OSError, ValueError, LookupError, TypeError, AttributeError, StopIteration):
        pass
    return []


def pass_on(answer, network, currents):
    """Prints a refusal of `coord`, says where the file is wrong, and gives the status back."""
    sys.stdout.buffer.write(answer.out)
    sys.stdout.buffer.flush()
    for line in answer.lines:
        for text in where(line, network, currents):
            print(f"  {text}", file=sys.stderr)
    return answer.status


class Network:
    """A network file that was refused."""

    def __init__(self, path):
        with open(path, "rb") as file:
            self.bytes = file.read()

    def explain(self, kind, table=None, index=None, key=None):
        if kind == "not-text":
            return self.not_text()
        text = self.bytes.decode("utf-8").removeprefix("\ufeff")
        if kind == "not-toml":
            return not_toml(text)
        self.places, self.document = Places(text), tomllib.loads(text)
        self.table, self.index, self.key = table, int(index), key
        says = getattr(self, kind.replace("-", "_"))()
        return [f"{self.place()}: {says}"] if isinstance(says, str) else says

    def not_text(self):
        if self.bytes[:2] in (b"\xff\xfe", b"\xfe\xff"):
            return ["the file is UTF-16; save it as UTF-8"]
        try:
            self.bytes.decode("utf-8")
        except UnicodeDecodeError as error:
            line = self.bytes[: error.start].count(b"\n") + 1
            text = self.bytes.split(b"\n")[line - 1].decode("latin-1").strip()
            return [f"line {line}: `{text}` has a letter in another encoding; save the file as UTF-8, or write names without accents"]
        return []

    def element(self):
        """The table that the refusal names."""
        if self.table == "top":
            return self.document
        if self.table == "study":
            return self.document["study"]
        return self.document[self.table][self.index - 1]

    def name(self):
        """The table in words: `relay 3 (R3)`."""
        if self.index == 0:
            return "the top of the file" if self.table == "top" else "`study`"
        element = self.element()
        name = element.get("name") if isinstance(element, dict) else None
        return f"{self.table} {self.index}" + (f" (`{name}`)" if name else "")

    def place(self, key=None):
        key = key or self.key
        line = self.places.line(self.table, self.index, key) or self.places.line(self.table, self.index)
        return f"line {line}" if line else self.name()

    def value(self):
        return self.element().get(self.key)

    def missing(self):
        if self.table == "top" and self.key != "format":
            return [f"there is no `{'[study]' if self.key == 'study' else f'[[{self.key}]]'}` in the file"]
        key = KEYS[self.table][self.key]
        where = "above the first `[`" if self.table == "top" else f"in {self.name()}"
        line = self.places.line(self.table, self.index)
        unit = f", in {key.unit}" if key.unit and self.table != "top" else ""
        return [(f"line {line}: " if line else "") + f"`{self.key}` has to be there, {where}{unit}"]

    def wrong_kind(self):
        if self.key is None:
            return f"element {self.index} of `{self.table}` is not a table"
        value = self.document if self.table == "top" else self.element()
        value, key = value.get(self.key), KEYS[self.table][self.key]
        if self.key == "study":
            return "`study` is written `[study]`, one table"
        if self.table == "top" and not key.is_number:
            return f"`{self.key}` is written `[[{self.key}]]`, a table for each"
        if not key.is_number:
            return f"`{self.key} = {shown(value)}` is not in quotes; write `{self.key} = \"{value}\"`"
        if isinstance(value, str):
            return f"`{self.key} = {shown(value)}` is in quotes; write a whole number without them" + in_unit(key)
        return f"`{self.key} = {shown(value)}` is not a whole number" + in_unit(key)

    def out_of_range(self):
        value, key = self.value(), KEYS[self.table][self.key]
        if isinstance(value, str):
            return f"`{self.key} = {shown(value)}` is not a name: {NAME_FORM}"
        if self.key == "ct_secondary" and value not in (1, 5):
            return f"`ct_secondary = {value}` is neither 1 nor 5" + in_unit(key)
        relay = self.element()
        last = lambda of: relay[f"{of}_first"] + (relay.get(f"{of}_count", 1) - 1) * relay.get(f"{of}_step", 1)
        if self.table == "top":
            return f"`format = {value}` is not one of 1, 2, 3 and 4"
        if value is not None and not key.low <= value <= key.high:
            return f"`{self.key} = {value}` is not from {key.low} to {key.high}" + in_unit(key)
        if self.key == "plug_count":
            return f"the last of the {value} plugs is {last('plug') / 100:.2f} A; at most 100.00 A are allowed"
        if self.key == "dial_count":
            return f"the last of the {value} dials is {last('dial') / 1000:.3f}; at most 15.000 is allowed"
        if self.key == "most_ms":
            return f"`most_ms = {value}` is below `least_ms = {relay.get('least_ms', 0)}` of the same relay"
        if self.key == "custom_h":
            return f"the exponent {relay.get('custom_j')}/{value} is not allowed: h is 1 and j at most 3, or h is at least 2 and j/h at most 3/2"
        return f"the curve's time at 1.05 times the pickup is 2^40 ns (18 minutes) or more with `custom_k = {value}`"

    def unknown_key(self):
        element = self.element()
        known = keys_of(self.table, self.document, element)
        said = []
        for it in element:
            if it in known:
                continue
            owner = "the top of the file" if self.table == "top" else self.table
            text = f"{self.place(it)}: `{it}` isn't a key of {owner}"
            later, others = KEYS[self.table].get(it), [table for table in KEYS if it in KEYS[table]]
            if later and later.since > self.document.get("format", 1):
                text += f" in format {self.document.get('format')}; it is one from `format = {later.since}` on"
            elif later:
                text += " unless its curve is `custom`"
            elif others and self.table in ("top", "study"):
                text += f"; it is one of {' and '.join(others)}, so it stands at the wrong place"
            else:
                text += like(it, known)
            said.append(text)
        return said

    def unknown_curve(self):
        curves = [*CURVES, "custom"]
        if self.value() == "custom":
            return f"`custom` is a curve from `format = 4` on; this file has `format = {self.document.get('format')}`"
        return f"`curve = {shown(self.value())}` is no curve of Coord{like(str(self.value()), curves)}"

    def unknown_name(self):
        table = "line" if self.key == "line" else "relay"
        names = [it.get("name", "") for it in self.document[table]]
        return f"`{self.key} = {shown(self.value())}`: no {table} has this name{like(str(self.value()), names)}"

    def earlier(self, same):
        """The number of the first element before this one that is the same."""
        element = self.element()
        return next(n for n, it in enumerate(self.document[self.table], 1) if n < self.index and same(it, element))

    def double_name(self):
        keys = ("backup", "primary") if self.table == "interval" else ("name",)
        first = self.earlier(lambda a, b: all(a[it] == b[it] for it in keys))
        line = self.places.line(self.table, first, self.key)
        where = f"line {line}" if line else f"{self.table} {first}"
        what = "this pair has an interval" if self.table == "interval" else f"the name {shown(self.value())} stands"
        return f"{what} already at {where}"

    def loop_line(self):
        return f"`from` and `to` are both {shown(self.value())}"

    def not_at_line(self):
        name = self.element()["line"]
        line = next(it for it in self.document["line"] if it["name"] == name)
        return f"`bus = {shown(self.value())}`, but line `{name}` goes from `{line['from']}` to `{line['to']}`{like(str(self.value()), [line['from'], line['to']])}"

    def two_relays_at_end(self):
        first = self.earlier(lambda a, b: a["line"] == b["line"] and a["bus"] == b["bus"])
        other, line = self.document["relay"][first - 1]["name"], self.places.line("relay", first, "bus")
        return f"relay `{other}`" + (f" of line {line}" if line else "") + f" already stands at bus `{self.value()}` of line `{self.element()['line']}`"


def in_unit(key):
    unit = f"; it is in {key.unit}" if key.unit else ""
    return unit + (f": {key.example}" if key.example else "")


def not_toml(text):
    try:
        tomllib.loads(text)
    except tomllib.TOMLDecodeError as error:
        if not (found := re.search(r"at line (\d+)", str(error))):
            return [f"{error}"]
        line, lines = int(found[1]), text.splitlines()
        # A missing quote or bracket is told at the line after it.
        source = lines[line - 1].strip() if line <= len(lines) else ""
        said = f"line {line}: `{source}`: {str(error).split(' (at')[0]}"
        if re.search(r"=\s*-?\d+,\d", source):
            said += "; a number has no decimal comma, and is whole in a smaller unit (0,3 s is `cti_ms = 300`)"
        elif re.search(r"=\s*0\d", source):
            said += "; a number has no zeros in front"
        elif ";" in source:
            said += "; a line has no semicolon"
        elif re.search(r"=\s*[A-Za-z]", source):
            said += "; names and curves stand in quotes"
        elif not re.search(r"=", source) and source and source[0] != "[":
            said += "; a line is `key = value`, `[study]` or `[[relay]]`"
        return [said]
    return []


class Currents:
    """A currents table that was refused. The document is that of its network file."""

    def __init__(self, path, document):
        with open(path, "rb") as file:
            self.bytes = file.read()
        self.text = self.bytes.decode("utf-8", "replace").removeprefix("\ufeff")
        reader = csv.reader(io.StringIO(self.text, newline=""))
        # Records with the line at which each ends; the reader of `coord` passes over empty lines too.
        self.records = [(it, reader.line_num) for it in reader if it]
        self.document = document

    def explain(self, kind, word=None):
        if kind == "bad-header":
            return self.bad_header()
        if kind == "no-primary":
            return self.no_primary(word)
        record, line = self.records[int(word)]
        says = {
            "bad-record": lambda: bad_record(record),
            "unknown-fault": lambda: self.unknown("fault", record[0]),
            "unknown-relay": lambda: self.unknown("relay", record[1]),
            "bad-amps": lambda: bad_amps(record[2]),
            "double-entry": lambda: self.double_entry(record, int(word)),
        }[kind]()
        return [f"line {line}: `{','.join(record)}`: {says}"]

    def bad_header(self):
        if self.bytes[:2] in (b"\xff\xfe", b"\xfe\xff"):
            return ["the file is UTF-16; save it as UTF-8 with commas"]
        first = next((it for it in self.text.splitlines() if it.strip()), "")
        said = f"line 1: `{first}`: "
        fields = re.split(r"[;,\t|]", first)
        words = [it.strip().strip('"').casefold() for it in fields]
        if self.text.startswith("\ufeff"):
            return [said + "two byte order marks in front, and one is dropped"]
        if first == "":
            return ["the table is empty; its first line is `fault,relay,amps`"]
        if ";" in first:
            return [said + "semicolons where commas are due; `tools/currents` turns such a table into one with commas"]
        if "\t" in first:
            return [said + "tabs where commas are due; `tools/currents` turns such a table into one with commas"]
        if words == HEADER:
            return [said + "the header is exactly `fault,relay,amps`, in small letters and without spaces"]
        if sorted(words) == sorted(HEADER):
            return [said + "the columns are in another order than `fault,relay,amps`"]
        if len(fields) == 3 and fields[2].strip().isdigit():
            return [said + "the header `fault,relay,amps` is missing; records begin at once"]
        return [said + "the header is exactly `fault,relay,amps`" + like(first, [",".join(HEADER)])]

    def unknown(self, table, word):
        names = [it["name"] for it in self.document.get(table, [])]
        said = f"no {table} of the network file is called `{word}`"
        if word != word.strip():
            return said + "; there is a space beside the name"
        other = "relay" if table == "fault" else "fault"
        if word in [it["name"] for it in self.document.get(other, [])]:
            return said + f"; it is a {other}, so the columns may be swapped"
        return said + like(word, names)

    def double_entry(self, record, number):
        line = next(line for other, line in self.records[1:number] if other[:2] == record[:2])
        return f"fault and relay have an entry already, at line {line}"

    def no_primary(self, fault):
        line = next(it["line"] for it in self.document["fault"] if it["name"] == fault)
        relays = [it["name"] for it in self.document["relay"] if it["line"] == line]
        entries = [f"{record[1]} {record[2]} A" for record, _ in self.records[1:] if record[0] == fault]
        there = f"the table has {', '.join(entries)}" if entries else "the table has no entry for it"
        stand = f"the relays {' and '.join(relays)} stand" if len(relays) > 1 else f"relay {relays[0]} stands" if relays else "no relay stands"
        return [f"fault `{fault}` is on line `{line}`, on which {stand}; {there}"]


def bad_record(record):
    said = f"{len(record)} fields where fault, relay and amperes are due"
    joined = ",".join(record)
    if len(record) == 4 and record[2].strip().isdigit() and record[3].strip().isdigit():
        return said + "; a decimal comma makes a fourth field: write whole amperes"
    if ";" in joined:
        return said + "; semicolons where commas are due"
    if "\t" in joined:
        return said + "; tabs where commas are due"
    return said


def bad_amps(word):
    plain = word.strip()
    if word != plain:
        return "a space stands beside the amperes"
    if re.fullmatch(r"\d+[.,]\d+", plain):
        value = float(plain.replace(",", "."))
        return f"amperes are whole: {round(value)}" + (f", or {round(1000 * value)} if kA are meant" if value < 100 else "")
    if re.fullmatch(r"-\d+([.,]\d+)?", plain):
        return "a current against the tripping direction has no entry; leave the record out, or turn its sign if the relay looks the other way"
    if re.fullmatch(r"[\d.,]+\s*[kK]?[aA]", plain):
        return "a unit stands there: write whole primary amperes alone"
    if re.fullmatch(r"[\d.,]+[eE][+-]?\d+", plain):
        return "write the number out, in whole primary amperes"
    if plain.isdigit():
        return "at most six digits and 100000 amperes"
    return "whole primary amperes are due: digits alone"
