"""Each entry of docs/ANSWERS.md is met by a call of `coord`, and `explain` says its sentence and the place."""

import os
import re

from coordtools import answers
from coordtools.study import KEYS

from .studies import EXAMPLES, TOP, TWO, TWO_TABLE, Case, network, table, two_lines

EIGHT = [os.path.join(EXAMPLES, "eight-bus", it) for it in ("network.toml", "currents.csv")]
NONE = [os.path.join(EXAMPLES, "no-settings", it) for it in ("network.toml", "currents.csv")]

# At eight times the pickup 13.5/7 s is no whole nanosecond, so no enclosure decides that dials 0.140 and 0.280 leave exactly 270 ms.
HAIR = network([(name, line, bus, {"dial_first": 140, "dial_step": 140, "dial_count": 2}) for name, line, bus in (("R1", "AB", "A"), ("R2", "BC", "B"))], [("F1", "BC")], cti_ms=270)
HAIR_TABLE = table("F1,R2,800", "F1,R1,800")
HAIR_TOO = HAIR.replace("dial_count = 2", "dial_count = 3", 1) + '\n[[fault]]\nname = "F2"\nline = "AB"\n'
LIMITED = two_lines({"least_ms": 150, "most_ms": 1500}, version=3)
CUSTOM = {"curve": "custom", "custom_k": 1400, "custom_c": 0, "custom_j": 1, "custom_h": 50}
SHEET = "coord-sheet 1\nending closed\ncost 262500\nbound 262500\nrelay R1 plug 1.00 dial 0.250\nrelay R2 plug 1.00 dial 0.050\nend\n"
CERT = "coord-certificate 1\nending closed\ngap 1000\nbudget 20000\nboxes 1\nbound 262500\ncost 262500\nsettings 0:4 0:0\nB 1\nend\n"
NOTHING = CERT.replace("closed", "no-settings").replace("bound 262500", "bound none").replace("cost 262500", "cost none").replace("0:4 0:0", "none")
FOUR_LINES = [(f"L{n}", f"A{n}", f"B{n}") for n in range(64)]


def star(extra):
    """48 lines that meet at a bus, a relay at both ends of each: 4,096 rows and some more."""
    relays = [(f"{end}{n}", f"K{n}", bus, {}) for n in range(48) for end, bus in (("H", "H"), ("W", f"E{n}"))]
    text = network(relays, [(f"Z{n}", f"K{n % 48}") for n in range(88)], [(f"K{n}", "H", f"E{n}") for n in range(48)])
    entries = [f"Z{n},H{n % 48},2000" for n in range(88)]
    left = 4096 + extra
    for n in range(88):
        for other in [it for it in range(48) if it != n % 48][: max(left, 0)]:
            entries.append(f"Z{n},W{other},200")
            left -= 1
    return text, table(*entries)


def pairs(head, count, *keys):
    return "".join(f"\n[[{head}]]\n" + "".join(f"{it}\n" for it in keys) for _ in range(count))


# The line that is printed, what `explain` says besides, and the network file. Each is read by `pairs`.
NETWORKS = [
    ("network: not-text", "line 12: `name = \"Å\"` has a letter in another encoding", TWO.replace('"BC"', '"Å"', 1).encode("latin-1")),
    ("network: not-text", "UTF-16", TWO.encode("utf-16")),
    ("network: not-toml", "line 4: `cti_ms = 0,3`: Expected newline or end of document after a statement; a number has no decimal comma", TWO.replace("= 300", "= 0,3")),
    ("network: not-toml", "names and curves stand in quotes", TWO.replace('"iec-b"', "iec-b", 1)),
    ("network: not-toml", "semicolon", TWO.replace("= 300", "= 300;")),
    ("network: missing study 0 cti_ms", "line 3: `cti_ms` has to be there, in `study`, in milliseconds", TWO.replace("cti_ms = 300\n", "")),
    ("network: missing relay 2 ct_primary", "line 30: `ct_primary` has to be there, in relay 2 (`R2`)", TWO[::-1].replace("ct_primary = 100\n"[::-1], "", 1)[::-1]),
    ("network: missing top 0 format", "above the first `[`", TWO.replace("format = 1\n", "")),
    ("network: missing fault 1 line", "line 44: `line` has to be there, in fault 1 (`F1`)", TWO.replace('name = "F1"\nline = "BC"', 'name = "F1"')),
    ("network: missing top 0 study", "there is no `[study]`", TWO.replace("[study]\ncti_ms = 300\n", "")),
    ("network: missing top 0 line", "there is no `[[line]]`", "format = 1\n[study]\ncti_ms = 3\n"),
    ("network: wrong-kind study 0 cti_ms", "line 4: `cti_ms = 0.3` is not a whole number; it is in milliseconds: 0.3 s is 300", TWO.replace("= 300", "= 0.3")),
    ("network: wrong-kind relay 1 plug_first", "line 23: `plug_first = 0.5` is not a whole number; it is in hundredths of a secondary ampere: 0.5 A is 50", TWO.replace("plug_first = 100", "plug_first = 0.5", 1)),
    ("network: wrong-kind relay 1 ct_primary", "in quotes; write a whole number", TWO.replace("ct_primary = 100", 'ct_primary = "100"', 1)),
    ("network: wrong-kind relay 1 name", 'line 17: `name = 1` is not in quotes; write `name = "1"`', TWO.replace('"R1"', "1", 1)),
    ("network: wrong-kind top 0 relay", "a table for each", TWO.split("[[relay]]")[0] + "[relay]\nname = \"R1\"\n"),
    ("network: wrong-kind line 2", "element 2 of `line` is not a table", 'format = 1\nline = [{ name = "AB", from = "A", to = "B" },\n 3]\n[study]\ncti_ms = 3\n'),
    ("network: out-of-range study 0 cti_ms", "line 4: `cti_ms = 30000` is not from 1 to 10000; it is in milliseconds", TWO.replace("= 300", "= 30000")),
    ("network: out-of-range relay 1 ct_secondary", "`ct_secondary = 2` is neither 1 nor 5", TWO.replace("ct_secondary = 1", "ct_secondary = 2", 1)),
    ("network: out-of-range line 1 name", "is not a name: 1 to 16 letters", TWO.replace('"AB"', '"line AB"', 1)),
    ("network: out-of-range relay 1 dial_count", "the last of the 400 dials is 20.000; at most 15.000", TWO.replace("dial_count = 20", "dial_count = 400", 1)),
    ("network: out-of-range relay 1 plug_count", "the last of the 64 plugs is 192.00 A", TWO.replace("plug_step = 100\nplug_count = 1", "plug_step = 300\nplug_count = 64", 1).replace("plug_first = 100", "plug_first = 300", 1)),
    ("network: out-of-range relay 1 most_ms", "`most_ms = 100` is below `least_ms = 150`", two_lines({"least_ms": 150, "most_ms": 100}, version=2)),
    ("network: out-of-range relay 1 custom_h", "the exponent 4/1", two_lines({**CUSTOM, "custom_j": 4, "custom_h": 1}, version=4)),
    ("network: unknown-key study 0", "line 4: `cti` isn't a key of study; did you mean `cti_ms`?", TWO.replace("cti_ms", "cti")),
    ("network: unknown-key relay 1", "line 18: `lin` isn't a key of relay; did you mean `line`?", TWO.replace('line = "AB"', 'lin = "AB"', 1)),
    ("network: unknown-key top 0", "`interval` isn't a key of the top of the file in format 1; it is one from `format = 3` on", TWO + pairs("interval", 1, 'backup = "R1"')),
    ("network: unknown-key relay 1", "it is one from `format = 2` on", two_lines({"most_ms": 3})),
    ("network: unknown-key study 0", "it is one of relay, so it stands at the wrong place", TWO.replace("cti_ms = 300", "cti_ms = 300\nload_amps = 3")),
    ("network: unknown-curve relay 1 curve", "line 20: `curve = \"iec-d\"` is no curve of Coord; did you mean", TWO.replace("iec-b", "iec-d", 1)),
    ("network: unknown-curve relay 1 curve", "`custom` is a curve from `format = 4` on", two_lines({"curve": "custom"})),
    ("network: unknown-name relay 2 line", "no line has this name; did you mean `BC`?", TWO.replace('line = "BC"', 'line = "bc"', 1)),
    ("network: unknown-name exempt 1 backup", "no relay has this name", TWO + pairs("exempt", 1, 'backup = "R9"', 'primary = "R2"')),
    ("network: double-name relay 2 name", 'the name "R1" stands already at line 17', TWO.replace('"R2"', '"R1"')),
    ("network: double-name interval 2 primary", "this pair has an interval already at line", two_lines(version=3) + pairs("interval", 2, 'backup = "R1"', 'primary = "R2"', "cti_ms = 3")),
    ("network: loop-line line 1 to", 'line 9: `from` and `to` are both "A"', TWO.replace('to = "B"', 'to = "A"', 1)),
    ("network: not-at-line relay 1 bus", '`bus = "C"`, but line `AB` goes from `A` to `B`', TWO.replace('bus = "A"', 'bus = "C"', 1)),
    ("network: two-relays-at-end relay 2 bus", "relay `R1` of line 19 already stands at bus `A` of line `AB`", TWO.replace('line = "BC"\nbus = "B"', 'line = "AB"\nbus = "A"', 1)),
    ("too many: lines 64", "more than 64 lines", network([], [], [(f"L{n}", "A", "B") for n in range(65)])),
    ("too many: relays 96", "more than 96 relays", network([(f"R{n}", "AB", "A", {}) for n in range(97)], [])),
    ("too many: faults 256", "more than 256 faults", network([("R1", "AB", "A", {})], [(f"F{n}", "AB") for n in range(257)])),
    ("too many: exempt 1024", "more than 1024 exempt pairs", TWO + pairs("exempt", 1025, 'backup = "R1"', 'primary = "R2"')),
    ("too many: intervals 1024", "more than 1024 intervals", two_lines(version=3) + pairs("interval", 1025, 'backup = "R1"', 'primary = "R2"', "cti_ms = 3")),
    ("too many: buses 64", "more than 64 buses", network([("R1", "L0", "A0", {})], [], FOUR_LINES)),
    ("too many: pickup-steps 3072", "more than 3072 pickup steps", network([(f"R{n}", f"L{n}", "A", {"plug_step": 1, "plug_count": 64}) for n in range(49)], [], [(f"L{n}", "A", "B") for n in range(49)])),
    ("primary R2 backup R1\npairs 1", "has 1 pairs", TWO),
]

# The same for a currents table of the two lines, read by `margins`.
CURRENTS = [
    ("currents: bad-header", "line 1: `fault;relay;amps`: semicolons where commas are due", TWO_TABLE.replace(",", ";")),
    ("currents: bad-header", "tabs where commas are due", TWO_TABLE.replace(",", "\t")),
    ("currents: bad-header", "UTF-16", TWO_TABLE.encode("utf-16")),
    ("currents: bad-header", "two byte order marks", "\ufeff\ufeff" + TWO_TABLE),
    ("currents: bad-header", "in small letters and without spaces", TWO_TABLE.replace("fault,relay,amps", "Fault, Relay, Amps")),
    ("currents: bad-header", "the header `fault,relay,amps` is missing", TWO_TABLE.split("\n", 1)[1]),
    ("currents: bad-header", "another order", TWO_TABLE.replace("fault,relay,amps", "relay,fault,amps")),
    ("currents: bad-record 2", "line 3: `F1,R1,1,000`: 4 fields where fault, relay and amperes are due; a decimal comma", TWO_TABLE.replace("R1,1000", "R1,1,000")),
    ("currents: unknown-fault 1", "line 2: `f1,R2,1000`: no fault of the network file is called `f1`; did you mean `F1`?", TWO_TABLE.replace("F1", "f1", 1)),
    ("currents: unknown-fault 1", "the columns may be swapped", TWO_TABLE.replace("F1,R2", "R2,F1")),
    ("currents: unknown-relay 2", "there is a space beside the name", TWO_TABLE.replace("F1,R1", "F1, R1")),
    ("currents: bad-amps 3", "line 4: `F2,R1,1.9`: amperes are whole: 2, or 1900 if kA are meant", TWO_TABLE.replace("1900", "1.9")),
    ("currents: bad-amps 3", "against the tripping direction", TWO_TABLE.replace("1900", "-1900")),
    ("currents: bad-amps 3", "a unit stands there", TWO_TABLE.replace("1900", "1.9 kA")),
    ("currents: bad-amps 3", "at most six digits", TWO_TABLE.replace("1900", "1900000")),
    ("currents: double-entry 3", "fault and relay have an entry already, at line 3", TWO_TABLE.replace("F2,R1", "F1,R1")),
    ("currents: no-primary F2", "fault `F2` is on line `AB`, on which relay R1 stands; the table has no entry for it", TWO_TABLE.replace("F2,R1,1900\n", "")),
]

# The same for a sheet, read by `margins`.
SHEETS = [
    ("sheet: line 1 format", "line 1: `coord-sheet 2`", SHEET.replace("sheet 1", "sheet 2")),
    ("sheet: line 1 format", "CRLF", SHEET.replace("\n", "\r\n")),
    ("sheet: line 2 ending", "line 2: `ending open`", SHEET.replace("closed", "open")),
    ("sheet: line 3 cost", "line 3: `cost`", SHEET.replace("cost 262500", "cost")),
    ("sheet: line 4 bound", "line 4: `bound none`", SHEET.replace("bound 262500", "bound none")),
    ("sheet: line 5 relay", "dial 0.255 is not a step of R1: 0.050 to 1.000 by 0.050", SHEET.replace("0.250", "0.255")),
    ("sheet: line 5 relay", "due is relay R1: relays come in the order", SHEET.replace("relay R1", "relay R3")),
    ("sheet: line 7 end", "line 7: `ende`", SHEET.replace("end\n", "ende\n")),
    ("sheet: line 7 end", "line 7: the file ends there", SHEET.replace("end\n", "")),
    ("sheet: line 8 after", "Nothing may, not even an empty line", SHEET + "\n"),
    ("no settings", "The sheet has no settings", "coord-sheet 1\nending no-settings\ncost none\nbound none\nend\n"),
    ("row F1 R1 R2 loose 0 strict 0\nrows 1 kept 1", "all 1 rows kept", SHEET),
    ("row F1 R1 R2 loose -75000000000 strict -75000000000\nrows 1 kept 0", "F1: R1 backs R2     300.000      75.000      300     -75.000  BROKEN", SHEET.replace("0.250", "0.200")),
]

CHANGED = "solve again"
# The same for a certificate, read by `check`: the study's network file and table, if not the two lines, come last.
CERTS = [
    ("certificate: line 1 format", "line 1: `coord-sheet 1`", CERT.replace("certificate", "sheet")),
    ("certificate: line 2 study", CHANGED, CERT.replace("certificate 1", "certificate 2")),
    ("certificate: line 2 ending", CHANGED, CERT.replace("closed", "open")),
    ("certificate: line 3 gap", CHANGED, CERT.replace("gap 1000", "gap 0")),
    ("certificate: line 4 budget", CHANGED, CERT.replace("20000", "0")),
    ("certificate: line 5 boxes", CHANGED, CERT.replace("boxes 1", "boxes 01")),
    ("certificate: line 6 bound", CHANGED, CERT.replace("bound 262500", "bound none")),
    ("certificate: line 7 cost", CHANGED, CERT.replace("cost 262500", "cost none")),
    ("certificate: line 8 settings", CHANGED, CERT.replace("0:4 0:0", "none")),
    ("certificate: line 9 node", CHANGED, CERT.replace("B 1", "B 0")),
    ("certificate: line 10 end", CHANGED, CERT.replace("B 1", "B 1\nB 1")),
    ("certificate: line 11 after", CHANGED, CERT + "\n"),
    ("certificate: node 1 row-number", "names a row that the study does not have", CERT.replace("B 1", "B 1 5:1")),
    ("certificate: node 1 split-relay", CHANGED, CERT.replace("B 1", "S 9 0\nB 1\nB 1")),
    ("certificate: node 1 not-empty", CHANGED, CERT.replace("B 1", "E")),
    ("certificate: node 1 not-void", CHANGED, CERT.replace("B 1", "V 0:1")),
    ("certificate: node 1 not-hair", CHANGED, CERT.replace("B 1", "H 0")),
    ("certificate: node 1 split-at", CHANGED, CERT.replace("B 1", "S 0 5\nB 1\nB 1")),
    ("certificate: node 1 emptied", CHANGED, NOTHING, two_lines({"dial_count": 4})),
    ("certificate: node 1 many-pickups", CHANGED, CERT.replace("B 1", "H 0"), two_lines({"plug_count": 2})),
    ("certificate: claim study printed 3 2 7 found 3 2 3", "another format, with other relays or rows", CERT.replace("certificate 1", "certificate 2\nstudy 3 2 7"), LIMITED),
    ("certificate: claim relays printed 3 found 2", "The settings are for 3 relays, and the study has 2", CERT.replace("0:4 0:0", "0:4 0:0 0:0")),
    ("certificate: claim step R1", "The settings of relay R1", CERT.replace("0:4", "0:40")),
    ("certificate: claim row F1 R1 R2", "do not keep this row", CERT.replace("0:4", "0:0")),
    ("certificate: claim least F2 R1", "faster than its least time", CERT.replace("certificate 1", "certificate 2\nstudy 3 2 2"), two_lines({"least_ms": 500}, version=3)),
    ("certificate: claim most F2 R1", "slower than its greatest time", CERT.replace("certificate 1", "certificate 2\nstudy 3 2 2").replace("0:4", "0:5"), two_lines({"most_ms": 200}, version=3)),
    ("certificate: claim cost printed 262501 found 262500", "The settings cost 262500 and not 262501", CERT.replace("cost 262500", "cost 262501")),
    ("certificate: claim boxes printed 2 found 1", CHANGED, CERT.replace("boxes 1", "boxes 2")),
    ("certificate: claim bound printed 262499 found 262500", CHANGED, CERT.replace("bound 262500", "bound 262499")),
    ("certificate: claim gap printed 1 least 2", CHANGED, CERT.replace("gap 1000", "gap 1").replace("bound 262500", "bound 273529").replace("cost 262500", "cost 273530"), TWO, TWO_TABLE.replace("1900", "1800")),
    ("certificate: claim ending printed hairline found closed", CHANGED, CERT.replace("closed", "hairline")),
    ("accepted closed cost 262500 bound 262500 boxes 1", "cost 0.262500 s of weighted operating time, 0 us or 0.000 % above the bound", CERT),
    ("accepted no-settings cost none bound none boxes 1", "no pickups and dials", NOTHING.replace("B 1", "E"), two_lines({"dial_count": 4})),
]

# `solve`, whose files are those that stand there, and other words.
OTHERS = [
    ("closed cost 262500 bound 262500 boxes 1", "0.262500 s", 0, TWO, TWO_TABLE, ("solve", "n", "t", "s", "c")),
    ("gap too small: 1 least 2", "Give `--gap 2` or more", 16, TWO, TWO_TABLE.replace("1900", "1800"), ("solve", "n", "t", "s", "c", "--gap", "1")),
    ("write fault: x/c", "x/c could not be written", 11, TWO, TWO_TABLE, ("solve", "n", "t", "s", "x/c")),
    ("missing: x", "There is no file x", 9, TWO, TWO_TABLE, ("pairs", "x")),
    ("read fault: .", ". could not be read", 10, TWO, TWO_TABLE, ("pairs", ".")),
    ("too many: currents 8192", "more than 8192 records", 15, star(1)[0], table(*(f"Z{n // 96},{'HW'[n % 2]}{n % 96 // 2},200" for n in range(8193))), ("margins", "n", "t", "n")),
    ("too many: rows 4096", "more than 4096 rows", 15, *star(1), ("margins", "n", "t", "n")),
    ("usage: coord solve", "The words fit no command", 2, TWO, TWO_TABLE, ("solv", "n")),
    ("drill 3 relays 6 rows 12\nclosed cost 14394373 bound 14394372 boxes 61", "no allowed settings cost less", 0, TWO, TWO_TABLE, ("drill", "3")),
    ("hairline cost none bound 269999 boxes 1\nrow F1 R1 R2 loose 200 strict -220\n", "F1: R1 backs R2: the margin lies between -0.000000220 and 0.000000200 ms", 7, HAIR, HAIR_TABLE, ("solve", "n", "t", "s", "c")),
]


class Explain(Case):
    met = set()

    def explained(self, printed, says, status, *words):
        """What is printed and said, and the sentence of each entry that a line meets."""
        entries = answers.table()
        found = self.tool("explain", *words)
        self.assertTrue(found[1].startswith(printed), f"{words}: {found[1]!r} and not {printed!r}")
        self.assertIn(says, found[2])
        if status is not None:
            self.assertEqual(found[0], status, found)
        for line in found[1].splitlines():
            meaning = answers.meaning_of(line, found[0], entries)
            if meaning:
                Explain.met.add(meaning.entry)
                if meaning.entry.status is not None:
                    self.assertIn(meaning.text, found[2])
        return found

    def test_networks(self):
        for printed, says, text in NETWORKS:
            with self.subTest(printed, says=says):
                self.put("n", text)
                self.explained(printed, says, None, "pairs", "n")

    def test_currents(self):
        for printed, says, text in CURRENTS:
            with self.subTest(printed, says=says):
                self.study(entries=text)
                self.explained(printed, says, None, "margins", "n", "t", "n")

    def test_sheets(self):
        for printed, says, text in SHEETS:
            with self.subTest(printed, says=says):
                self.study()
                self.put("s", text)
                self.explained(printed, says, None, "margins", "n", "t", "s")

    def test_certificates(self):
        for printed, says, text, *study in CERTS:
            with self.subTest(printed, says=says):
                self.study(*study)
                self.put("c", text)
                self.explained(printed, says, None, "check", "n", "t", "c")

    def test_others(self):
        for printed, says, status, text, entries, words in OTHERS:
            with self.subTest(printed):
                self.study(text, entries)
                self.explained(printed, says, status, *words)

    def test_load(self):
        self.study(two_lines({"plug_count": 2, "load_amps": 150}))
        self.put("s", SHEET)
        self.explained("sheet: pickup R1", "R1 has plug 1.00, a pickup of 100.0 A; its load is 150 A", 22, "margins", "n", "t", "s")

    def test_hairline_sheet(self):
        self.study(HAIR, HAIR_TABLE)
        self.put("s", SHEET.replace("0.250", "0.280").replace("0.050", "0.140"))
        found = self.explained("row F1 R1 R2 loose 200 strict -220\nrows 1 kept 0", "-0.001  HAIRLINE: the enclosures do not decide", 0, "margins", "n", "t", "s")
        self.assertIn("1 of 1 rows broken", found[2])

    def test_long(self):
        self.put("n", b"#" * (4 << 20) + b"\n")
        self.explained("too long: n 4194304", "n has more than 4194304 bytes", 12, "pairs", "n")

    def test_endings(self):
        files = ("s", "c")
        self.explained("no settings boxes", "tools/conflict", 3, "solve", *NONE, *files)
        self.explained("accepted no-settings", "is right", 0, "check", *NONE, "c")
        self.explained("budget spent cost 8", "as a next try, --budget 50", 4, "solve", *EIGHT, *files, "--budget=5")
        self.explained("accepted budget-spent", "as far as it goes", 0, "check", *EIGHT, "c")
        self.study(HAIR_TOO, table("F1,R2,800", "F1,R1,800", "F2,R1,1000"))
        self.explained("hairline cost ", "keep every row all the same", 6, "solve", "n", "t", *files)
        self.explained("accepted hairline", "is right", 0, "check", "n", "t", "c")
        self.study(LIMITED)
        self.put("s", SHEET)
        self.explained("row F1 R1 R2 loose 0 strict 0\nleast F2 R1 ", "F2: greatest time of R1", 0, "margins", "n", "t", "s")

    def test_spent_without_settings(self):
        fake = self.put("coord", "#!/bin/sh\necho budget spent cost none bound 3 boxes 20000\nexit 5\n")
        os.chmod(fake, 0o755)
        self.explained("budget spent cost none", "--budget 200000", 5, "--coord", fake, "solve", "n", "t", "s", "c")

    def test_silence(self):
        for status in (30, 125, 127):
            fake = self.put(f"coord{status}", f"#!/bin/sh\nexit {status}\n")
            os.chmod(fake, 0o755)
            found = self.tool("explain", "--coord", fake, "pairs", "n")
            meaning = answers.meaning_of_silence(status, answers.table())
            self.assertEqual(found[:2], (status, ""))
            self.assertIn(meaning.text, found[2])
            Explain.met.add(meaning.entry)

    def test_output_unchanged(self):
        fake = self.put("coord", "#!/bin/sh\nprintf 'no line feed'\nprintf 'on error' >&2\nexit 11\n")
        os.chmod(fake, 0o755)
        status, out, error = self.tool("explain", "--coord", fake, "pairs", "n")
        self.assertEqual((status, out), (11, "no line feed"))
        self.assertIn("on error", error)

    def test_files_as_they_come(self):
        """A byte order mark, CRLF and tables in one line are read as `coord` reads them."""
        self.put("n", "\ufeff" + TWO.replace("\n", "\r\n"))
        self.put("t", "\ufeff" + TWO_TABLE.replace("\n", "\r\n"))
        self.put("s", SHEET)
        self.assertIn("all 1 rows kept", self.tool("explain", "margins", "n", "t", "s")[2])
        self.put("n", 'format = 1\nstudy = { cti_ms = 300, cti = 4 } # inline\nline = [\n  { name = "AB", from = "A", to = "B" },\n]\n')
        self.assertIn("line 2: `cti` isn't a key of study", self.tool("explain", "pairs", "n")[2])

    def test_zz_each_entry_is_met(self):
        """Runs last: the entries that no test above met."""
        self.assertEqual([it.pattern or it.status for it in answers.table() if it not in Explain.met], [])

    def test_each_word_has_an_entry(self):
        """Every status and every kind of docs/FORMATS.md."""
        with open(os.path.join(TOP, "docs", "FORMATS.md"), encoding="utf-8") as file:
            formats = file.read()
        entries = answers.table()
        section = formats.split("## Statuses and refusals")[1]
        statuses = {int(it) for it in re.findall(r"^\| (\d+) \|", section, re.M)} | {3, 4, 5, 6, 7}
        self.assertEqual(statuses - {it.status for it in entries}, set())
        patterns = " ".join(it.pattern for it in entries)
        order = formats.split("### Which refusal comes first")[1].split("## Sheet")[0]
        kinds = set(re.findall(r"`((?:not|wrong|out|unknown|double|loop|two|bad|no)-[a-z-]+)`", order)) | {"missing"}
        limits = set(re.findall(r"`([a-z-]+)` \d+", section))
        with open(os.path.join(TOP, "docs", "CERTIFICATE.md"), encoding="utf-8") as file:
            nodes = set(re.findall(r"^\d\. ([a-z]+-[a-z]+|emptied): ", file.read(), re.M))
        for it in kinds | limits | nodes:
            self.assertRegex(patterns, rf"\b{it}\b")
        self.assertEqual(len(nodes), 8)

    def test_keys_are_those_of_the_formats(self):
        with open(os.path.join(TOP, "docs", "FORMATS.md"), encoding="utf-8") as file:
            rows = re.findall(r"^\| (study|line|relay|fault|exempt|interval) \| (.*) \|$", file.read(), re.M)
        number = lambda it: int(it.replace(",", ""))
        for name, cell in rows[:6]:
            keys = {it: (number(low), number(high), int(default) if default else None) for it, low, high, default in re.findall(r"`(\w+)` \(([\d,]+) to ([\d,]+)(?:, default (\d+))?\)", cell)}
            here = {it: (key.low, key.high, key.default) for it, key in KEYS[name].items() if key.is_number and it != "ct_secondary"}
            self.assertEqual(here, keys)
            self.assertEqual(set(KEYS[name]) - set(re.findall(r"`(\w+)`", cell)), set())
