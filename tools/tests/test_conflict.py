"""The set that is printed cannot be kept together, and the changes free the study by themselves and no less."""

import os
import re

from .studies import EXAMPLES, TWO, TWO_TABLE, Case, table, two_lines

NONE = [os.path.join(EXAMPLES, "no-settings", it) for it in ("network.toml", "currents.csv")]
EIGHT = [os.path.join(EXAMPLES, "eight-bus", it) for it in ("network.toml", "currents.csv")]


class Conflict(Case):
    def status_of(self, text):
        """What `solve` says of the example's study after a change."""
        self.put("n", text)
        return self.tool("explain", "solve", "n", NONE[1], "s", "c")[0]

    def test_example(self):
        status, out, error = self.tool("conflict", *NONE)
        self.assertEqual(status, 1, error)
        lines = out.splitlines()
        self.assertEqual(lines[0], "no settings: 3 of 5 pairs and limits cannot be kept together")
        members = ["pair R1 backs R2, interval 300 ms, at F2", "pair R2 backs R3, interval 300 ms, at F3", "most_ms 500 of R1, at F1, F1end"]
        self.assertEqual(lines[1:4], members)
        with open(NONE[0], encoding="utf-8") as file:
            text = file.read()
        most = int(re.search(r"most_ms of at least (\d+)", out)[1])
        for value, wanted in ((most, 0), (most - 1, 3)):
            self.assertEqual(self.status_of(text.replace("most_ms = 500", f"most_ms = {value}")), wanted, value)
        for backup, primary in (("R1", "R2"), ("R2", "R3")):
            ms = int(re.search(rf"pair {backup} backs {primary}: freed by an interval of at most (\d+)", out)[1])
            for value, wanted in ((ms, 0), (ms + 1, 3)):
                more = f'\n[[interval]]\nbackup = "{backup}"\nprimary = "{primary}"\ncti_ms = {value}\n'
                self.assertEqual(self.status_of(text.replace("format = 2", "format = 3") + more), wanted, value)

    def test_few_solves(self):
        out = self.tool("conflict", *NONE)[1]
        solves, most = map(int, re.search(r"of them (\d+) for the set \(at most (\d+)\)", out).groups())
        self.assertLessEqual(solves, most)

    def test_two_conflicts(self):
        """Two buses of their own, each without settings: one is named, and leaving a member out doesn't free the study."""
        text, entries = two_lines({"dial_count": 4}), TWO_TABLE
        again = re.sub(r'"(\w+)"', lambda it: it[0] if it[1] == "iec-b" else f'"{it[1]}x"', text.split("cti_ms = 300\n")[1])
        self.study(text + again, entries + re.sub(r"^(\w+),(\w+)", r"\1x,\2x", entries.split("\n", 1)[1], flags=re.M))
        status, out, error = self.tool("conflict", "n", "t")
        self.assertEqual(status, 1, error)
        self.assertIn("no settings: 1 of 2 pairs and limits", out)
        self.assertIn("not freed by leaving it out: something else cannot be kept either", out)

    def test_dials_above(self):
        """By hand: 300 ms and R2's 75 ms ask for dial 0.250 of R1."""
        self.study(two_lines({"dial_count": 4}))
        out = self.tool("conflict", "n", "t")[1]
        self.assertIn("pair R1 backs R2: freed by an interval of at most 225 ms in place of 300", out)
        self.assertIn("relay R1: freed by dials up to 0.250 in place of 0.200", out)

    def test_least_time(self):
        """By hand: R2 has to take 750 ms at F1, and R1 at most 950 ms: 200 ms are left for the interval."""
        self.study(two_lines({"plug_count": 1, "most_ms": 475}, {"least_ms": 750}, version=2))
        status, out, _ = self.tool("conflict", "n", "t")
        self.assertEqual((status, out.splitlines()[0]), (1, "no settings: 3 of 3 pairs and limits cannot be kept together"))
        self.assertIn("pair R1 backs R2: freed by an interval of at most 150 ms in place of 300", out)

    def test_no_pickup(self):
        self.study(two_lines({"plug_count": 3, "load_amps": 400}), table("F1,R2,1000", "F1,R1,1000", "F2,R1,500"))
        status, out, _ = self.tool("conflict", "n", "t")
        self.assertEqual(status, 1)
        self.assertIn("relay R1: no plug of 1.00 to 3.00 A (pickups of 100.0 to 300.0 A) clears the load of 400 A (480.0 A at 120 %) and senses 500 A at F2 (454.5 A at sense 110)", out)

    def test_no_pickup_as_backup(self):
        """R1 has a plug as primary, and none that senses what it carries as backup."""
        self.study(two_lines({"plug_count": 3, "load_amps": 200}), table("F1,R2,1000", "F1,R1,200", "F2,R1,1900"))
        status, out, _ = self.tool("conflict", "n", "t")
        self.assertEqual(status, 1)
        self.assertIn("pair R1 backs R2: freed if the pair is exempt, and by no interval", out)
        self.assertIn("senses 200 A at F1", out)

    def test_other_answers(self):
        self.assertEqual(self.tool("conflict", *EIGHT), (0, "there are settings: nothing conflicts\n", ""))
        self.study(TWO.replace("= 300", "= 0"))
        self.assertEqual(self.tool("conflict", "n", "t")[:2], (13, "network: out-of-range study 0 cti_ms\n"))
