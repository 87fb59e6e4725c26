"""What a study leaves out is named, and nothing else."""

import os

from coordtools.program import Coord
from coordtools.study import Study
from coordtools.texts import sheet_text

from .studies import EXAMPLES, TWO, TWO_TABLE, Case, network, table, two_lines

RING = [os.path.join(EXAMPLES, "ring", it) for it in ("network.toml", "currents.csv")]


class Survey(Case):
    def odd(self, text=TWO, entries=TWO_TABLE):
        """The lines of what is odd."""
        self.study(text, entries)
        status, out, error = self.tool("survey", "n", "t")
        lines = out.splitlines()
        self.assertEqual(lines[-1], f"odd {len(lines) - 3}", error)
        self.assertEqual(status, 1 if len(lines) > 3 else 0)
        return lines[2:-1]

    def test_nothing_odd(self):
        self.assertEqual(self.tool("survey", *RING), (0, "lines 3 relays 6 faults 3 pairs 6\nterms 6 rows 6\nodd 0\n", ""))

    def test_entries_of_a_relay_taken_out(self):
        """`solve` says closed of this, at a lower cost."""
        with open(RING[0], encoding="utf-8") as file:
            text = file.read()
        with open(RING[1], encoding="utf-8") as file:
            entries = "".join(it for it in file if ",R3," not in it)
        self.study(text, entries)
        self.assertTrue(self.tool("explain", "solve", "n", "t", "s", "c")[1].startswith("closed"))
        odd = self.odd(text, entries)
        self.assertIn("relay R3: without a term: no current at M2; it has no current at any fault", odd)
        self.assertIn("pair R3 backs R5: no row at M3: R3 has no current there (R5 has 2500 A)", odd)
        self.assertIn("fault M2: of line BC only R4 has a current; R3 has none", odd)

    def test_idle_entries_and_mentions(self):
        more = "".join(f'\n[[{table}]]\nbackup = "{b}"\nprimary = "{p}"\n{ms}' for table, b, p, ms in (("exempt", "R2", "R1", ""), ("interval", "R1", "R1", "cti_ms = 3\n"), ("interval", "R2", "R1", "cti_ms = 3\n")))
        odd = self.odd(two_lines(version=3, more=more), TWO_TABLE + "F2,R2,1000\n")
        self.assertIn("entry F2,R2,1000 at line 5: belongs to no term and no row: R2 is on BC, the fault on AB, and it backs no relay that has a current there", odd)
        mentions = [it for it in odd if it.startswith(("exempt", "interval"))]
        self.assertEqual([it.split(":")[0] for it in mentions], ["exempt 1", "interval 2", "interval 1"])
        self.assertIn("swapped: R1 backs R2", mentions[0])
        self.assertIn("not a pair", mentions[2])

    def test_counts_left_out(self):
        odd = self.odd(TWO.replace("plug_count = 1\n", "", 1).replace("dial_step = 50\ndial_count = 20\n", "", 1))
        self.assertIn("relay R1: one plug alone, since plug_count is left out, though plug_step = 100", odd)
        self.assertIn("relay R1: one dial alone, since dial_count is left out", odd)

    def test_no_pickup(self):
        odd = self.odd(two_lines({"plug_count": 3, "load_amps": 400}), table("F1,R2,1000", "F1,R1,500", "F2,R1,1900"))
        self.assertTrue(any(it.startswith("relay R1: no plug reaches between load and least current: plugs 1.00 to 3.00 A are pickups of 100.0 to 300.0 A; the load of 400 A asks for 480.0 A at least (120 %), and 500 A at F1 for 454.5 A at most") for it in odd), odd)

    def test_currents_off(self):
        odd = self.odd(TWO, table("F1,R2,1000", "F1,R1,100", "F2,R1,1900"))
        self.assertIn("entry F1,R1,100 at line 3: ten times off its neighbours: in the middle the others at F1 1000 A and the others of R1 1900 A", odd)
        self.assertFalse(any("ten times" in it for it in self.odd()))

    def test_refusal_is_passed_on(self):
        self.study(TWO.replace("cti_ms", "cti"))
        status, out, error = self.tool("survey", "n", "t")
        self.assertEqual((status, out), (13, "network: unknown-key study 0\n"))
        self.assertIn("line 4: `cti` isn't a key of study; did you mean `cti_ms`?", error)

    def test_pickups_and_rows_are_coords(self):
        """The rows that are counted are those of `margins`; it takes the pickups that are said to reach, and refuses the next ones.

        By hand: 1.2 * 275 A and 770 A / 1.1 for R1, 1.2 * 250 A and 1000 A / 1.1 for R2."""
        relays = [("R1", "AB", "A", {"plug_count": 9, "load_amps": 275}), ("R2", "BC", "B", {"plug_count": 9, "load_amps": 250, "least_ms": 5})]
        self.study(network(relays, [("F1", "BC"), ("F2", "AB")], version=2), table("F1,R2,1000", "F1,R1,770", "F2,R1,1900"))
        coord = Coord.at()
        study = Study.read(coord, self.path("n"), self.path("t"))
        reach = {name: [it for it in study.plugs(name) if study.clears_load(name, it) and study.senses(name, it, study.least_current(name)[0])] for name in study.relays}
        self.assertEqual(reach, {"R1": [400, 500, 600, 700], "R2": [300, 400, 500, 600, 700, 800, 900]})
        for name, plugs in reach.items():
            for plug in study.plugs(name):
                settings = {it: (plug if it == name else those[0], 50) for it, those in reach.items()}
                self.put("s", sheet_text(settings))
                answer = coord.run("margins", self.path("n"), self.path("t"), self.path("s"))
                self.assertEqual(answer.status, 0 if plug in plugs else 22, (name, plug))
                if answer.status == 0:
                    counted = len(study.rows) + len(study.limits("least_ms")) + len(study.limits("most_ms"))
                    self.assertEqual(answer.lines[-1].split()[1], str(counted))
