"""A program's export, as it comes, becomes a table that `coord` takes."""

from .studies import TWO, TWO_TABLE, Case

COLUMNS = ("--fault", "Bus", "--relay", "Device", "--amps", "Ik")


class Currents(Case):
    def made(self, export, *options):
        self.put("e", export)
        self.put("n", TWO)
        status, out, error = self.tool("currents", "e", "n", "-o", "t", *COLUMNS, *options)
        return status, out + error

    def test_semicolons_decimal_commas_and_kiloamperes(self):
        status, said = self.made("Case 1;;;\r\nBus;Device;X;Ik\r\nF1;R2;0;1,0004\r\nF1;R1;0;0,9996\r\nF2;R1;0;1,9\r\n".encode("cp1252"), "--unit", "kA")
        self.assertEqual((status, self.get("t")), (0, TWO_TABLE))
        self.assertIn("semicolons, decimal comma, kA; 3 lines", said)
        self.assertIn("2 currents rounded to whole amperes, by at most 0.4 A", said)
        self.assertEqual(self.tool("explain", "solve", "n", "t", "s", "c")[1], "closed cost 262500 bound 262500 boxes 1\n")

    def test_commas_and_points(self):
        for export in ('Ik,Bus,Device\n1000.0,F1,R2\n"1,000.4",F1,R1\n1899.6,F2,R1\n', "\ufeffIk\tBus\tDevice\n1000.0\tF1\tR2\n1000\tF1\tR1\n1900\tF2\tR1\n"):
            self.assertEqual((self.made(export)[0], self.get("t")), (0, TWO_TABLE), export)

    def test_utf16(self):
        self.assertEqual((self.made("Bus;Device;Ik\nF1;R2;1000\nF1;R1;1000\nF2;R1;1900\n".encode("utf-16"))[0], self.get("t")), (0, TWO_TABLE))

    def test_directions(self):
        export = "Bus;Device;Ik;Dir\nF1;R2;1000;forward\nF1;R1;1000;Forward\nF2;R1;1900;forward\nF2;R2;700;reverse\n"
        status, said = self.made(export, "--direction", "Dir", "--forward", "forward")
        self.assertEqual((status, self.get("t")), (0, TWO_TABLE))
        self.assertIn("left out: 1 against the tripping direction", said)
        signed = "Bus;Device;Ik\nF1;R2;-1000\nF1;R1;-1000\nF2;R1;-1900\nF2;R2;700\n"
        self.assertEqual((self.made(signed, "--signed", "negative")[0], self.get("t")), (0, TWO_TABLE))
        status, said = self.made(signed)
        self.assertEqual(status, 2)
        self.assertIn("has a sign; say with --signed", said)

    def test_unknown_names(self):
        status, said = self.made("Bus;Device;Ik\nF1;R2;1000\nF1;R1;1000\nF2;R1;1900\nF3;R1;5\nF1;r2;5\n")
        self.assertEqual((status, self.get("t")), (1, TWO_TABLE))
        self.assertIn("fault `F3`, first at line 5, isn't in n", said)
        self.assertIn("relay `r2`, first at line 6, isn't in n; did you mean `R2`?", said)

    def test_left_out(self):
        status, said = self.made("Bus;Device;Ik\nF1;R2;1000\nF1;R1;1000\nF2;R1;1900\nF2;R2;0\nF1;R1;1000\nF2;R2;0.4\nF2;R2;none\n")
        self.assertEqual((status, self.get("t")), (1, TWO_TABLE))
        for it in ("left out: 1 rounded to 0", "0.4 A is rounded to 0", "`none` is no number", "left out: 1 of 0 A"):
            self.assertIn(it, said)

    def test_what_is_not_written(self):
        cases = [
            ("Bus;Device;Ik\nF1;R2;1,234\n", "the comma parts thousands or decimals; say which with --decimal"),
            ("Bus;Device;Ik\nF1;R2;1000\nF1;R2;1001\n", "have 1000 A already, and 1001 A here"),
            ("Bus;Device;I\nF1;R2;1000\n", "no line has all of the columns Bus, Device, Ik; the first line is: Bus;Device;I"),
            ("Bus;Device;Ik\nF1;R2;1000000\n", "1000000 A is above 100000 A"),
            ("Bus;Device;Ik\nF9;R2;1000\n", "no entry is left"),
        ]
        for export, says in cases:
            status, said = self.made(export)
            self.assertEqual(status, 2, export)
            self.assertIn(says, said)
            self.assertFalse(self.tool("explain", "margins", "n", "t", "n")[1].startswith("row"))
