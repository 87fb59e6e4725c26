"""The page opens in a browser without an error, shows its pictures, and has the numbers of `margins` and of the files."""

import base64
import hashlib
import html.parser
import os
import re
import subprocess

from coordtools.texts import cut, margins_of, sheet_text

from .studies import EXAMPLES, TWO_TABLE, Case, table, two_lines

# Written into a copy of the page: what the browser made of each picture.
PROBE = """<script>window.addEventListener("load", () => { const found = document.createElement("pre"); found.id = "probe";
found.textContent = [...document.images].map(it => it.complete && it.naturalWidth > 50 ? "shown" : "lost").join(" "); document.body.append(found); });</script></body>"""


class Cells(html.parser.HTMLParser):
    """The tables by id, as rows of texts; texts by id; and the pictures' sources."""

    def __init__(self, page):
        super().__init__()
        self.tables, self.texts, self.images, self.at, self.table = {}, {}, [], None, None
        self.feed(page)

    def handle_starttag(self, tag, attributes):
        attributes = dict(attributes)
        if tag == "table":
            self.table = self.tables.setdefault(attributes.get("id"), [])
        elif tag == "tr":
            self.table.append([])
        elif tag in ("td", "th"):
            self.table[-1].append("")
        elif tag == "img":
            self.images.append(attributes["src"])
        self.at = attributes.get("id") if tag in ("span", "pre") else self.at if tag in ("td", "th", "code") else None
        self.cell = tag in ("td", "th") or (tag == "code" and getattr(self, "cell", False))

    def handle_endtag(self, tag):
        if tag in ("td", "th"):
            self.cell = False
        if tag in ("span", "pre"):
            self.at = None

    def handle_data(self, data):
        if getattr(self, "cell", False) and self.table:
            self.table[-1][-1] += data
        if self.at:
            self.texts[self.at] = self.texts.get(self.at, "") + data


class Report(Case):
    def browsed(self, page):
        """The page as Chromium has it once it is loaded, and what stands in the console."""
        self.put("probe.html", page.replace("</body>", PROBE))
        words = ["chromium", "--headless", "--no-sandbox", "--disable-gpu", f"--user-data-dir={self.path('profile')}", "--enable-logging=stderr", "--virtual-time-budget=5000", "--dump-dom", "file://" + self.path("probe.html")]
        ran = subprocess.run(words, stdout=subprocess.PIPE, stderr=subprocess.PIPE, text=True, timeout=60)
        return Cells(ran.stdout), [it for it in ran.stderr.splitlines() if "CONSOLE" in it]

    def example(self, name):
        files = [os.path.join(EXAMPLES, name, it) for it in ("network.toml", "currents.csv")]
        self.assertEqual(self.tool("explain", "solve", *files, "s", "c")[0], 0)
        return files

    def margins(self, *files):
        return margins_of(self.tool("explain", "margins", *files)[1].splitlines())

    def test_eight_bus(self):
        files = self.example("eight-bus")
        status, out, error = self.tool("report", *files, "s", "c", "-o", "report.html")
        self.assertEqual((status, out), (0, "report.html: 14 relays, 20 rows\n"), error)
        page = self.get("report.html")
        self.assertNotRegex(page, r'(src|href)="(?!data:)', "the page names no other file")
        cells, console = self.browsed(page)
        self.assertEqual(console, [])
        self.assertEqual(cells.texts["probe"].split(), ["shown"] * 22)
        self.assertTrue(all(it.startswith("data:image/svg+xml;base64,") for it in cells.images))
        wanted = sorted(self.margins(*files, "s"), key=lambda it: it.strict)
        rows = cells.tables["rows"][1:]
        self.assertEqual([(it[0], it[1], it[2], it[8]) for it in rows], [(it.fault, it.backup, it.primary, cut(it.strict)) for it in wanted])
        for (*_, backup, primary, asked, _), it in zip(rows, wanted):
            self.assertAlmostEqual(float(backup) - float(primary) - float(asked), it.strict / 1e9, delta=0.0015)
        sheet = {words[1]: (words[3], words[5]) for words in map(str.split, self.get("s").splitlines()) if words[0] == "relay"}
        self.assertEqual({it[0]: (it[6], it[8]) for it in cells.tables["relays"][1:]}, sheet)
        self.assertEqual([(it[4], it[7]) for it in cells.tables["relays"][1:4]], [("1200:5", "600.0"), ("1200:5", "600.0"), ("800:5", "400.0")])
        self.assertEqual((cells.texts["cost"], cells.texts["bound"], cells.texts["gap"]), ("8463388", "8462514", f"{100 * 874 / 8463388:.4f}"))
        sums = [hashlib.sha256(open(it, "rb").read()).hexdigest() for it in (*files, self.path("s"), self.path("c"))]
        self.assertEqual([it[2] for it in cells.tables["files"][1:]], sums)
        self.assertIn("accepted closed cost 8463388 bound 8462514 boxes 139", page)
        waits = re.findall(r'class="waits">(\w+): 300 \+ ([\d.]+) ms<', page)
        self.assertEqual(sorted(waits), sorted((it.fault, cut(it.strict)) for it in wanted))
        # The bars' texts stand as comments in the picture.
        bars = base64.b64decode(cells.images[1].split(",")[1]).decode()
        self.assertEqual(re.findall(r"<!-- (\+[\d.]+) -->", bars), [f"{it.strict / 1e9:+.1f}" for it in wanted])

    def test_changed_sheet(self):
        """Other settings than the certificate's, and a broken row, are said on top."""
        files = self.example("line")
        self.put("s", self.get("s").replace("0.250", "0.200"))
        status, out, _ = self.tool("report", *files, "s", "c", "-o", "report.html")
        self.assertEqual(status, 1)
        cells, console = self.browsed(self.get("report.html"))
        self.assertEqual(console, [])
        self.assertEqual(cells.texts["probe"].split(), ["shown"] * 3)
        self.assertEqual(cells.tables["rows"][1][8], "-75.000 broken")
        alarms = re.findall(r'class="alarm">([^<]*)', self.get("report.html"))
        self.assertIn("not the certificate", alarms[0])
        self.assertEqual(alarms[1], "1 of 1 rows are not kept by the sheet's settings.".replace("'", "&#39;"))

    def test_times_of_each_curve(self):
        """The times beside a margin come to it, past the cap of 20 times the pickup too."""
        custom = {"curve": "custom", "custom_k": 140_000, "custom_c": 3_000, "custom_j": 3, "custom_h": 2}
        curves = [custom] + [{"curve": it} for it in ("iec-a", "iec-b", "iec-c", "ieee-mi", "ieee-vi", "ieee-ei")]
        for first, second in zip(curves, curves[1:] + curves[:1]):
            self.study(two_lines({"dial_count": 200, **first}, {"dial_first": 500, **second}, version=4), table("F1,R2,2500", "F1,R1,400", "F2,R1,1900"))
            self.tool("explain", "solve", "n", "t", "s", "c")
            self.tool("report", "n", "t", "s", "c", "-o", "report.html")
            ((*_, backup, primary, asked, margin),) = Cells(self.get("report.html")).tables["rows"][1:]
            self.assertAlmostEqual(float(backup) - float(primary) - float(asked), float(margin), delta=0.0025, msg=(first, second))

    def test_hairline(self):
        """At 8 times the pickup 13.5/7 s is no whole nanosecond, so the strict margin is below 0 and the loose one is not."""
        self.study(two_lines({"dial_first": 140, "dial_step": 140}, {"dial_first": 140, "dial_step": 140}, cti_ms=270), table("F1,R2,800", "F1,R1,800", "F2,R1,1900"))
        self.put("s", sheet_text({"R1": (100, 280), "R2": (100, 140)}))
        self.tool("explain", "solve", "n", "t", "x", "c")
        status, out, _ = self.tool("report", "n", "t", "s", "c", "-o", "report.html")
        self.assertEqual(status, 1)
        self.assertIn("1 of 1 rows are not kept", out)
        self.assertEqual(Cells(self.get("report.html")).tables["rows"][1][8], "-0.001 hairline")

    def test_refused_certificate(self):
        files = self.example("line")
        self.put("c", self.get("c").replace("bound 262500", "bound 262501"))
        status, out, _ = self.tool("report", *files, "s", "c", "-o", "report.html")
        self.assertEqual(status, 1)
        self.assertIn("The certificate is refused: certificate: claim bound printed 262501 found 262500. It proves nothing", out)

    def test_limits_and_no_settings(self):
        self.study(two_lines({"least_ms": 150, "most_ms": 1500}, version=3), TWO_TABLE)
        self.tool("explain", "solve", "n", "t", "s", "c")
        status, out, error = self.tool("report", "n", "t", "s", "c", "-o", "report.html")
        self.assertEqual(status, 0, out + error)
        cells = Cells(self.get("report.html"))
        self.assertEqual(sorted(it[7] for it in cells.tables["rows"][1:]), ["300", "at least 150", "at most 1500"])
        none = [os.path.join(EXAMPLES, "no-settings", it) for it in ("network.toml", "currents.csv")]
        self.tool("explain", "solve", *none, "s", "c")
        status, out, error = self.tool("report", *none, "s", "c", "-o", "report.html")
        self.assertEqual((status, out), (1, "report.html: 4 relays, 0 rows\nThe ending is no settings: nothing on the steps of the relays keeps every row.\n"), error)

    def test_refusals(self):
        files = self.example("line")
        self.assertEqual(self.tool("report", *files, "x", "c", "-o", "r")[:2], (9, "missing: x\n"))
        self.assertEqual(self.tool("report", *files, "s", "x", "-o", "r")[:2], (9, "missing: x\n"))
        self.assertFalse(os.path.exists(self.path("r")))
