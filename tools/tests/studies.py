"""Small studies, a folder for their files, and runs of the scripts on them."""

import os
import subprocess
import sys
import tempfile
import unittest

TOP = os.path.realpath(os.path.join(os.path.dirname(__file__), "..", ".."))
TOOLS = os.path.join(TOP, "tools")
EXAMPLES = os.path.join(TOP, "examples")
RELAY = {"curve": "iec-b", "ct_primary": 100, "ct_secondary": 1, "plug_first": 100, "plug_step": 100, "plug_count": 1, "dial_first": 50, "dial_step": 50, "dial_count": 20}


def network(relays, faults, lines=(("AB", "A", "B"), ("BC", "B", "C")), cti_ms=300, version=1, more=""):
    """A network file. Relays are (name, line, bus, changes), faults (name, line)."""
    value = lambda it: f'"{it}"' if isinstance(it, str) else it
    text = f"format = {version}\n\n[study]\ncti_ms = {cti_ms}\n"
    text += "".join(f'\n[[line]]\nname = "{name}"\nfrom = "{a}"\nto = "{b}"\n' for name, a, b in lines)
    for name, line, bus, changes in relays:
        keys = {"name": name, "line": line, "bus": bus} | RELAY | changes
        text += "\n[[relay]]\n" + "".join(f"{key} = {value(it)}\n" for key, it in keys.items())
    return text + "".join(f'\n[[fault]]\nname = "{name}"\nline = "{line}"\n' for name, line in faults) + more


def table(*entries):
    return "fault,relay,amps\n" + "".join(f"{it}\n" for it in entries)


def two_lines(first=None, second=None, **rest):
    """Two lines in a row: R1 backs R2."""
    return network([("R1", "AB", "A", first or {}), ("R2", "BC", "B", second or {})], [("F1", "BC"), ("F2", "AB")], **rest)


TWO = two_lines()
TWO_TABLE = table("F1,R2,1000", "F1,R1,1000", "F2,R1,1900")


class Case(unittest.TestCase):
    """A test with a folder of its own."""

    def setUp(self):
        folder = tempfile.TemporaryDirectory()
        self.addCleanup(folder.cleanup)
        self.folder = folder.name

    def path(self, name):
        return os.path.join(self.folder, name)

    def put(self, name, text):
        with open(self.path(name), "wb") as file:
            file.write(text if isinstance(text, bytes) else text.encode())
        return self.path(name)

    def get(self, name):
        with open(self.path(name), encoding="utf-8") as file:
            return file.read()

    def tool(self, name, *words, **environment):
        """Status, output and standard error of a script, run in the folder."""
        ran = subprocess.run([os.path.join(TOOLS, name), *map(str, words)], cwd=self.folder, env={**os.environ, **environment}, stdout=subprocess.PIPE, stderr=subprocess.PIPE)
        return ran.returncode, ran.stdout.decode("utf-8", "replace"), ran.stderr.decode("utf-8", "replace")

    def study(self, text=TWO, entries=TWO_TABLE):
        self.put("n", text)
        self.put("t", entries)


if TOOLS not in sys.path:
    sys.path.insert(0, TOOLS)
