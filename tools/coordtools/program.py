"""Running `coord`, and what is missing on this machine."""

import importlib.util
import os
import shutil
import signal
import subprocess
import sys
import tempfile
from dataclasses import dataclass

TOP = os.path.realpath(os.path.join(os.path.dirname(__file__), "..", ".."))
LAUNCHER = os.path.join(TOP, "coord")

# What a script needs beyond Python, and the Debian package that has it.
PACKAGES = {"matplotlib": "python3-matplotlib", "jinja2": "python3-jinja2", "neato": "graphviz", "chromium": "chromium"}


@dataclass(frozen=True)
class Answer:
    """What the program printed, and its status: 128 and the signal's number if one stopped it."""

    status: int
    out: bytes

    @property
    def lines(self):
        return self.out.decode("utf-8", "replace").splitlines()


@dataclass(frozen=True)
class Coord:
    """The program at a path: the launcher at the top of the repository, if no other is named."""

    path: str

    @classmethod
    def at(cls, path=None):
        return cls(path or os.environ.get("COORD") or LAUNCHER)

    def run(self, *words):
        try:
            ran = subprocess.run([self.path, *map(str, words)], stdout=subprocess.PIPE, stdin=subprocess.DEVNULL)
        except OSError as error:
            fail(f"{self.path} does not run: {error.strerror}")
        return Answer(ran.returncode if ran.returncode >= 0 else 128 - ran.returncode, ran.stdout)

    def inputs(self, network, currents):
        """The refusal of a network file and a currents table, or None. The search isn't started."""
        with tempfile.TemporaryDirectory() as folder:
            sheet = os.path.join(folder, "sheet")
            with open(sheet, "w", encoding="ascii") as file:
                file.write("coord-sheet 1\nending no-settings\ncost none\nbound none\nend\n")
            answer = self.run("margins", network, currents, sheet)
        return answer if answer.status else None


def add_coord_option(parser):
    parser.add_argument("--coord", metavar="PATH", help="the program to run (default: the variable COORD, or else the launcher at the top of the repository)")


def fail(text, status=2):
    """Ends the script. Its own faults have status 2, as wrong words do."""
    print(f"{os.path.basename(sys.argv[0])}: {text}", file=sys.stderr)
    sys.exit(status)


def missing(*wanted):
    """Those Debian packages that are not installed, of the modules and programs wanted."""
    is_there = lambda it: shutil.which(it) if it in ("neato", "chromium") else importlib.util.find_spec(it)
    return [PACKAGES[it] for it in wanted if not is_there(it)]


def need(*wanted):
    """Ends the script if something is missing, and says what to install."""
    if packages := missing(*wanted):
        fail(f"{' and '.join(packages)} not installed: apt-get install {' '.join(packages)}, and use Debian's /usr/bin/python3")


def signal_name(status):
    try:
        return signal.Signals(status - 128).name
    except ValueError:
        return f"signal {status - 128}"
