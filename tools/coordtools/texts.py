"""The lines that `coord` prints and writes: sheets, margins, the head of a certificate, endings."""

import re
from dataclasses import dataclass

PS_PER_MS = 10**9
ENDING = re.compile(
    r"(?:accepted )?(?P<ending>closed|no settings|no-settings|budget spent|budget-spent|hairline)(?: cost (?P<cost>\d+|none) bound (?P<bound>\d+|none))? boxes (?P<boxes>\d+)"
)


def number(word):
    return None if word in (None, "none") else int(word)


@dataclass(frozen=True)
class Ended:
    """An ending with its numbers in weighted microseconds."""

    ending: str
    cost: int
    bound: int
    boxes: int

    @classmethod
    def of(cls, lines):
        """The first ending among printed lines, or None."""
        for line in lines:
            if said := ENDING.fullmatch(line):
                return cls(said["ending"].replace("-", " "), number(said["cost"]), number(said["bound"]), int(said["boxes"]))
        return None

    @property
    def gap_percent(self):
        """How far the cost lies above the bound, in percent of the cost."""
        if self.cost is None or self.bound is None:
            return None
        return 100 * (self.cost - self.bound) / self.cost if self.cost else 0.0


@dataclass(frozen=True)
class Margin:
    """A line of `margins`. Loose and strict are in picoseconds; of a limit row, backup and primary are one relay."""

    kind: str
    fault: str
    backup: str
    primary: str
    loose: int
    strict: int

    @property
    def is_kept(self):
        return self.strict >= 0

    @property
    def is_hair(self):
        """The enclosures do not decide this row."""
        return self.strict < 0 <= self.loose

    @property
    def strict_ms(self):
        return self.strict / PS_PER_MS


def margins_of(lines):
    """The rows among printed lines, in their order."""
    found = []
    for line in lines:
        words = line.split()
        if len(words) == 8 and words[0] == "row":
            found.append(Margin("row", words[1], words[2], words[3], int(words[5]), int(words[7])))
        elif len(words) == 7 and words[0] in ("least", "most"):
            found.append(Margin(words[0], words[1], words[2], words[2], int(words[4]), int(words[6])))
    return found


def cut(picoseconds):
    """Milliseconds with three decimals, cut towards the worse side."""
    whole = picoseconds // 10**6
    return f"{'-' if whole < 0 else ''}{abs(whole) // 1000}.{abs(whole) % 1000:03}"


def hundredths(word):
    return int(word.replace(".", ""))


@dataclass(frozen=True)
class Sheet:
    """A sheet: plugs in hundredths of a secondary ampere and dials in thousandths, by relay; none if it has no settings."""

    ending: str
    cost: int
    bound: int
    settings: dict

    @classmethod
    def read(cls, path):
        with open(path, encoding="ascii") as file:
            lines = [it.split() for it in file.read().splitlines()]
        settings = {it[1]: (hundredths(it[3]), hundredths(it[5])) for it in lines if it[0] == "relay"}
        return cls(lines[1][1].replace("-", " "), number(lines[2][1]), number(lines[3][1]), settings)


def sheet_text(settings, ending="closed", cost=0, bound=0):
    """The text of a sheet with settings, as `margins` reads it."""
    lines = ["coord-sheet 1", f"ending {ending}", f"cost {cost}", f"bound {bound}"]
    lines += [f"relay {name} plug {plug // 100}.{plug % 100:02} dial {dial // 1000}.{dial % 1000:03}" for name, (plug, dial) in settings.items()]
    return "\n".join([*lines, "end", ""])


@dataclass(frozen=True)
class CertHead:
    """The lines of a certificate before its nodes. Settings are pickup and dial steps in the order of the relays."""

    ending: str
    gap: int
    budget: int
    boxes: int
    bound: int
    cost: int
    steps: list

    @classmethod
    def read(cls, path):
        words, steps = {}, None
        with open(path, encoding="ascii", errors="replace") as file:
            for line in file:
                key, *rest = line.split()
                words[key] = rest
                if key == "settings":
                    steps = None if rest == ["none"] else [tuple(map(int, it.split(":"))) for it in rest]
                    break
        value = lambda key: number(words[key][0])
        return cls(words["ending"][0].replace("-", " "), value("gap"), value("budget"), value("boxes"), value("bound"), value("cost"), steps)

    def settings(self, study):
        """Plug and dial by relay, or None."""
        if self.steps is None or len(self.steps) != len(study.relays):
            return None
        return {name: (study.plugs(name)[p], study.dials(name)[d]) for name, (p, d) in zip(study.relays, self.steps)}
