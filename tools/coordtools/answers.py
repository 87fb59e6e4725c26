"""The table of docs/ANSWERS.md: what each printed line means, and what one does next."""

import os
import re
from dataclasses import dataclass

from .program import TOP

PATH = os.path.join(TOP, "docs", "ANSWERS.md")
LONG = ("FILE", "TEXT", "NOW")  # these may have spaces


@dataclass(frozen=True)
class Entry:
    pattern: str  # empty: nothing is printed
    status: int  # None: the line is not the last one of an answer
    meaning: str
    advice: str

    @property
    def regex(self):
        """The pattern as a regular expression; a word in capitals is a group of that name."""
        seen = set()

        def part(match):
            optional, word = match["optional"], match["optional"] or match["word"]
            if word in seen:
                return r"\S+"
            seen.add(word)
            group = rf"(?P<{word}>{'.*' if word in LONG else r'[^ ]+'})"
            return f"(?: {group})?" if optional else group

        escaped = re.escape(self.pattern).replace(r"\ \[", "[").replace(r"\]", "]").replace(r"\ ", " ")
        return re.compile(re.sub(r"\[(?P<optional>[A-Z]+)\]|\b(?P<word>[A-Z]+)\b", part, escaped))

    def filled(self, text, groups):
        """A sentence with the words in capitals replaced by what was printed."""
        return re.sub(r"\b[A-Z]+\b", lambda it: groups.get(it[0]) or it[0], text)


def table(path=PATH):
    """The entries in the order of the page."""
    entries = []
    with open(path, encoding="utf-8") as file:
        for line in file:
            cells = [it.strip() for it in line.strip().strip("|").split("|")]
            if not line.startswith("|") or len(cells) != 4 or cells[0] == "answer" or set(cells[0]) == {"-"}:
                continue
            pattern, status, meaning, advice = cells
            entries.append(Entry(pattern.strip("`"), int(status) if status else None, meaning, advice))
    return entries


@dataclass(frozen=True)
class Meaning:
    entry: Entry
    groups: dict

    @property
    def text(self):
        return self.entry.filled(self.entry.meaning, self.groups)

    @property
    def advice(self):
        return self.entry.filled(self.entry.advice, self.groups)


def meaning_of(line, status, entries):
    """The entry that a printed line has at this status, or None."""
    for it in entries:
        if it.pattern and it.status in (status, None) and (found := it.regex.fullmatch(line)):
            return Meaning(it, {key: value for key, value in found.groupdict().items() if value is not None})
    return None


def meaning_of_silence(status, entries):
    """The entry of a status at which nothing is printed, or None."""
    return next((Meaning(it, {}) for it in entries if not it.pattern and it.status == status), None)
