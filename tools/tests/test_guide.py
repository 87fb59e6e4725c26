"""The commands of docs/GUIDE.md print what it says, one after the other in one folder; `...` stands for lines that are left out."""

import os
import re
import subprocess

from .studies import TOOLS, TOP, Case

GUIDE = os.path.join(TOP, "docs", "GUIDE.md")


def commands(text):
    """Each command of the console blocks, with the lines that are shown below it."""
    for block in re.findall(r"^```console\n(.*?)^```", text, re.M | re.S):
        command, shown = None, []
        for line in block.splitlines():
            if line.startswith("$ "):
                if command:
                    yield command, shown
                command, shown = line[2:], []
            else:
                shown.append(line)
        yield command, shown


def pattern(shown):
    """The shown lines as a regular expression."""
    return "".join(r"(?:.*\n)*" if it == "..." else re.escape(it) + r"\n" for it in shown)


class Guide(Case):
    def test_commands(self):
        with open(self.path("coord"), "w", encoding="utf-8") as file:
            file.write('#!/bin/sh\nexec "$COORD" "$@"\n')
        os.chmod(self.path("coord"), 0o755)
        for name in ("examples", "docs"):
            os.symlink(os.path.join(TOP, name), self.path(name))
        os.symlink(TOOLS, self.path("tools"))
        with open(GUIDE, encoding="utf-8") as file:
            found = list(commands(file.read()))
        self.assertGreater(len(found), 15)
        for command, shown in found:
            with self.subTest(command):
                ran = subprocess.run(["bash", "-c", command], cwd=self.folder, stdout=subprocess.PIPE, stderr=subprocess.STDOUT, text=True)
                if not re.fullmatch(pattern(shown), ran.stdout):
                    self.fail(f"prints\n{ran.stdout}and not\n" + "\n".join(shown))

    def test_words(self):
        with open(GUIDE, encoding="utf-8") as file:
            text = file.read()
        self.assertLessEqual(len(text.split()), 2500)
        for word in ("box", "tight", "void", "hair", "loose", "strict", "term", "row", "bound", "gap"):
            self.assertRegex(text.split("## Words")[1], rf"\*\*[^*]*{word}")
