"""The line of a network file at which a table or a key stands."""

import re

TOKEN = re.compile(
    r'(?P<comment>#[^\n]*)|(?P<string>"""(?:\\.|[^\\])*?"""|\'\'\'.*?\'\'\'|"(?:\\.|[^"\\\n])*"|\'[^\'\n]*\')|(?P<line>\n)|(?P<mark>[\[\]{}=,.])|(?P<word>[^\s\[\]{}=,.#"\']+)|(?P<space>\s+?)',
    re.S,
)


def tokens_of(text):
    """Marks, words, strings and line ends, each with its line."""
    line = 1
    for it in TOKEN.finditer(text):
        if it.lastgroup not in ("comment", "space"):
            yield it.lastgroup, it[0], line
        line += it[0].count("\n")


def bare(word):
    return word.strip("\"'")


class Places:
    """Lines by table, index and key; with the key None, the line at which the table begins. Index 0 is for `top` and `study`."""

    def __init__(self, text):
        self.text = text.splitlines()
        self.found = {}
        self.counts = {}
        self.tokens = [*tokens_of(text), ("line", "\n", len(self.text))]
        here, at = ("top", 0), 0
        while at < len(self.tokens):
            kind, word, line = self.tokens[at]
            if kind == "line":
                at += 1
            elif word == "[":
                at, here = self.header(at, line)
            else:
                at = self.pair(at, here, line)

    def line(self, table, index, key=None):
        return self.found.get((table, index, key))

    def source(self, line):
        """What stands at a line."""
        return self.text[line - 1].split(" #")[0].strip() if line and line <= len(self.text) else ""

    def header(self, at, line):
        end = at
        while self.tokens[end][0] != "line":
            end += 1
        name = ".".join(bare(it[1]) for it in self.tokens[at:end] if it[0] in ("word", "string"))
        if self.tokens[at + 1][1] == "[":
            here = (name, self.next_index(name))
        else:
            here = (name, 0)
        self.found.setdefault(("top", 0, name), line)
        self.found.setdefault((*here, None), line)
        return end, here

    def next_index(self, name):
        self.counts[name] = self.counts.get(name, 0) + 1
        return self.counts[name]

    def pair(self, at, here, line):
        """A key with its value, up to the line's end outside brackets."""
        path = []
        while self.tokens[at][0] != "line" and self.tokens[at][1] != "=":
            if self.tokens[at][0] in ("word", "string"):
                path.append(bare(self.tokens[at][1]))
            at += 1
        if not path:
            return at + 1
        self.found.setdefault((*here, path[0]), line)
        if here == ("top", 0) and len(path) == 2:
            self.found.setdefault((path[0], 0, path[1]), line)
        depth, table, due = 0, (path[0], 0), False
        while at < len(self.tokens) and (depth > 0 or self.tokens[at][0] != "line"):
            kind, word, line = self.tokens[at]
            if word == "{" and here == ("top", 0):
                if depth == 1:
                    table = (path[0], self.next_index(path[0]))
                self.found.setdefault((*table, None), line)
                due = True
            elif due and kind in ("word", "string") and self.tokens[at + 1][1] == "=":
                self.found.setdefault((*table, bare(word)), line)
            depth += {"[": 1, "{": 1, "]": -1, "}": -1}.get(word if kind == "mark" else "", 0)
            at += 1
        return at
