"""A document of TOML 1.1 as one of TOML 1.0, which is all that Python reads.

TOML 1.1 has two escapes more (`\\e`, `\\xHH`), and lets an inline table go over several lines, with comments and with a comma after
its last key. A time without seconds stays as it is: no key of an inventory takes a bare time.
"""

from __future__ import annotations

import re
from dataclasses import dataclass, field

_NEWER = re.compile(r"\\[ex]|\{")
"""What every text has that is not of TOML 1.0 already."""
_TOKEN = re.compile(
    r'(?P<basic>"""(?:[^\\"]|\\.|"(?!""))*+"{3,5}|"(?:[^\\"\n]|\\[^\n])*+")'
    r"|(?P<literal>'''(?:[^']|'(?!''))*+'{3,5}|'[^'\n]*+')"
    r"|(?P<comment>\#[^\n]*+)|(?P<feed>\r?\n)|(?P<blank>(?:[ \t]|\r(?!\n))++)|(?P<mark>[\[\]{},])"
    r"""|(?P<other>[^"'\#\n\[\]{}, \t\r]++|.)""", re.DOTALL)
_ESCAPE = re.compile(r"\\(?:x([0-9A-Fa-f]{2})|(e)|.)", re.DOTALL)
_BETWEEN = ("feed", "comment")


@dataclass(frozen=True)
class Older:
    """The text in TOML 1.0. `changed` has its pieces, each with what it was; nothing where nothing is changed."""

    text: str
    changed: list[tuple[str, str]] = field(default_factory=list)

    def line(self, number: int, column: int) -> int:
        """The line of the first text that came to this line and column. All are counted from 1."""
        if not self.changed:
            return number
        left = sum(len(line) + 1 for line in self.text.split("\n")[:number - 1]) + column - 1
        line = 1
        for was, word in self.changed:
            if left < len(word):
                return line + word[:left].count("\n")
            left -= len(word)
            line += was.count("\n")
        return line


def older(text: str) -> Older:
    """The same document in TOML 1.0; what is no document of TOML 1.1 is none of TOML 1.0 either."""
    if not _NEWER.search(text):
        return Older(text)
    tokens = [(token.lastgroup or "", token[0]) for token in _TOKEN.finditer(text)]
    words = [_ESCAPE.sub(_older_escape, word) if kind == "basic" else word for kind, word in tokens]
    _join_inline_tables(tokens, words)
    return Older("".join(words), [(was, word) for (_, was), word in zip(tokens, words)])


def _older_escape(escape: re.Match[str]) -> str:
    if escape[1]:
        return f"\\u00{escape[1]}"
    return "\\u001B" if escape[2] else escape[0]


def _join_inline_tables(tokens: list[tuple[str, str]], words: list[str]) -> None:
    """Takes line feeds and comments out from between the keys of inline tables, and a comma after the last key."""
    opened, waiting = list[str](), list[int]()
    before, comma, is_after_key = "", -1, False
    for at, (kind, word) in enumerate(tokens):
        is_in_table = opened[-1:] == ["{"]
        if kind in _BETWEEN and is_in_table:
            waiting.append(at)
        if kind in (*_BETWEEN, "blank"):
            continue
        mark = word if kind == "mark" else ""
        if is_in_table:
            if before in ("{", ",") or mark in (",", "}"):
                for place in waiting:
                    words[place] = " " if tokens[place][0] == "feed" else ""
            if mark == "}" and before == "," and is_after_key:
                words[comma] = " "
            elif mark == ",":
                comma, is_after_key = at, before not in ("{", ",")
        waiting.clear()
        if mark in ("[", "{"):
            opened.append(mark)
        elif mark in ("]", "}") and opened:
            opened.pop()
        before = mark or "key"
