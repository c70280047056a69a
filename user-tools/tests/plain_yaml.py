"""The part of YAML in which the manifests for Kubernetes are written: mappings and lists by indentation, lists of texts in brackets,
numbers, and texts. Anything else is a ValueError."""

from __future__ import annotations

import json
import re

KEY = re.compile(r"([A-Za-z][\w./-]*):(?: +(\S.*))?")
"""A key of a mapping, with its value where this is on the same line."""
PLAIN = re.compile(r"[\w./][\w./:-]*|--[a-z]+")
"""A text without quotes: none that is anything else to a reader of all of YAML."""


def read(text: str) -> list[object]:
    """Its documents."""
    pieces = re.split(r"(?m)^---$", text)
    return [Reader(lines).whole() for piece in pieces if (lines := lines_of(piece))]


def lines_of(text: str) -> list[tuple[int, str]]:
    """Each line that is no comment: how far it is set in, and what it says."""
    lines = [line for line in text.splitlines() if line.strip() and not line.lstrip().startswith("#")]
    return [(len(line) - len(line.lstrip(" ")), line.strip()) for line in lines]


def scalar(word: str) -> object:
    """A value on one line."""
    if word[0] in '["':
        value: object = json.loads(word)
        return value
    if word in ("true", "false"):
        return word == "true"
    if re.fullmatch(r"0|[1-9]\d*", word):
        return int(word)
    if re.fullmatch(r"0[0-7]+", word):
        return int(word, 8)
    if not PLAIN.fullmatch(word):
        raise ValueError(f"{word!r} is to be in quotes")
    return word


class Reader:
    """Reads a document line by line."""

    def __init__(self, lines: list[tuple[int, str]]) -> None:
        self._lines, self._at = lines, 0

    def whole(self) -> object:
        value = self._block(0)
        if self._at < len(self._lines):
            raise ValueError(f"{self._lines[self._at][1]!r} is not where it belongs")
        return value

    def _block(self, least: int) -> object:
        """The mapping or the list that begins here, set in at least so far."""
        indent, text = self._lines[self._at] if self._at < len(self._lines) else (-1, "")
        if indent < least:
            raise ValueError(f"a block is missing before {text!r}")
        return self._items(indent) if text.startswith("- ") else self._mapping(indent)

    def _items(self, indent: int) -> list[object]:
        found: list[object] = []
        while (text := self._text_at(indent)).startswith("- "):
            rest = text[2:].lstrip()
            if KEY.fullmatch(rest):
                inside = indent + len(text) - len(rest)
                self._lines[self._at] = inside, rest
                found.append(self._mapping(inside))
            else:
                found.append(scalar(rest))
                self._at += 1
        return found

    def _mapping(self, indent: int) -> dict[str, object]:
        found: dict[str, object] = {}
        while match := KEY.fullmatch(self._text_at(indent)):
            key, rest = match.groups()
            if key in found:
                raise ValueError(f"{key!r} stands twice")
            self._at += 1
            found[key] = self._block(indent + 1) if rest is None else scalar(rest)
        return found

    def _text_at(self, indent: int) -> str:
        """What the next line says if it is set in so far, else nothing."""
        if self._at < len(self._lines) and self._lines[self._at][0] == indent:
            return self._lines[self._at][1]
        return ""
