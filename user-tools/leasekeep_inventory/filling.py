"""Values written into the text of an inventory, whose other lines stay as they are: comments, spelling and order."""

from __future__ import annotations

import re
from dataclasses import dataclass
from typing import Mapping

from .inventory import toml_string
from .rfc3339 import date_text
from .toml_text import Lines

_LINE = re.compile(r"""(\s*["']?[A-Za-z0-9_-]+["']?\s*=\s*)("(?:[^"\\]|\\.)*"|'[^']*'|[^\s#"'\[{]+)(\s*(?:\#.*)?)""")
"""A key, its value, and what follows, where all of it stands on one line."""


@dataclass(frozen=True)
class Moment:
    """A moment, which is written as the one before it was: as seconds or as a date; a new one as a date."""

    seconds: int


Value = Moment | int | bool | None
"""What is written for a key. None: its line becomes a comment."""


class Page:
    """The lines of a text, into which values are written."""

    def __init__(self, text: str, lines: Lines) -> None:
        self._text, self._lines = text.split("\n"), lines
        self._added: dict[int, list[str]] = {}
        self._keys: dict[tuple[str, int], dict[str, int]] = {}
        for (head, place, key), line in lines.keys.items():
            self._keys.setdefault((head, place), {})[key] = line

    def write(self, head: str, place: int, values: Mapping[str, Value]) -> bool:
        """Writes these values into a table; whether it stands under a head of its own, so that they can be written."""
        top = self._lines.tables.get((head, place))
        if top is None:
            return False
        keys = self._keys.get((head, place), {})
        for key, value in values.items():
            line = keys.get(key)
            if line is not None:
                self._rewrite(line - 1, value)
            elif value is not None:
                self._add(max(keys.values(), default=top), top, f"{key} = {_written(value, None)}")
        return True

    def _rewrite(self, at: int, value: Value) -> None:
        parts = _LINE.fullmatch(self._text[at])
        if value is None:
            self._text[at] = f"# {self._text[at]}"
        elif parts is not None:
            self._text[at] = f"{parts[1]}{_written(value, parts[2])}{parts[3]}"

    def _add(self, last: int, top: int, written: str) -> None:
        """After the table's last line, where that is one key and its value, else after its head."""
        after = last if _LINE.fullmatch(self._text[last - 1]) else top
        self._added.setdefault(after, []).append(written)

    @property
    def text(self) -> str:
        """The whole text, as it is now."""
        lines = []
        for number, line in enumerate(self._text, 1):
            lines += self._with_added(number, line)
        return "\n".join(lines)

    def _with_added(self, number: int, line: str) -> list[str]:
        """The line, and what is added after it, with line feeds like its own; after the last line of a text, like the one before."""
        added = self._added.get(number)
        if added is None:
            return [line]
        is_last = number == len(self._text)
        end = "\r" if self._text[number - (2 if is_last else 1)].endswith("\r") else ""
        if is_last:
            *others, last = added
            return [line + end, *(other + end for other in others), last]
        return [line, *(one + end for one in added)]


def _written(value: Moment | int | bool, before: str | None) -> str:
    if isinstance(value, Moment):
        return str(value.seconds) if before is not None and before.isdigit() else toml_string(date_text(value.seconds))
    return str(value).lower()
