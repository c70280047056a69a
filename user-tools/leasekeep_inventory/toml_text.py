"""The text of a TOML document: its bytes decoded, where its tables and keys stand, and what is wrong with its syntax."""

from __future__ import annotations

import codecs
import re
import tomllib
from dataclasses import dataclass, field
from typing import Any

from .toml_1_0 import Older, older

_HEAD = re.compile(r"\s*\[(\[?)\s*[\"']?([A-Za-z0-9_-]+)[\"']?\s*(\.[^\]]*)?\]")
_KEY = re.compile(r"\s*[\"']?([A-Za-z0-9_-]+)[\"']?\s*=")
_PLACE = re.compile(r" \(at (?:line (\d+), column (\d+)|end of document)\)\Z")
_QUOTED = re.compile(r"'([^']*)'|\"([^\"]*)\"")
_HARMLESS = re.compile(r"[^A-Za-z0-9]*|.|\\.|\\x..|token|lease|margin|system_max", re.DOTALL)
"""What the parser may quote: signs, single characters, and words that are no secret. A key may be one, in the wrong place."""

_LONG_KEY = re.compile(r"""(?<![\w.-])(?:(?:[\w-]++|"[^"\n]*+"|'[^'\n]*+')[ \t]*+\.[ \t]*+){200}""", re.ASCII)
"""A key of so many parts that the parser takes minutes over a whole file of them. (No secret has so many dots.)"""

_CURLY = re.compile("[\u2018\u2019\u201c\u201d\u201e\u00ab\u00bb]")

_NO_TOML = "the file is not a TOML document"


def decoded(data: bytes) -> str:
    """The text of the bytes, without a byte-order mark at its start; UnicodeDecodeError where they are not UTF-8."""
    return data.removeprefix(codecs.BOM_UTF8).decode("utf-8")


@dataclass
class Lines:
    """Where each table and each of its keys stands, counted from 1, as far as they are written with heads of their own.

    A table is named by the word of its head ("" is the top level) and its place among those of that word.
    """

    tables: dict[tuple[str, int], int] = field(default_factory=dict)
    keys: dict[tuple[str, int, str], int] = field(default_factory=dict)
    twice: tuple[int, int] | None = None
    """The lines of the first key that stands twice in one table."""

    @staticmethod
    def of(text: str) -> Lines:
        lines = Lines()
        counts: dict[str, int] = {}
        table, place = "", 0
        for number, line in enumerate(text.split("\n"), 1):
            if head := _HEAD.match(line):
                table = head[2] + (head[3] or "")
                place = counts.get(table, 0)
                counts[table] = place + 1
                lines.tables[table, place] = number
            elif key := _KEY.match(line):
                before = lines.keys.setdefault((table, place, key[1]), number)
                if before != number and lines.twice is None:
                    lines.twice = before, number
        return lines

    def of_key(self, table: str, place: int, key: str) -> int:
        """The key's line, else its table's, else 0."""
        return self.keys.get((table, place, key), self.tables.get((table, place), 0))

    def of_top(self, key: str) -> int:
        """The line of a key of the top level, or of the first table of that name; else 0."""
        return self.keys.get(("", 0, key), self.tables.get((key, 0), 0))


@dataclass(frozen=True)
class SyntaxFault:
    """What is no TOML: its line (0 where that is not known), the parser's words, and how to mend it."""

    line: int
    problem: str
    mend: str


def parsed(text: str, lines: Lines) -> dict[str, Any] | SyntaxFault:
    """The document's top level, or why it is none."""
    if (long := _LONG_KEY.search(text)) is not None:
        return SyntaxFault(text.count("\n", 0, long.start()) + 1, "a key has hundreds of parts", "write each key as one word")
    document = older(text)
    try:
        return tomllib.loads(document.text)
    except RecursionError:
        return SyntaxFault(0, f"{_NO_TOML}: lists or tables are nested too deep", "an inventory has no list in a list")
    except tomllib.TOMLDecodeError as error:
        return _syntax(str(error), text, document, lines)
    except ValueError:
        return SyntaxFault(0, f"{_NO_TOML}: a number has thousands of digits", "write a number of at most 19 digits")


def _syntax(said: str, text: str, document: Older, lines: Lines) -> SyntaxFault:
    place = _PLACE.search(said)
    line = document.line(int(place[1]), int(place[2])) if place and place[1] else text.rstrip("\n").count("\n") + 1
    if said.startswith("Cannot overwrite a value") and lines.twice is not None:
        first, line = lines.twice
        return SyntaxFault(line, f"a key occurs twice in one table, on line {first} too", "remove one of them")
    return SyntaxFault(line, f"{_NO_TOML}: {_QUOTED.sub(_unquoted, said)}", _mend(said, text, line))


def _unquoted(quoted: re.Match[str]) -> str:
    return quoted[0] if _HARMLESS.fullmatch(quoted[1] or quoted[2] or "") else "'?'"


def _mend(said: str, text: str, line: int) -> str:
    written = text.split("\n")[line - 1]
    if said.startswith("Cannot declare") and (head := _HEAD.match(written)) and head[2] in ("token", "lease"):
        return f"write [[{head[2]}]], with two brackets, over each {head[2]}"
    value = written.partition("=")[2].strip()
    if _CURLY.search(written):
        return 'a text stands between straight quotes ("): these are curly, as some programs write them'
    if re.match(r"\d{4}-\d\d", value):
        return "put the date in quotes"
    if said.startswith("Invalid value") and re.match(r"[A-Za-z/]", value):
        return "put texts in quotes; true and false are written without"
    if re.search(r"\[(token|lease)[^\]]*\Z|\[\[(token|lease)\][^\]]*\Z", written):
        return "write [[token]] or [[lease]], with two brackets at both ends"
    return "correct the syntax there"
