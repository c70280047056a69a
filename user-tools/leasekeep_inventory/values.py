"""The values of an inventory's keys: what is expected of each, how it is read, and how a wrong one is mended."""

from __future__ import annotations

import re
from dataclasses import dataclass
from datetime import date
from typing import Any, Callable

from .inventory import DURATION_MAX, MARGIN_MAX
from .rfc3339 import LAST, date_mend, read_rfc3339

NAME = re.compile(r"[A-Za-z0-9\-_./]{1,64}", re.ASCII)
CREDENTIAL = re.compile(r"[!-~]{1,256}", re.ASCII)
PATH_MAX = 4096


@dataclass(frozen=True)
class Form:
    """What a key's value has to be: in words, as `read` takes it (None: it is none), and what to write instead of
    a value that is none. The words of `mend` never hold the value of a text."""

    expected: str
    read: Callable[[Any], Any]
    mend: Callable[[Any], str]


def whole(least: int, most: int, expected: str, advised: int | None = None) -> Form:
    """A whole number of seconds; `advised` is the least that is of use."""
    def read(value: Any) -> int | None:
        return value if type(value) is int and least <= value <= most else None

    def mend(value: Any) -> str:
        if isinstance(value, date):
            return "write a number of seconds, not a date"
        return _number_mend(value, least if advised is None else advised, most)
    return Form(expected, read, mend)


def moment(most: int) -> Form:
    """A moment: seconds since 1970, or a date in quotes."""
    def read(value: Any) -> int | None:
        if isinstance(value, str):
            return read_rfc3339(value)
        return value if type(value) is int and 0 <= value <= most else None

    def mend(value: Any) -> str:
        if isinstance(value, date):
            return "a date has to be in quotes"
        if isinstance(value, str) and not value.isdigit():
            return date_mend(value)
        return _number_mend(value, 0, most)
    return Form('a whole number of seconds since 1970, or a date such as "2026-11-22T09:00:00Z"', read, mend)


def _number_mend(value: Any, least: int, most: int) -> str:
    if isinstance(value, str) and value.isascii() and value.isdigit():
        return "write it without quotes"
    if isinstance(value, float) and value.is_integer() and least <= value <= most:
        return f"write {int(value)}"
    if type(value) is int and value > LAST >= value // 1000 and most >= LAST:
        return f"are these milliseconds? write {value // 1000}"
    if type(value) is int and value > most:
        return f"write {most} or less"
    if type(value) is int:
        return f"write {least} or more"
    return f"write a whole number, {least} to {most}"


def text(form: re.Pattern[str], most: int, expected: str) -> Form:
    """A text of that form, of 1 to `most` characters."""
    def read(value: Any) -> str | None:
        return value if isinstance(value, str) and form.fullmatch(value) else None

    def mend(value: Any) -> str:
        if not isinstance(value, str):
            return "write a text in quotes"
        if not value:
            return "it is empty: write at least one character"
        if len(value) > most:
            return f"it has {len(value)} characters: write {most} or less"
        place = next(at for at, letter in enumerate(value, 1) if not form.fullmatch(letter))
        what = "a space" if value[place - 1] == " " else "one that is not allowed"
        return f"its character {place} is {what}"
    return Form(expected, read, mend)


def _path() -> Form:
    """A path of 1 to 4,096 bytes of UTF-8 without a control character."""
    form = text(re.compile(r"[^\x00-\x1f\x7f]+"), PATH_MAX, "the path of a file")

    def is_long(value: Any) -> bool:
        return isinstance(value, str) and len(value.encode()) > PATH_MAX

    def mend(value: Any) -> str:
        return f"it has {len(value.encode())} bytes: write {PATH_MAX} or less" if is_long(value) else form.mend(value)
    return Form(form.expected, lambda value: None if is_long(value) else form.read(value), mend)


def _flag_mend(value: Any) -> str:
    if isinstance(value, str) and value.lower() in ("true", "false"):
        return f"write {value.lower()} without quotes"
    return "write true or false"


def _tables(value: Any) -> list[dict[str, Any]] | None:
    if isinstance(value, list) and all(isinstance(item, dict) for item in value):
        return value
    return None


def tables(word: str) -> Form:
    """An array of tables."""
    def mend(value: Any) -> str:
        return f"write [[{word}]], with two brackets, over each {word}"
    return Form(f"an array of tables [[{word}]]", _tables, mend)


DURATION = whole(0, DURATION_MAX, f"a whole number of seconds, 0 to {DURATION_MAX}")
INCREMENT = whole(0, DURATION_MAX, DURATION.expected, advised=2)
SYSTEM_MAX_FORM = whole(1, DURATION_MAX, f"1 to {DURATION_MAX}")
MARGIN = whole(1, MARGIN_MAX, f"1 to {MARGIN_MAX} seconds")
FLAG = Form("true or false", lambda value: value if isinstance(value, bool) else None, _flag_mend)
NAME_FORM = text(NAME, 64, "1 to 64 letters, digits, '-', '_', '.', '/'")
ABOVE = text(NAME, 64, "the name of an earlier token")
FILE_FORM = _path()
CREDENTIAL_FORM = text(CREDENTIAL, 256, "1 to 256 printable ASCII characters without a space")
