"""Durations and needs as people write them: "90m", "30d", "always"."""

from __future__ import annotations

import difflib
import re
from typing import Any

from .inventory import ALWAYS
from .rfc3339 import LAST, date_text
from .values import DURATION, INCREMENT, MARGIN, SYSTEM_MAX_FORM, Form, moment

_ALWAYS_WORD = "always"
_LIKE_ALWAYS = ("forever", "infinite", "infinity", "max", "maximum", "unlimited", "never")
_UNITS = {"d": 86400, "h": 3600, "m": 60, "s": 1}
_FORM = re.compile("".join(rf"(?:(\d{{1,10}}){unit})?" for unit in _UNITS), re.ASCII)
_LOOSE = re.compile(r"\s*(?:,|and\b)?\s*(\d{1,10}(?:\.\d{1,3})?)\s*([A-Za-z]{1,12})\.?\s*", re.ASCII)
_WORDS = {
    **_UNITS, "ms": 0.001, "sec": 1, "secs": 1, "second": 1, "seconds": 1, "min": 60, "mins": 60, "minute": 60, "minutes": 60,
    "hr": 3600, "hrs": 3600, "hour": 3600, "hours": 3600, "day": 86400, "days": 86400, "w": 604800, "week": 604800,
    "weeks": 604800, "y": 31536000, "year": 31536000, "years": 31536000,
}


def read_duration(text: str) -> int | None:
    """The seconds of a text such as "90m" or "1h30m", the units in this order: d, h, m, s; None where it is none."""
    parts = _FORM.fullmatch(text)
    if not text or parts is None:
        return None
    return sum(int(number or 0) * size for number, size in zip(parts.groups(), _UNITS.values()))


def duration_text(seconds: int) -> str:
    """The seconds in the greatest units that hold them."""
    words = []
    for unit, size in _UNITS.items():
        count, seconds = divmod(seconds, size)
        words += [f"{count}{unit}"] if count else []
    return "".join(words) or "0s"


def until_text(moment: float) -> str:
    """Until when an entry is needed: a date, or `always`."""
    return _ALWAYS_WORD if moment == ALWAYS else date_text(moment)


def meant_duration(text: str) -> str | None:
    """What a text was probably meant to be: "1 hour" is "1h"; None where that cannot be told."""
    seconds, end = 0.0, 0
    while end < len(text):
        part = _LOOSE.match(text, end)
        unit = None if part is None else _unit(part[2])
        if part is None or unit is None:
            return None
        seconds, end = seconds + float(part[1]) * _WORDS[unit], part.end()
    whole = round(seconds)
    if not text.strip() or abs(seconds - whole) > 1e-6:
        return None
    as_written = text.lower().replace(" ", "")
    return as_written if read_duration(as_written) == whole else duration_text(whole)


def _unit(word: str) -> str | None:
    if word.lower() in _WORDS:
        return word.lower()
    near = difflib.get_close_matches(word.lower(), [unit for unit in _WORDS if len(unit) > 2], 1, 0.7)
    return near[0] if near else None


def _in_words(form: Form) -> Form:
    """The form of a number of seconds that may also be written as a text."""
    def read(value: Any) -> Any:
        if not isinstance(value, str):
            return form.read(value)
        seconds = read_duration(value)
        return None if seconds is None else form.read(seconds)

    def mend(value: Any) -> str:
        if not isinstance(value, str):
            return form.mend(value)
        if value.isascii() and value.isdigit():
            return form.mend(value)
        meant = meant_duration(value)
        seconds = None if meant is None else read_duration(meant)
        if seconds is None:
            return 'write a number and its unit, one of d, h, m, s, such as "90m"'
        return f'did you mean "{meant}"?' if form.read(seconds) is not None else f"that is {seconds} s: {form.mend(seconds)}"
    return Form(f'{form.expected}, or a text such as "90m", "1h", "30d"', read, mend)


def _need() -> Form:
    form = moment(LAST)
    written = f' or "{_ALWAYS_WORD}" (`leasekeep need NAME +6h` counts from now)'

    def read(value: Any) -> Any:
        return ALWAYS if value == _ALWAYS_WORD else form.read(value)

    def mend(value: Any) -> str:
        if isinstance(value, str) and _is_like_always(value):
            return f'did you mean "{_ALWAYS_WORD}"?'
        if isinstance(value, str) and meant_duration(value.strip().removeprefix("+")) is not None:
            return f"a need is a moment: write a date{written}"
        return form.mend(value)
    return Form(f'{form.expected}, or "{_ALWAYS_WORD}"', read, mend)


def _is_like_always(text: str) -> bool:
    word = text.strip().lower()
    return bool(difflib.get_close_matches(word, (_ALWAYS_WORD, *_LIKE_ALWAYS), 1, 0.75))


DURATION_TEXT, INCREMENT_TEXT, SYSTEM_MAX_TEXT, MARGIN_TEXT = map(_in_words, (DURATION, INCREMENT, SYSTEM_MAX_FORM, MARGIN))
NEED = _need()
