"""Moments as texts: RFC 3339 in the profile of leasekeep's inventory."""

from __future__ import annotations

import calendar
import math
import re
from datetime import datetime, timedelta, timezone

LAST = 253402300799
"""The last moment, 9999-12-31T23:59:59Z."""
_FORM = re.compile(
    r"(\d{4})-(\d\d)-(\d\d)[Tt](\d\d):(\d\d):(\d\d)(\.\d+)?(?:[Zz]|([+-])([01]\d|2[0-3]):([0-5]\d))", re.ASCII
)
_EPOCH = datetime(1970, 1, 1, tzinfo=timezone.utc)


def read_rfc3339(text: str) -> int | None:
    """The moment that the text writes, its fraction cut off downwards; None where it writes none, or one before 1970
    or past 9999."""
    match = _FORM.fullmatch(text)
    if match is None:
        return None
    year, month, day, hour, minute, second = (int(match[i]) for i in range(1, 7))
    try:
        local = datetime(year, month, day, hour, minute, second, tzinfo=timezone.utc)
    except ValueError:
        return None
    offset = timedelta(hours=int(match[9] or 0), minutes=int(match[10] or 0))
    seconds = (local - _EPOCH) // timedelta(seconds=1) - (-1 if match[8] == "-" else 1) * int(offset.total_seconds())
    return seconds if 0 <= seconds <= LAST else None


def with_fraction(text: str) -> float | None:
    """The moment that the text writes, with its fraction to the microsecond; None where `read_rfc3339` reads none."""
    match, whole = _FORM.fullmatch(text), read_rfc3339(text)
    return None if match is None or whole is None else whole + float((match[7] or ".0")[:7])


def date_mend(text: str) -> str:
    """What to write instead of a text that `read_rfc3339` does not read."""
    match = _FORM.fullmatch(text)
    if match is None:
        return "write day, T, hours:minutes:seconds, and Z or an offset such as +01:00"
    year, month = int(match[1]), int(match[2])
    if not 1 <= month <= 12:
        return f"months are 01 to 12, and this one is {match[2]}"
    days = calendar.monthrange(max(year, 1), month)[1]
    if not 1 <= int(match[3]) <= days:
        return f"days of {match[1]}-{match[2]} are 01 to {days}, and this one is {match[3]}"
    for group, words, most in ((4, "hours", 23), (5, "minutes", 59), (6, "seconds", 59)):
        if int(match[group]) > most:
            return f"{words} are 00 to {most}, and this one is {match[group]}"
    return "write a moment from 1970-01-01T00:00:00Z to 9999-12-31T23:59:59Z"


def date_text(moment: float) -> str:
    """A moment as `YYYY-MM-DDTHH:MM:SSZ`, its fraction cut off."""
    whole = min(max(math.floor(moment), 0), LAST)
    return datetime.fromtimestamp(whole, timezone.utc).strftime("%Y-%m-%dT%H:%M:%SZ")
