"""The axis of time: which moments are named, and how they are written."""

from __future__ import annotations

from dataclasses import dataclass
from datetime import UTC, datetime

_SECONDS = [step * 10**power for power in range(13) for step in (1, 2, 5)]
_CLOCK = [1, 2, 5, 10, 15, 30, 60, 120, 300, 600, 900, 1800, 3600, 7200, 10800, 21600, 43200]
_DAYS = [86_400 * days for days in (1, 2, 7, 14, 28, 91, 182, 365)]
_LAST_DATE = 253_402_300_799
"""9999-12-31T23:59:59Z, the last moment that has a date."""


@dataclass(frozen=True)
class Axis:
    """Maps moments to places from 0 to `length`."""

    start: int
    stop: int
    length: float
    is_dated: bool

    def place(self, moment: int) -> float:
        """The place of a moment; before the start and past the stop it is that of the nearer end."""
        within = min(max(moment, self.start), self.stop)
        return (within - self.start) * self.length / max(self.stop - self.start, 1)

    def ticks(self, most: int) -> list[tuple[int, str]]:
        """At most `most` moments at equal distances, each with its text."""
        span = max(self.stop - self.start, 1)
        steps = [*_CLOCK, *_DAYS, *(365 * 86_400 * n for n in (2, 5, 10, 50, 100, 1000))] if self.is_dated else _SECONDS
        step = next((step for step in steps if span // step < most), steps[-1])
        first = -(-self.start // step) * step
        return [(moment, self.text(moment, step)) for moment in range(first, self.stop + 1, step)][:most]

    def text(self, moment: int, step: int = 1) -> str:
        """A moment as the inventory writes them: a date where its moments are dates, as fine as the step wants it."""
        if not self.is_dated or moment > _LAST_DATE:
            return str(moment)
        date = datetime.fromtimestamp(moment, UTC)
        if step >= 86_400:
            return date.strftime("%Y-%m-%d")
        if step >= 60:
            return date.strftime("%m-%d %H:%M")
        return date.strftime("%H:%M:%S")


def moment_text(moment: int, is_dated: bool) -> str:
    """A moment whole: its date, or its number."""
    if is_dated and moment <= _LAST_DATE:
        return datetime.fromtimestamp(moment, UTC).strftime("%Y-%m-%dT%H:%M:%SZ")
    return str(moment)
