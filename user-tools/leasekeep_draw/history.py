"""The lines that `leasekeep rehearse`, `leasekeep run` and `leasekeep serve` print, as what happened to which entry, and when.

One line an event: `entry NAME END`, `wake T NAME..`, `told NAME SECS`, `refused NAME STATUS`, `lost NAME`,
`short NAME NEED`; `next`, `sleep`, `idle`, `planned`, `fault` and `done` change no life. A line of serve's log has its
moment in front, and its moments are dates; a loss has its reason there. What is told of an entry there is told of the `renew NAME..`
before it that names the entry, and what else the log says is passed over.
"""

from __future__ import annotations

import re
from collections.abc import Iterable, Mapping
from dataclasses import dataclass, field
from datetime import datetime
from enum import Enum

from leasekeep_inventory.rfc3339 import read_rfc3339


class Sign(Enum):
    """What happened to an entry at a moment."""

    RENEWED = "renewed"
    REFUSED = "refused"
    LOST = "answer lost"
    SHORT = "need shortened"


@dataclass(frozen=True)
class Mark:
    """Something that happened to an entry. `number`: the new end, the status, or the need that is left."""

    moment: int
    entry: int
    sign: Sign
    number: int | None = None


@dataclass
class History:
    """What the lines say so far.

    `ends`: the last end that each entry was told. `is_over`: the last line says that nothing is left to do; else the run
    goes on, or was broken off. `begun`, `now`: the moments of the first line and of the last one, where they are known.
    """

    wakes: list[int] = field(default_factory=list)
    marks: list[Mark] = field(default_factory=list)
    ends: dict[int, int] = field(default_factory=dict)
    requests: int = 0
    is_over: bool = False
    begun: int | None = None
    now: int = 0
    renewing: dict[int, int] = field(default_factory=dict)
    """When each renewal went out that has no answer yet, by a log."""

    def asked(self, entry: int, otherwise: int) -> int:
        """When the request about an entry went out of which an answer comes now."""
        return self.renewing.pop(entry, otherwise)


class LineFault(Exception):
    """A line that none of them prints."""

    def __init__(self, number: int) -> None:
        super().__init__(f"line {number} is not one that rehearse, run or serve prints for this inventory")
        self.number = number


_QUIET = {"next", "sleep", "idle", "planned", "fault", "done"}
_LOGGED = re.compile(r"(\d{4}-\d\d-\d\dT\d\d:\d\d:\d\dZ) (?:(?:note|warning|alert): )?")
"""The front of a line of serve's log."""


def read(lines: Iterable[str], indices: Mapping[str, int], start: int) -> History:
    """The history that the lines tell; `start` is the moment of what comes before the first wake-up. Raises LineFault."""
    history = History(now=start)
    round_at = start
    for number, line in enumerate(lines, start=1):
        text = line.rstrip("\n")
        logged = _LOGGED.match(text)
        if logged is not None:
            history.now = max(int(datetime.fromisoformat(logged[1]).timestamp()), history.now)
            history.begun = history.now if history.begun is None else history.begun
            text = text[logged.end() :]
        words = text.split(" ")
        try:
            round_at = _take(history, words, indices, round_at, logged is not None)
        except (KeyError, ValueError, IndexError):
            if logged is None:
                raise LineFault(number) from None
        history.is_over = words[0] in ("done", "idle") or words == ["next", "none"]
    return history


def _take(history: History, words: list[str], indices: Mapping[str, int], round_at: int, is_logged: bool) -> int:
    """Takes one line. `round_at` is the moment of the round of which answers speak; gives that of the lines after it."""
    asked_at = history.now if is_logged else round_at
    match words:
        case ["wake", moment, *names]:
            round_at = _moment(moment)
            history.now = max(history.now, round_at)
            history.wakes.append(round_at)
            asked = len([indices[name] for name in names])
            history.requests += 0 if is_logged else asked
        case ["entry", name, end]:
            history.ends[indices[name]] = _moment(end)
        case ["told", name, seconds]:
            _renew(history, history.asked(indices[name], asked_at), indices[name], int(seconds))
        case ["renew", *names]:
            history.renewing.update((indices[name], history.now) for name in names)
            history.requests += len(names)
        case ["refused", name, status]:
            history.marks.append(Mark(history.asked(indices[name], asked_at), indices[name], Sign.REFUSED, int(status)))
        case ["lost", name, *why] if is_logged or not why:  # (Older logs tell no reason.)
            history.marks.append(Mark(history.asked(indices[name], asked_at), indices[name], Sign.LOST))
        case ["short", name, need]:
            history.marks.append(Mark(history.now, indices[name], Sign.SHORT, _moment(need)))
        case [word, *_] if word in _QUIET:
            pass
        case _:
            raise ValueError
    return round_at


def _moment(word: str) -> int:
    """The moment of a word: seconds, or a date as logs have it."""
    date = read_rfc3339(word)
    return int(word) if date is None else date


def _renew(history: History, moment: int, entry: int, seconds: int) -> None:
    history.marks.append(Mark(moment, entry, Sign.RENEWED, moment + seconds))
    history.ends[entry] = moment + seconds
