"""Random bad hours for an agent: outages as long as docs/watch.md says may be survived, with more trouble in them, and parts of a fleet that
are silent. Moments are in milliseconds of the clock that never steps, which shows START at the beginning."""

from __future__ import annotations

import random
from collections.abc import Iterator
from dataclasses import dataclass
from enum import Enum

from troubles import NONE, Incident, Trouble, trouble

START = 1_000_000
SECOND = 1000
ROUNDED = 1
"""The milliseconds that rounding costs each wake-up."""


class Manner(Enum):
    """How a broker is away."""

    SILENT = "no request has an answer"
    CLOSED = "each connection is closed"
    UNAVAILABLE = "each answer is 503"


@dataclass(frozen=True)
class Storm:
    """An outage of a broker of tokens, whose ends are given and which it renews by `step` seconds. It is away from `begins`, for `lasts`.
    While it is there a reply takes `reply`; clocks are `late`. `margin` and `timeout` are in seconds. What else goes wrong is its trouble."""

    ends: dict[str, int]
    step: int
    margin: int
    width: int
    timeout: int
    reply: int
    late: int
    begins: int
    lasts: int
    manner: Manner
    trouble: Trouble

    def moment(self, incident: Incident) -> int:
        """When that happens in it."""
        return self.begins + int(incident.part * self.lasts)


@dataclass(frozen=True)
class Hang:
    """Requests about `hung` are silent from `begins` on, for three margins; the others take `reply`."""

    ends: dict[str, int]
    step: int
    hung: frozenset[str]
    margin: int
    width: int
    timeout: int
    reply: int
    late: int
    begins: int


def longest(margin: int, entries: int, width: int, timeout: int, reply: int, late: int, amiss: Trouble = NONE) -> float:
    """The bound of docs/watch.md, in seconds, less what a quota costs besides."""
    d, w = reply / SECOND, (late + ROUNDED) / SECOND
    count = entries + amiss.joins(entries)
    quiet = -(-count // width) * (d + w) + w
    pause = max(1.0, min(30.0, quiet / 15))
    return margin - timeout - 2 * (d + w) - quiet - pause - amiss.costs(margin, count, quiet)


def ends_of(chance: random.Random, count: int, step: int) -> dict[str, int]:
    """Ends at one moment, or at any within a step."""
    together = chance.random() < 0.5
    ends = [START + (step if together else chance.randint(step, 2 * step)) * SECOND + chance.randint(0, 999) for _ in range(count)]
    return {f"e{number}": end for number, end in enumerate(ends)}


def storms(chance: random.Random, count: int) -> Iterator[Storm]:
    """Outages of just under the bound that begin around the time of some entry."""
    made = 0
    while made < count:
        margin, width, timeout = chance.choice((20, 40, 60, 120, 600)), chance.randint(1, 16), chance.choice((1, 2, 3, 5))
        entries, reply, late = chance.randint(1, 60), chance.randint(1, 240), chance.randint(0, 200)
        amiss = trouble(chance, [f"e{number}" for number in range(entries)])
        lasts = longest(margin, entries, width, timeout, reply, late, amiss)
        if margin < 4 * timeout or lasts <= 0:
            continue
        step = chance.randint(2 * margin, 6 * margin)
        ends = ends_of(chance, entries, step)
        its_time = chance.choice([*ends.values()]) - margin * SECOND
        begins = its_time + chance.randint(-2 * reply - SECOND, 2 * SECOND)
        yield Storm(ends, step, margin, width, timeout, reply, late, begins, int(lasts * SECOND) - 10, chance.choice([*Manner]), amiss)
        made += 1


def passed_over(hung: int, healthy: int, width: int, timeout: int, reply: int, late: int) -> float:
    """Seconds from an entry's time until it is asked, or a little more, where so many others are silent: at first as long as the
    broker seems away, once the silent ones' patience. Fleets are chosen by it, and judged by what they lose."""
    d, w = reply / SECOND, (late + ROUNDED) / SECOND
    patience = min(timeout, max(1.0, 2 * d))
    return 2 * timeout + patience * -(-hung // width) + (d + w) * (-(-healthy // width) + 2) + 2 * w


def hangs(chance: random.Random, count: int, crowded: bool = False) -> Iterator[Hang]:
    """Parts of a fleet that are silent, which the others have room for within the margin: smaller than the lanes, or, where they are
    to be crowded, as large or larger."""
    made = 0
    while made < count:
        margin, width, timeout = chance.choice((20, 40, 60, 120)), chance.randint(2, 16), chance.choice((1, 2, 3, 5))
        entries, reply, late = chance.randint(8, 80), chance.randint(1, 300), chance.randint(0, 100)
        hung = round(entries * chance.choice((0.05, 0.125, 0.25, 0.5)))
        hung = max(hung, width) if crowded else min(hung, width - 1)
        if not 0 < hung < entries or margin < 4 * timeout or passed_over(hung, entries - hung, width, timeout, reply, late) > margin - 2:
            continue
        step = chance.randint(2 * margin, 6 * margin)
        ends = ends_of(chance, entries, step)
        silent = frozenset(chance.sample(sorted(ends), hung))
        begins = min(ends.values()) - margin * SECOND + chance.randint(-5 * SECOND, 5 * SECOND)
        yield Hang(ends, step, silent, margin, width, timeout, reply, late, begins)
        made += 1
