"""A broker that is well, in a bad hour: it refuses what was revoked, is too busy for some, or an operator changes a limit; or the agent
is killed, or told to read its file anew. Of the entries that the broker would grant none may be lost. The first word of a case's name is
the rule that it is about."""

from __future__ import annotations

from collections.abc import Callable, Iterable
from dataclasses import replace
from pathlib import Path
from typing import Any

from ..clock import NEVER, ns
from ..faults import Act, Fault, Picks
from ..fleet import Entry, Fleet, of, tokens
from ..machine import INVENTORY
from ..stage import Stage

from . import Case

FIRST = 600
"""The second in which the first entries end."""
PART = 0.9
"""They end so much later, so that each lookup at the start tells the same second."""
FAST = 0.002
"""Seconds that a reply takes before anything is amiss."""
REPLY = 2.0
"""Seconds that one takes around an outage."""


def beginning_with(letter: str) -> Picks:
    return lambda request, name: name.startswith(letter)


def slow_from(stage: Stage, since: float, seconds: float) -> None:
    """Each reply takes so long from that moment on."""
    stage.broker.latency_of = lambda: seconds if stage.now >= since else FAST


def for_ever(since: float, status: int, letter: str) -> Fault:
    return Fault(ns(since), NEVER, Act.STATUS, status, beginning_with(letter))


def named(fleet: Fleet, letter: str) -> list[str]:
    return [name for name in fleet.names if name.startswith(letter)]


# ---- along: an entry whose own time has come stands with those whose time has come, whoever asked it first

def along_behind_busy(program: Path) -> list[str]:
    """For ever 8 entries hear 429. The round asks 40 others along, which end three seconds later."""
    fleet = of(60, tokens("b", 8, FIRST + PART), tokens("h", 40, FIRST + 3 + PART))
    with Stage(program, fleet) as stage:
        slow_from(stage, FIRST - 70, 0.05)
        stage.broker.faults = [for_ever(FIRST - 70, 429, "b")]
        stage.on(FIRST + 20)
        return stage.faults(sick=named(fleet, "b"))


def along_behind_revoked(program: Path) -> list[str]:
    """At once 40 tokens are revoked. The round asks 30 others along, which end a second later."""
    fleet = of(20, tokens("r", 40, FIRST + PART), tokens("h", 30, FIRST + 1 + PART))
    with Stage(program, fleet, width=2) as stage:
        slow_from(stage, FIRST - 30, 0.2)
        stage.broker.faults = [for_ever(FIRST - 30, 404, "r")]
        stage.on(FIRST + 20)
        return stage.faults(sick=named(fleet, "r"))


def along_behind_lookups(program: Path) -> list[str]:
    """No fault at all: right after the opening of a round FILE says another step of 70 others, so that these are to be looked up, one each
    second."""
    fleet = of(60, tokens("a", 1, FIRST + PART), tokens("h", 20, FIRST + 2 + PART), tokens("o", 70, FIRST + 7200 + PART))
    with Stage(program, fleet, width=1) as stage:
        slow_from(stage, FIRST - 70, 1.0)
        stage.on(FIRST - 65 + 0.03)
        stage.write(INVENTORY, fleet.mapped(lambda entry: replace(entry, step=3000) if entry.name.startswith("o") else entry).text())
        stage.equal("reload", ["ok", "fleet.toml was read anew"], stage.ask("reload"))
        stage.on(FIRST + 20)
        return stage.faults()


def along_behind_a_jump(program: Path) -> list[str]:
    """No fault at all: the wall's clock is set on by three seconds right behind the opening of a round."""
    fleet = of(60, tokens("a", 1, FIRST + PART), tokens("h", 40, FIRST + 2 + PART), tokens("o", 140, FIRST + 7200 + PART))
    with Stage(program, fleet, width=2) as stage:
        slow_from(stage, FIRST - 70, 1.0)
        stage.on(FIRST - 60 + 0.03)
        stage.clocks.wall_ahead = ns(3)
        stage.on(FIRST + 20)
        return stage.faults()


# ---- busy: who hears 429 waits, longer each time, and nobody else does

def busy_for_one(program: Path) -> list[str]:
    """One entry hears 429 at once, for ever. 200 others end two seconds later."""
    fleet = of(20, tokens("b", 1, FIRST + PART), tokens("h", 200, FIRST + 2 + PART))
    with Stage(program, fleet) as stage:
        slow_from(stage, FIRST - 30, 0.001)
        stage.broker.faults = [for_ever(FIRST - 30, 429, "b")]
        stage.on(FIRST + 20)
        return stage.faults(sick=["b0"])


def busy_for_many(program: Path) -> list[str]:
    """For 200 entries the broker is too busy. 40 others end in the same second, and stand behind them."""
    fleet = of(20, tokens("b", 200, FIRST + PART), tokens("h", 40, FIRST + PART))
    with Stage(program, fleet) as stage:
        slow_from(stage, FIRST - 30, 0.02)
        stage.broker.faults = [for_ever(FIRST - 30, 429, "b")]
        stage.on(FIRST + 20)
        return stage.faults(sick=named(fleet, "b"))


# ---- owed: a renewal that was lost is tried again as one while the end is ahead, and the lookup that is owed follows the grant

def longest(margin: int, count: int, width: int, timeout: float, latency: float, late: float = 0.0) -> float:
    """The bound of docs/watch.md, in seconds."""
    quiet = -(-count // width) * (latency + late) + late
    return margin - timeout - 2 * (latency + late) - quiet - max(1.0, min(30.0, quiet / 15))


def silent_outage(program: Path, after: float, happens: Callable[[Stage], Any], less: float = 0.25) -> list[str]:
    """The broker is silent for a quarter of a second less than the bound, from right before the time of 40 tokens on; so many
    seconds later this happens."""
    fleet = of(60, tokens("e", 40, FIRST + PART))
    begins = FIRST - 60.5
    ends = begins + longest(60, 40, 4, 5, REPLY) - less
    with Stage(program, fleet, width=4) as stage:
        stage.broker.latency_of = lambda: REPLY if stage.now >= 60 else FAST
        stage.broker.faults = [Fault(ns(begins - REPLY), ns(ends), Act.SILENT)]
        stage.on(begins + after)
        happens(stage)
        stage.on(FIRST + 40)
        return stage.faults()


def owed_nothing(program: Path) -> list[str]:
    """Nothing else happens."""
    return silent_outage(program, 0, lambda stage: None)


def owed_after_a_kill(program: Path) -> list[str]:
    """Killed in an outage, with its ends kept."""
    return silent_outage(program, 20, Stage.restart)


def owed_after_reload(program: Path) -> list[str]:
    """FILE, which says the same, is read anew in an outage."""
    return silent_outage(program, 0.1, lambda stage: stage.ask("reload"))


# ---- never: a token that never ends is not handed back as one that has ended

def never_over_children(program: Path) -> list[str]:
    """A token that never ends, and three children of it; killed, with its ends kept."""
    root = Entry("root", left=10**6, step=600)
    fleet = of(60, (root,), tokens("c", 3, FIRST + PART, 600, parent="root"))
    with Stage(program, fleet, real={"root": {"is_endless": True}}) as stage:
        stage.on(10)
        stage.restart()
        stage.on(FIRST + 20)
        return stage.faults()


# ---- last try: an entry at its top is asked once more with half its margin left

def last_try_after_a_short_period(program: Path) -> list[str]:
    """An operator shortens the period of four tokens, of which a longer one was asked for all along, to about the margin."""
    fleet = of(60, tokens("p", 4, FIRST + PART))
    with Stage(program, fleet, real={name: {"grants": 600} for name in fleet.names}) as stage:
        stage.on(FIRST + 300)
        for row in stage.broker.vault.rows.values():
            row.grants = 60
        stage.on(FIRST + 3600)
        return stage.faults()


def last_try_after_a_ceiling(program: Path) -> list[str]:
    """A token and its three children. It comes to its ceiling, and an operator lifts that while 45 seconds are left."""
    ceiling = FIRST + 900 + PART
    fleet = of(60, (Entry("top", left=FIRST + PART, step=3600),), tokens("c", 3, FIRST + 3000 + PART, 3600, parent="top"))
    with Stage(program, fleet, real={"top": {"ceiling": ns(ceiling), "grants": 600}}) as stage:
        stage.on(ceiling - 45)
        stage.broker.vault.named("top").ceiling = None
        stage.on(FIRST + 3600)
        return stage.faults()


# ---- changed: what is known of an entry, and its request, are kept over a change of the inventory

ADDED = Entry("x", left=8000, step=3600)


Change = Callable[[int], Iterable[str]]
"""What a client asks for in that second, if anything."""


def served(program: Path, count: int, width: int, margin: int, reply: float, left: int, change: Change) -> list[str]:
    """Tokens that end after so many seconds, at a broker whose replies take so many; the time-out is ten. Each second a client asks for
    a change, if any."""
    fleet = of(margin, tokens("e", count, left, 3600))
    with Stage(program, fleet, width=width, timeout=10) as stage:
        stage.broker.faults = [Fault(0, NEVER, Act.SLOW, picks=beginning_with("e"), seconds=reply)]
        stage.broker.vault.add(ADDED.row(None))
        for second in range(left + 2):
            stage.on(second)
            if words := tuple(change(second)):
                stage.client(*words)
        stage.on(left + 2)
        return stage.faults()


def changed_by_reload(program: Path) -> list[str]:
    """Each second a client has FILE read anew, in which nothing has changed. Replies take six seconds."""
    return served(program, 12, 8, 40, 6, 60, lambda second: ["reload"])


def changed_by_add_and_drop(program: Path) -> list[str]:
    """One more token comes and goes, a change each second, once all others were looked up."""
    def change(second: int) -> list[str]:
        return [] if second < 13 else ["drop", "x"] if second % 2 else ["add", ADDED.table()]
    return served(program, 12, 8, 40, 6, 60, change)


def changed_amid_a_round(program: Path) -> list[str]:
    """26 tokens over two lanes, at a little over three seconds a reply, and FILE is read anew every three seconds while they are renewed."""
    return served(program, 26, 2, 60, 3.1, 110, lambda second: ["reload"] if second >= 48 and second % 3 == 1 else [])


KEPT: tuple[Case, ...] = (
    along_behind_busy, along_behind_revoked, along_behind_lookups, along_behind_a_jump, busy_for_one, busy_for_many, owed_nothing,
    owed_after_a_kill, owed_after_reload, never_over_children, last_try_after_a_short_period, last_try_after_a_ceiling,
    changed_by_reload, changed_by_add_and_drop, changed_amid_a_round,
)
NOT_YET: tuple[Case, ...] = ()
