"""Brokers that are sick in part, and what once lost entries on a good one: each request is out by itself, and costs nobody else
anything."""

from __future__ import annotations

import random
from pathlib import Path

from ..clock import NEVER, ns
from ..faults import Act, Fault, about, both, fault, renewals
from ..fleet import fleet, of, tokens
from ..stage import Stage
from ..vault import Request
from . import Case

HOUR = 3600


def those_asked_along_go_last(program: Path) -> list[str]:
    """An outage of 19 seconds where 38 are survived. After it ten entries come to be needed, one after the other, and each opens a round
    that asks along entries whose end is an hour away."""
    found = fleet(200, 3600, 60, lambda place: 600 if place < 100 else 3600)
    late = [f"e{place}" for place in range(90, 100)]
    need = found.get("e0").need
    for name in late:
        found = found.changed(name, need=0)
    with Stage(program, found, latency=0.5) as stage:
        stage.broker.faults = [fault(539.5, 558.5, Act.SILENT)]
        stage.on(559)
        for name in late:
            stage.client("need", name, str(need))
            stage.on(stage.now + 0.5)
            stage.fleet = stage.fleet.changed(name, need=need)
        stage.on(800)
        return stage.faults(quiet=True)


def half_of_all_requests_are_silent(program: Path) -> list[str]:
    """100 entries, eight requests at once, time-outs of 5 seconds, a margin of 60. (In hours one entry would have no luck with any of its
    tries.)"""
    found = []
    for seed in (1, 2):
        chance = random.Random(seed)
        with Stage(program, fleet(100, 600, 60, 600), latency=0.05) as stage:
            stage.broker.faults = [Fault(ns(100), NEVER, Act.SILENT, picks=lambda request, name: chance.random() < 0.5)]
            stage.on(HOUR / 2)
            found += stage.faults()
    return found


def some_entries_are_silent(program: Path) -> list[str]:
    """Half of 100 entries, and every eighth of 200: they end, and nobody else does."""
    found = []
    for entries, part in ((100, 2), (200, 8)):
        hung = [f"e{place}" for place in range(entries) if place % part == 0]
        with Stage(program, fleet(entries, 600, 60, 600), latency=0.05) as stage:
            stage.broker.faults = [Fault(ns(100), NEVER, Act.SILENT, picks=both(renewals, about(*hung)))]
            stage.on(1300)
            found += stage.faults(*hung)
    return found


def a_slow_reply_costs_its_own_lane(program: Path) -> list[str]:
    """4,096 entries at 50 ms a reply, of which one in a hundred takes a second: a round of eight at a time each 50 milliseconds, and what
    the slow ones add to each lane."""
    found = []
    for width in (8, 32):
        chance = random.Random(width)

        def is_slow(_request: Request, _name: str) -> bool:
            return chance.random() < 0.01
        with Stage(program, fleet(4096, 7200, 60, 7000), width=width, latency=0.05) as stage:
            stage.broker.faults = [Fault(0, NEVER, Act.SLOW, picks=is_slow, seconds=0.95)]
            stage.on(60)
            looked = [one.moment for one in stage.broker.vault.asked]
            stage.equal(f"width {width}: looked up", 4096, len(looked))
            stage.must(max(looked) < ns(4096 / width * 0.066 + 1.5), f"width {width}: it takes {max(looked)}")
            found += stage.faults()
    return found


def a_lane_that_is_never_free(program: Path) -> list[str]:
    """51 tokens over one lane, every three quarters of a second, with grants of 82 seconds: each is due again 22 seconds after its grant,
    and a turn of all takes 38, so the lane is never free. By their ends each has its turn in time, as long as none fails."""
    with Stage(program, fleet(51, 82, 60, 161.2), width=1, latency=0.75) as stage:
        stage.on(300)
        return stage.faults()


def a_busy_hour_beside_a_silent_part(program: Path) -> list[str]:
    """Three entries are silent for an hour, and three others hear 429, of 60 (m 60, K 8)."""
    groups = (tokens("s", 3, 600.9, 900), tokens("b", 3, 600.9, 900), tokens("h", 54, lambda place: 600.9 + place % 7, 900))
    sick = [entry.name for group in groups[:2] for entry in group]
    with Stage(program, of(60, *groups), latency=0.05) as stage:
        stage.broker.faults = [
            fault(500, 500 + HOUR, Act.SILENT, picks=about(*sick[:3])), fault(500, 500 + HOUR, status=429, picks=about(*sick[3:]))]
        stage.on(500 + HOUR)
        return stage.faults(sick=sick)


KEPT: tuple[Case, ...] = (
    those_asked_along_go_last, half_of_all_requests_are_silent, some_entries_are_silent, a_slow_reply_costs_its_own_lane,
    a_lane_that_is_never_free, a_busy_hour_beside_a_silent_part,
)
NOT_YET: tuple[Case, ...] = ()
