"""Bad hours: outages ten milliseconds shorter than docs/watch.md says may be survived, at moments that are chosen against the agent, with
more trouble in them; parts of a fleet that are silent for good; and a broker that does anything."""

from __future__ import annotations

import random
from dataclasses import replace
from pathlib import Path

from bad_hours import SECOND, START, Hang, Manner, Storm, hangs, storms
from troubles import Incident, What

from .clock import MILLISECOND, NEVER, ns
from .faults import Act, Fault, about
from .fleet import FAR, Entry, Fleet
from .ledger import Ledger
from .machine import TOLD
from .stage import Stage
from .strict import Strict
from .vault import Request

MINUTE = 60
MANNERS = {Manner.SILENT: Act.SILENT, Manner.CLOSED: Act.CLOSED, Manner.UNAVAILABLE: Act.STATUS}


def moment(millis: int) -> int:
    """That moment of a plot, as one of a world."""
    return (millis - START) * MILLISECOND


def staged(program: Path, plot: Storm | Hang) -> Stage:
    """The stage of a storm or a hang."""
    entries = tuple(Entry(name, left=(end - START) / SECOND, step=plot.step, need=FAR) for name, end in plot.ends.items())
    return Stage(program, Fleet(entries, plot.margin), width=plot.width, timeout=plot.timeout, latency=plot.reply / SECOND,
                 late=plot.late / SECOND)


def play_storm(program: Path, seed: int) -> list[str]:
    """An outage as long as may be: nothing is lost."""
    return play_served(program, next(storms(random.Random(seed), 1)))


def play_served(program: Path, storm: Storm) -> list[str]:
    """What goes wrong where nothing is to be lost but what is revoked or dropped."""
    with staged(program, storm) as stage:
        strict = Strict(stage, storm.trouble.touched)
        since, until = moment(storm.begins - storm.reply), moment(storm.begins + storm.lasts)
        stage.broker.faults = [
            Fault(since, until, MANNERS[storm.manner], 503), Fault(since, NEVER, Act.STATUS, 404, about(*storm.trouble.revoked))]
        changer = Changer(stage, 4 * storm.margin)
        stage.world.run(since)
        stage.broker.vault.quota = storm.trouble.quota
        for incident in storm.trouble.incidents:
            stage.world.run(moment(storm.moment(incident)))
            changer.happen(incident)
        stage.world.run(until + 3 * ns(storm.margin))
        return stage.faults(sick=storm.trouble.revoked) + strict.faults


class Changer:
    """Lets happen what happens in an outage. What is new ends `left` seconds and a step after it came to be, and a minute more."""

    def __init__(self, stage: Stage, left: int) -> None:
        self._stage, self._left, self._ledger = stage, left, Ledger(stage)

    def happen(self, incident: Incident) -> None:
        self._stage.tell(f"{incident.what.value}: {incident.name}")
        match incident.what:
            case What.BEGIN:
                self._stage.clocks.wall_ahead += ns(3)
            case What.RELOAD:
                self._ledger.reload()
            case What.EDIT:
                self._ledger.edit(lambda fleet: fleet.changed(incident.name, step=fleet.get(incident.name).step + 7))
                self._ledger.reload()
            case What.ADD:
                self._ledger.add(self._new(incident.name))
            case What.DROP:
                self._ledger.drop(incident.name)
            case What.REPLACE:
                given = replace(self._new(incident.name), credential=f"s.{incident.name}.new")
                self._ledger.replace(incident.name, self._stage.broker.vault.add(given.row(None, is_spare=True)))

    def _new(self, name: str) -> Entry:
        step = self._stage.fleet.entries[0].step
        return Entry(name, left=self._stage.now + self._left + step + MINUTE, step=step)


def hung(program: Path, seed: int, is_crowded: bool) -> tuple[list[str], list[str]]:
    """Requests about some entries are silent for good, as many as there are lanes or more where they are crowded, and fewer else. What went
    wrong, but for the others that are lost, which come second."""
    hang = next(hangs(random.Random(seed), 1, is_crowded))
    with staged(program, hang) as stage:
        strict = Strict(stage)
        stage.broker.faults = [Fault(moment(hang.begins), NEVER, Act.SILENT, picks=about(*hang.hung))]
        stage.world.run(moment(hang.begins + 3 * hang.margin * SECOND))
        lost = [name for name in stage.lost() if name not in hang.hung]
        return stage.faults(sick=stage.fleet.names) + strict.faults, lost


def play_hang(program: Path, seed: int) -> list[str]:
    """Fewer are silent than there are lanes: nobody else is lost."""
    found, lost = hung(program, seed, False)
    return found + ([f"lost {len(lost)}: {' '.join(lost)}"] if lost else [])


def play_crowd(program: Path, seed: int) -> list[str]:
    """As many are silent as there are lanes, or more: others may be lost, which is told and no fault."""
    found, lost = hung(program, seed, True)
    for told in TOLD:
        told(f"lost {len(lost)} others: {' '.join(lost) or 'nobody'}")
    return found


def play_chaos(program: Path, seed: int) -> list[str]:
    """Replies are lost, refused, put off and make no sense, and the wall jumps: what is asked, and what is believed, is as it must be."""
    chance = random.Random(seed)
    margin = chance.choice((4, 20, 60))
    step = chance.randint(margin + 1, 8 * margin + 10)
    fleet = Fleet(tuple(Entry(f"e{place}", left=chance.randint(1, 3 * step), step=step) for place in range(chance.randint(1, 12))), margin)
    rate, slow = chance.choice((0.0, 0.2, 0.6)), chance.choice((0.001, 0.5, 2.5))

    def picked(_request: Request, _name: str) -> bool:
        return chance.random() < rate / len(kinds)
    acts = (Act.SILENT, Act.CLOSED, Act.GARBLED, Act.DROPPED, Act.DRIPS)
    kinds = [*((act, 0) for act in acts), *((Act.STATUS, status) for status in (400, 403, 429, 503))]
    with Stage(program, fleet, width=chance.randint(1, 8), timeout=1) as stage:
        stage.broker.latency_of = lambda: chance.uniform(0, slow)
        stage.broker.tells_date = chance.random() < 0.5
        stage.broker.faults = [Fault(0, NEVER, act, status, picked) for act, status in kinds]
        for _ in range(5):
            stage.on(stage.now + chance.uniform(1, 3) * step)
            stage.clocks.wall_ahead += round(chance.uniform(-5, 5) * SECOND) * MILLISECOND
        return stage.faults(sick=fleet.names)
