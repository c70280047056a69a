"""A world with several machines, whose agents serve one fleet at one broker: one in front, and those behind it."""

from __future__ import annotations

import hashlib
from collections.abc import Iterable
from pathlib import Path
from types import TracebackType
from typing import Any

from .clock import NANOSECONDS, ns
from .fleet import Fleet
from .machine import INVENTORY, Machine
from .stage import Verdict, folder, loss
from .strict import Strict
from .vault import Asked, Vault
from .world import World

FRONT, SECOND, THIRD = "front", "second", "third"
NAMES = (FRONT, SECOND, THIRD)
"""That of the agent in front, and those of the ones behind it."""
BOOTED_APART = ns(777)
"""So long after one another the machines were booted: in whole seconds, which the file of the ends has."""


def part_of(name: str, most: int) -> int:
    """The part of a number of seconds that falls to an agent's name."""
    return int.from_bytes(hashlib.sha256(name.encode()).digest()[:8], "big") * (most + 1) >> 64


def margin_behind(margin: int, name: str) -> int:
    """The margin of an agent with that name behind one with that margin."""
    return margin - margin // 4 - part_of(name, margin // 4 - 1)


class Machines:
    """A broker, and a machine for each of the names. Moments are seconds of the world."""

    def __init__(self, program: Path, fleet: Fleet, *, names: Iterable[str] = NAMES, fronts: Iterable[str] = (FRONT,),
                 files: dict[str, Fleet] | None = None, odd: dict[str, dict[str, Any]] | None = None,
                 unjudged: dict[str, Iterable[str]] | None = None, is_strict: bool = True, **all_have: Any) -> None:
        """`fronts`: who is started without --behind. `files`: what FILE of some machines says in place of the fleet. `odd`: what is
        otherwise on some machines, in words of `Machine`; `all_have`: what all have. `unjudged`: entries of some agents of which their
        strict judges say nothing."""
        self._folder = folder()
        self.world, self.vault, self.fleet, self.fronts = World(), Vault(), fleet, tuple(fronts)
        fleet.load(self.vault)
        self.of: dict[str, Machine] = {}
        self.stricts: list[Strict] = []
        verdict = Verdict(self.world)
        self.must, self.equal, self._wrong = verdict.must, verdict.equal, verdict.wrong
        for name in names:
            its = (files or {}).get(name, fleet)
            self.of[name] = self._made(program, name, its, {**all_have, **(odd or {}).get(name, {})})
            if is_strict:
                self.stricts.append(Strict(self.of[name], frozenset((unjudged or {}).get(name, ()))))

    def _made(self, program: Path, name: str, its: Fleet, words: dict[str, Any]) -> Machine:
        """A machine of that name, which was booted at another moment than the others."""
        room = Path(self._folder.name) / name
        room.mkdir()
        is_behind = name not in self.fronts
        options = ("--behind", "--name", name) if is_behind else ()
        machine = Machine(self.world, self.vault, program, room, its, name=name, words=options, **words)
        machine.clocks.booted = -BOOTED_APART * len(self.of)
        for entry in its.entries:
            if entry.file is not None:
                machine.write(entry.file, entry.secret)
        if is_behind:
            machine.margin = margin_behind(its.margin, name)
            machine.judge.is_behind = True
        return machine

    def __enter__(self) -> Machines:
        for machine in self.of.values():
            machine.start()
            said = [line.words[0] for line in machine.agent.said("behind")]
            self.equal(f"{machine.name} says its margin", [] if machine.name in self.fronts else [str(machine.margin)], said)
        return self

    def __exit__(self, kind: type[BaseException] | None, error: BaseException | None, trace: TracebackType | None) -> None:
        for machine in self.of.values():
            machine.close()
        self.world.close()
        self._folder.cleanup()

    # ---- who is there

    @property
    def front(self) -> Machine:
        return self.of[FRONT]

    @property
    def behind(self) -> list[Machine]:
        return [machine for machine in self.of.values() if machine.name not in self.fronts]

    @property
    def least(self) -> int:
        """The least margin of those behind."""
        return min(machine.margin for machine in self.behind)

    # ---- what happens

    @property
    def now(self) -> float:
        return self.world.now / NANOSECONDS

    def on(self, until: float) -> None:
        """Goes on to that moment."""
        self.world.run(ns(until))

    def write(self, fleet: Fleet) -> None:
        """FILE is brought to each machine."""
        self.fleet = fleet
        for machine in self.of.values():
            machine.fleet = fleet
            machine.write(INVENTORY, fleet.text())

    # ---- what has to hold

    def renewals(self, name: str, since: float = 0.0, until: float = float("inf")) -> list[str]:
        """Of which entries that agent sent renewals between two moments."""
        return [one.name for one in self.vault.asked if one.renews and one.by == name and ns(since) <= one.moment < until * NANOSECONDS]

    def lookups(self, name: str, since: float = 0.0, until: float = float("inf")) -> list[str]:
        """Of which it sent lookups."""
        return [one.name for one in self.vault.asked if not one.renews and one.by == name and ns(since) <= one.moment < until * NANOSECONDS]

    def leave(self, since: float, until: float = float("inf")) -> None:
        """Those behind renew nothing between two moments."""
        for machine in self.behind:
            self.equal(f"{machine.name} renews between {since:.0f} and {min(until, self.now):.0f}", [],
                       self.renewals(machine.name, since, until))

    def step_in(self, since: float, until: float) -> None:
        """Between these moments each entry was renewed by those behind. Of those that were renewed after their look they say so, and not of
        those that a round asked along before that."""
        by = {name for machine in self.behind for name in self.renewals(machine.name, since, until)}
        self.equal("renewed by those behind", set(self.fleet.names), by)
        for machine in self.behind:
            said = {line.words[0] for line in machine.agent.said("steps-in") if ns(since) <= line.moment < ns(until)}
            after = self._renewed_from_its_look(machine, since, until, ns(2))
            self.equal(f"{machine.name} steps in, and does not say so", set(), after - said)
            about = self._renewed_from_its_look(machine, since, until, -ns(3))
            self.equal(f"{machine.name} says that it steps in, for what it asks along", set(), said - about)

    def _renewed_from_its_look(self, machine: Machine, since: float, until: float, later: int) -> set[str]:
        """What that agent renewed from the moment on at which it looks, or so much later: half way between the time in front and its own."""
        margins = ns(machine.fleet.margin + margin_behind(machine.fleet.margin, machine.name)) // 2
        return {one.name for one in self.vault.asked if one.renews and one.by == machine.name and ns(since) <= one.moment < ns(until)
                and one.moment >= self._believed(machine, one) - margins + later}

    def _believed(self, machine: Machine, one: Asked) -> int:
        """The end that its agent knew of an entry as it asked: as its log said it last; as it was, where it looked it up at a start."""
        told = [line for line in machine.agent.lines if line.moment < one.moment and line.words[:1] == (one.name,)
                and line.event in ("entry", "told", "ahead")]
        if told and told[-1].event != "entry":
            return told[-1].moment + ns(int(told[-1].words[1]))
        asked = told[-1].moment if told else 0
        granted = [end for row in self.vault.rows.values() if row.name == one.name for moment, end in row.renewals if moment < asked]
        return [*(ns(entry.left) for entry in self.fleet.entries if entry.name == one.name), *granted][-1]

    def faults(self, *lost: str, sick: Iterable[str] = ()) -> list[str]:
        """What went wrong. These entries are lost, and no others, but perhaps those that are sick."""
        judged = [fault for machine in self.of.values() for fault in machine.ill()]
        strict = [fault for one in self.stricts for fault in one.faults]
        gone = next(iter(self.of.values())).judge.lost(self.fleet)
        return [*self._wrong, *judged, *strict, *loss(gone, lost, sick)]
