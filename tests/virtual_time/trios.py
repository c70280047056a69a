"""Random worlds of three agents, one in front and two behind it. Again and again something is wrong with all but one of them, whichever
that is; the broker is away for as long as that one survives by its own margin; and FILE is changed on each machine. Nothing is lost, and
while the one in front is well those behind renew nothing. The same seed makes the same world."""

from __future__ import annotations

import random
from collections.abc import Callable
from dataclasses import dataclass
from pathlib import Path

from .agent import Client
from .clock import NANOSECONDS, NEVER, ns
from .faults import Act, Fault
from .fleet import FAR, Entry, Fleet
from .machine import INVENTORY, Machine
from .machines import Machines
from .plots import SLACK, leases_of, longest, tokens_of
from .vault import Kind

SPARE = 60
"""Seconds that a new entry has besides its step."""
PAUSE = 300
"""For so long an agent may pause that takes all its entries for lost."""


@dataclass(frozen=True)
class Plot:
    """What a world of three begins with."""

    fleet: Fleet
    width: int
    timeout: int
    latency: float
    late: float
    hours: float

    def bearable(self, margin: float) -> float:
        """The longest outage that an agent with that margin survives while everything may be looked up besides."""
        count = sum(1 if entry.step >= 3 * self.fleet.margin else 2 for entry in self.fleet.entries) + 2
        return longest(margin, 2 * count, self.width, self.timeout, self.latency, self.late) - SLACK


def plot(chance: random.Random) -> Plot:
    """A random beginning."""
    margin = chance.choice((40, 40, 60, 60, 120))
    timeout = chance.choice([seconds for seconds in (1, 2, 3, 5) if 8 * seconds <= margin])
    entries = tokens_of(chance, margin)
    entries += leases_of(chance, margin, entries)
    return Plot(Fleet(tuple(entries), margin), chance.choice((4, 8, 16)), timeout, chance.choice((0.0, 0.002, 0.02, 0.1)),
                chance.choice((0.0, 0.0, 0.05)), chance.uniform(0.4, 0.8))


class Trouble:
    """What may be wrong with one machine for so many seconds; it is mended afterwards."""

    def __init__(self, machine: Machine, plotted: Plot, chance: random.Random) -> None:
        self.machine, self._plot, self._chance = machine, plotted, chance

    def begin(self, length: float) -> None:
        """One of them."""
        machine, chance = self.machine, self._chance
        cut = chance.choice((Act.SILENT, Act.CLOSED, Act.DROPPED, Act.GARBLED, Act.STATUS))
        status = chance.choice((403, 429, 500, 503))
        kinds: tuple[tuple[str, Callable[[], object]], ...] = (
            ("is killed", machine.agent.kill), ("is killed", machine.agent.kill), ("is booted anew", self._boot),
            (f"is stopped for {length:.0f}", lambda: machine.agent.stand_still(length)),
            (f"is suspended for {length:.0f}", lambda: machine.agent.suspend(length)),
            (f"is cut off: {cut.name} {status}", lambda: self._cut(cut, status)),
            (f"is cut off: {cut.name} {status}", lambda: self._cut(cut, status)), ("has no proxy", machine.broker.leave),
            ("is slow", self._slow), ("has a disk that stalls", lambda: machine.agent.disk_stalls(length)),
            ("has a disk that is full", lambda: machine.agent.disk_fails(28)), ("is killed at some call", self._killed_soon),
            ("has a clock that is wrong", self._jump), ("has a bad FILE", self._bad_file))
        name, happens = chance.choice(kinds)
        machine.tell(name)
        happens()

    def _boot(self) -> None:
        self.machine.agent.kill()
        self.machine.agent.new_boot()

    def _cut(self, act: Act, status: int) -> None:
        self.machine.broker.faults = [Fault(self.machine.world.now, NEVER, act, status)]

    def _slow(self) -> None:
        self.machine.broker.latency = self._chance.uniform(0.3, 1.5) * self._plot.timeout

    def _killed_soon(self) -> None:
        self.machine.agent.kill_at_call(self._chance.randint(1, 60))

    def _jump(self) -> None:
        self.machine.clocks.wall_ahead += ns(self._chance.uniform(-4000, 4000))

    def _bad_file(self) -> None:
        self.machine.write(INVENTORY, "margin = oh no\n")
        if self._chance.random() < 0.5:
            self.machine.agent.kill()
            self.machine.start()

    def mend(self) -> None:
        """All is well on it again."""
        machine = self.machine
        machine.write(INVENTORY, machine.fleet.text())
        machine.broker.faults, machine.broker.latency = [], self._plot.latency
        machine.broker.come_back()
        if not machine.agent.is_up:
            machine.start()
        else:
            machine.agent.disk_fails(0)
            machine.agent.kill_at_call(0)
            machine.client("reload")


class Actor:
    """Lets one thing after another happen in a world."""

    def __init__(self, three: Machines, plotted: Plot, chance: random.Random) -> None:
        self._three, self._plot, self._chance = three, plotted, chance
        self._troubles = [Trouble(machine, plotted, chance) for machine in three.of.values()]
        self._well = chance.choice(self._troubles).machine
        """Whose agent is well for now."""
        self._made = 0
        self.sick: set[str] = set()
        """Entries that were dropped."""

    def _go(self, seconds: float) -> None:
        self._three.on(self._three.now + seconds)

    def happen(self) -> None:
        """Something is wrong with all but one; then all is well for a while, and now and then for so long that each of them is back."""
        chance, margin, well = self._chance, self._plot.fleet.margin, self._well
        length = chance.uniform(0.5, 6) * margin
        for trouble in self._troubles:
            if trouble.machine is not well and chance.random() < 0.8:
                trouble.begin(length)
        end = self._three.now + length
        self._go(chance.uniform(0, length))
        chance.choice((self._outage, self._outage, self._change, self._change, lambda _machine: None))(well)
        self._three.on(max(end, self._three.now))
        well.tell("all are well again")
        for trouble in self._troubles:
            if trouble.machine is not well:
                trouble.mend()
        self._go(margin)
        if chance.random() < 0.4:
            self._calm()
            self._well = chance.choice(self._troubles).machine

    def _calm(self) -> None:
        """As soon as the one in front is back for sure, those behind leave everything to it."""
        margin = self._plot.fleet.margin
        self._go(PAUSE + margin)
        since = self._three.now
        self._go(self._chance.uniform(0, 3) * margin)
        self._three.leave(since)

    def _outage(self, well: Machine) -> None:
        """The broker is away for all, for as long as the one that is well survives."""
        most = self._plot.bearable(well.margin)
        length = most if self._chance.random() < 0.5 else self._chance.uniform(0.2, max(most, 0.2))
        if length <= 0.2:
            return
        act, status = self._chance.choice((Act.SILENT, Act.CLOSED, Act.STATUS)), self._chance.choice((429, 500, 503))
        well.tell(f"the broker is away for {length:.3f}: {act.name} {status}")
        now = self._three.world.now
        for machine in self._three.of.values():
            machine.broker.faults = [Fault(now, now + ns(length), act, status), *machine.broker.faults]
        self._go(length + self._plot.timeout)
        self._go(well.margin)

    # ---- FILE

    def _change(self, well: Machine) -> None:
        """FILE is brought to each machine, and read there."""
        self._chance.choice((self._need, self._add, self._drop))()
        clients = dict[str, Client]()
        for machine in self._three.of.values():
            if machine.agent.is_up:
                clients[machine.name] = machine.client("reload")
            self._go(self._chance.choice((0.0, 0.0, 5.0)))
        self._three.world.run(self._three.world.now + ns(30), lambda: clients[well.name].is_done)
        self._three.equal(f"{well.name} reads FILE", ["ok"], clients[well.name].lines[:1])

    def _next(self) -> int:
        self._made += 1
        return self._made

    def _need(self) -> None:
        fleet = self._three.fleet
        name = self._chance.choice(fleet.names)
        self._three.write(fleet.changed(name, need=FAR + self._next()) if fleet.get(name).need else fleet)

    def _add(self) -> None:
        margin = self._plot.fleet.margin
        entry = Entry(f"a{self._next()}", Kind.TOKEN, left=self._three.now + 4 * margin + SPARE, step=4 * margin)
        self._three.vault.add(entry.row(None))
        self._three.write(self._three.fleet.with_entry(entry))

    def _drop(self) -> None:
        fleet = self._three.fleet
        leaves = [entry.name for entry in fleet.entries if not fleet.under(entry.name) and not entry.file]
        if len(fleet.entries) > 1 and leaves:
            name = self._chance.choice(leaves)
            self.sick.add(name)
            self._three.write(fleet.without(name))


def play_trio(program: Path, seed: int) -> list[str]:
    """Plays the world of that seed; what went wrong, a line each."""
    chance = random.Random(seed)
    plotted = plot(chance)
    with Machines(program, plotted.fleet, is_strict=False, width=plotted.width, timeout=plotted.timeout, latency=plotted.latency,
                  late=plotted.late) as three:
        three.front.tell(f"{len(plotted.fleet.entries)} entries, margins {[machine.margin for machine in three.of.values()]}, width "
                         f"{plotted.width}, time-out {plotted.timeout}, replies of {plotted.latency}, {plotted.late} late, "
                         f"{plotted.hours:.1f} hours")
        actor = Actor(three, plotted, chance)
        three.on(30)
        while three.now < plotted.hours * 3600 and not three.faults(sick=actor.sick):
            actor.happen()
        return three.faults(sick=actor.sick)
