"""Random worlds: one thing after another happens to an agent and its broker, each within what docs/watch.md and docs/running.md say is
survived. The same seed makes the same world."""

from __future__ import annotations

import random
from dataclasses import replace
from pathlib import Path

from .clock import NANOSECONDS, ns
from .faults import Act, Fault, Picks, about, both, everything, lookups, renewals
from .fleet import ALWAYS, FAR, Entry, Fleet
from .ledger import Ledger
from .plots import Plot, longest, plot, unseen
from .stage import Stage
from .vault import Row

SPARE = 60
"""Seconds that a new credential has besides its step."""
TRIES = 600
"""Those of one in a file, which may be tried again after five minutes."""


class Actor:
    """Lets one thing after another happen in a world."""

    def __init__(self, stage: Stage, plotted: Plot, chance: random.Random) -> None:
        self._stage, self._plot, self._chance = stage, plotted, chance
        self._ledger = Ledger(stage)
        self._made = 0
        self.sick: set[str] = set()
        """Entries of which nothing is to be said any more."""
        self.faults: list[str] = []
        self._waiting: list[tuple[Row, int, int]] = []
        """Credentials that stand in files and are not taken yet; in which run of the agent each was written, and behind how many lines."""
        stage.world.watchers.append(self._watch_files)

    def say(self, text: str) -> None:
        self._stage.tell(text)

    # ---- one thing

    def happen(self) -> None:
        """One thing happens; it is over when this returns, but for an outage that goes on."""
        self._chance.choices(
            (self.outage, self.troubled_outage, self.part, self.slow, self.killed, self.dead, self.suspended, self.jumped, self.changed,
             self.revoked, self.looked_at),
            (6, 5, 4, 2, 3, 2, 2, 2, 8, 0.3, 3))[0]()

    def gap(self) -> float:
        """How long nothing happens then."""
        return min(self._chance.uniform(1.5, 6) * self._plot.fleet.margin, 600)

    def _length(self, is_twice: bool, drips: bool = False) -> float:
        """How long something lasts that is to be survived; often as long as may be."""
        most = self._plot.bearable(is_twice, drips)
        return most if self._chance.random() < 0.4 else self._chance.uniform(0.2, max(most, 0.2))

    def _during(self, length: float, act: Act, status: int = 500, picks: Picks = everything) -> None:
        now = self._stage.world.now
        self._stage.broker.faults = [Fault(now, now + ns(length), act, status, picks)]

    def _absence(self, length: float) -> str:
        """The whole broker is away for so long; how."""
        how = self._chance.choice(("refused", "silent", "closed", "503", "429", "500", "403"))
        match how:
            case "refused":
                self._stage.away(self._stage.now, self._stage.now + length)
            case "silent":
                self._during(length, Act.SILENT)
            case "closed":
                self._during(length, Act.CLOSED)
            case _:
                self._during(length, Act.STATUS, int(how))
        return how

    def _go(self, seconds: float) -> None:
        self._stage.on(self._stage.now + seconds)

    def outage(self) -> None:
        length = self._length(False)
        if length > 0.2:
            self.say(f"{self._absence(length)} for {length:.3f}")
            self._go(length)

    def troubled_outage(self) -> None:
        """Something else happens in it."""
        length = self._length(True)
        if length <= 0.5:
            return
        self.say(f"{self._absence(length)} for {length:.3f}, and in it:")
        end = self._stage.now + length
        self._go(self._chance.uniform(0, length))
        self._chance.choice((self.killed, self.killed, self.changed, self.jumped))()
        self._stage.on(max(end, self._stage.now))

    def part(self) -> None:
        """Something is wrong with some requests."""
        length = self._length(False)
        if length <= 0.2:
            return
        one = self._chance.choice(self._stage.fleet.names)
        kinds: tuple[tuple[str, Act, int, Picks], ...] = (
            ("500 of one", Act.STATUS, 500, about(one)), ("400 of the renewals of one", Act.STATUS, 400, both(about(one), renewals)),
            ("500 of lookups", Act.STATUS, 500, lookups), ("403 of renewals", Act.STATUS, 403, renewals),
            ("silence about one", Act.SILENT, 0, about(one)), ("429 of one", Act.STATUS, 429, about(one)),
            ("renewals without a reply", Act.DROPPED, 0, renewals),
            ("drips of the renewals of one", Act.DRIPS, 0, both(about(one), renewals)), ("nonsense about one", Act.GARBLED, 0, about(one)))
        name, act, status, picks = self._chance.choice(kinds)
        if act is Act.DRIPS:
            length = min(length, self._plot.bearable(False, True))
        if length > 0.2:
            self.say(f"{name} ({one}) for {length:.3f}")
            self._during(length, act, status, picks)
            self._go(length)

    def slow(self) -> None:
        """Replies take long, and each wave of them is done with within the margin."""
        plotted, broker = self._plot, self._stage.broker
        latency = self._chance.uniform(0.1, 0.8) * plotted.timeout
        if longest(plotted.margin, 4 * len(plotted.fleet.entries), plotted.width, plotted.timeout, latency, plotted.late) < 2:
            return
        length = self._chance.uniform(1, 4) * plotted.fleet.margin
        self.say(f"replies take {latency:.3f} for {length:.3f}")
        broker.latency = latency
        self._go(length)
        broker.latency = plotted.latency

    def killed(self) -> None:
        """It is killed, at once or before some call, and started again."""
        if self._chance.random() < 0.5 and self._stage.agent.is_up:
            call = self._chance.randint(1, 12)
            self.say(f"killed before call {call}")
            self._stage.agent.kill_at_call(call)
            self._go(1.2)
        self._stage.agent.kill()
        self.say("killed")
        self._start()

    def _start(self) -> None:
        self._stage.start()
        self.faults += self._ledger.restarted()

    def dead(self) -> None:
        length = self._length(True)
        if length > 0.2:
            self.say(f"nobody runs for {length:.3f}")
            self._stage.agent.kill()
            self._go(length)
            self._start()

    def suspended(self) -> None:
        length = self._length(True) - unseen(self._plot.fleet.margin)
        if length > 0.2:
            self.say(f"suspended for {length:.3f}")
            self._stage.agent.suspend(length)
            self._go(length)

    def jumped(self) -> None:
        step = self._chance.choice((self._chance.uniform(-4000, 4000), self._chance.uniform(-5, 5)))
        self.say(f"the wall clock steps by {step:.3f}")
        self._stage.clocks.wall_ahead += ns(step)

    def revoked(self) -> None:
        row = self._stage.broker.vault.named(self._chance.choice(self._stage.fleet.names))
        self.say(f"{row.name} is revoked")
        row.revoked = self._stage.world.now

    def looked_at(self) -> None:
        """The ends that it shows are no later than the broker's."""
        shown = self._stage.shown()
        wrong = 0.0 if self._plot.tells_date else self._stage.clocks.wall_ahead / NANOSECONDS
        ends = {name: row["end"] - wrong for name, row in shown.items() if row["end"] is not None and row["end"] < ALWAYS}
        self._stage.judge.judge_status(ends, 3)

    # ---- changes

    def changed(self) -> None:
        """A client, an operator or a file changes something."""
        for _ in range(self._chance.choice((1, 1, 1, 2, 3))):
            self._chance.choice((
                self.need, self.need, self.add, self.drop, self.replace, self.reload, self.rotate, self.rotate, self.settle))()
            self._go(self._chance.choice((0.0, 0.3, 3.0)))

    def _next(self) -> int:
        self._made += 1
        return self._made

    def _lives(self, name: str) -> bool:
        """Whether it is well, and all over it: a need that it has then is to be kept."""
        return name not in self.sick and self._stage.broker.vault.named(name).ended(self._stage.world.now) is None

    def _leaf(self) -> Entry | None:
        """One with nothing under it that is well."""
        fleet = self._stage.fleet
        leaves = [entry for entry in fleet.entries if not fleet.under(entry.name) and self._lives(entry.name)]
        return self._chance.choice(leaves) if leaves else None

    def need(self) -> None:
        living = [entry.name for entry in self._stage.fleet.entries if self._lives(entry.name) and entry.need]
        if living:
            name, need = self._chance.choice(living), FAR + self._next()
            self.say(f"need {name} {need}")
            self._ledger.ask(lambda fleet: fleet.changed(name, need=need), "need", name, str(need))

    def add(self) -> None:
        margin = self._plot.fleet.margin
        entry = Entry(f"a{self._next()}", left=self._stage.now + 4 * margin + SPARE, step=4 * margin)
        self.say(f"add {entry.name}")
        self._ledger.add(entry)

    def drop(self) -> None:
        entry = self._leaf()
        if entry is not None and len(self._stage.fleet.entries) > 1:
            self.say(f"drop {entry.name}")
            self.sick.add(entry.name)
            self._ledger.drop(entry.name)

    def replace(self) -> None:
        entry = self._leaf()
        if entry is None or entry.file:
            return
        name, secret = entry.name, f"{entry.secret}.{self._next()}"
        self.say(f"replace {name} {secret}")
        self._ledger.replace(name, self._spare(entry, secret, SPARE), unsure=lambda: self.sick.add(name))

    def _spare(self, entry: Entry, secret: str, more: int) -> Row:
        """Another credential of an entry, which the agent does not have yet."""
        vault = self._stage.broker.vault
        given = replace(entry, credential=secret, left=self._stage.now + entry.step + more)
        return vault.add(given.row(vault.named(entry.name).parent, is_spare=True))

    def reload(self) -> None:
        """FILE is read anew, with another need in it, or as it is."""
        ledger = self._ledger
        known = [name for name in ledger.file.names if name in self._stage.fleet.names and self._lives(name) and ledger.file.get(name).need]
        if known and self._chance.random() < 0.6:
            name, need = self._chance.choice(known), FAR + self._next()
            self.say(f"FILE says {need} of {name}")
            ledger.edit(lambda fleet: fleet.changed(name, need=need))
        self.say("reload")
        ledger.reload()

    def rotate(self) -> None:
        """A file holds another credential, and the old one is revoked a minute after that is taken."""
        names = [name for name in sorted(self._plot.files) if name in self._stage.fleet.names and self._lives(name)]
        if not names:
            return
        entry, agent = self._stage.fleet.get(self._chance.choice(names)), self._stage.agent
        secret = f"s.{entry.name}.{self._next()}"
        row = self._spare(entry, secret, TRIES)
        self.say(f"the file of {entry.name} holds {secret}")
        assert entry.file is not None
        self._stage.write(entry.file, secret)
        self._waiting = [one for one in self._waiting if one[0].name != entry.name] + [(row, agent.run, len(agent.lines))]

    def _watch_files(self) -> None:
        """What a file holds is taken where the log says so, or a later run asks with it."""
        agent, vault = self._stage.agent, self._stage.broker.vault
        for row, run, since in list(self._waiting):
            is_said = any(line.event == "replace" and line.words[0] == row.name for line in agent.lines[since:] if line.run == run)
            if is_said or any(one.credential == row.credential and one.run > run for one in vault.asked[-64:]):
                self._waiting.remove((row, run, since))
                self._take(row)

    def _take(self, row: Row) -> None:
        old = self._stage.broker.vault.named(row.name)
        row.is_spare = False

        def revoke() -> None:
            old.revoked = self._stage.world.now
        self._stage.world.later(ns(SPARE), revoke)

    def settle(self) -> None:
        self.say(f"settle: {self._ledger.settle()}")

    # ---- the end

    def finish(self) -> list[str]:
        """A last restart, and what went wrong in all."""
        self.say("the last restart")
        self._stage.agent.kill()
        self._start()
        self._go(3 * self._plot.fleet.margin)
        self.looked_at()
        return self.faults + self._stage.faults(sick=self.sick) + self._old_credentials() + self._false_warnings()

    def _old_credentials(self) -> list[str]:
        """After a restart no credential is sent in whose place another one was acknowledged."""
        old = {entry.secret: run for entry, run in self._ledger.replaced if entry.name not in self.sick}
        return [f"at {one.moment / NANOSECONDS:.3f}: {one.name} is asked with {one.credential}, which was replaced before a restart"
                for one in self._stage.broker.vault.asked if one.run > old.get(one.credential, one.run)]

    def _false_warnings(self) -> list[str]:
        """That an entry is short is said of none that could be kept."""
        if self._plot.real:
            return []
        limited = {row.name for row in self._stage.broker.vault.rows.values() if any(one.revoked is not None for one in row.line())}
        shorts = self._stage.agent.said("short", level="warning")
        return [f"a warning: {line}" for line in shorts if line.words[0] not in limited | self.sick]


def play(program: Path, seed: int) -> list[str]:
    """Plays the world of that seed; what went wrong, a line each."""
    chance = random.Random(seed)
    plotted = plot(chance)
    stage = Stage(program, plotted.fleet, width=plotted.width, timeout=plotted.timeout, latency=plotted.latency, late=plotted.late,
                  real=dict(plotted.real))
    stage.broker.tells_date = plotted.tells_date
    for name in plotted.files:
        stage.write(f"{name}.token", plotted.fleet.get(name).secret)
    stage.tell(f"{len(plotted.fleet.entries)} entries, margin {plotted.margin:.0f}, width {plotted.width}, time-out {plotted.timeout}, "
               f"replies of {plotted.latency}, {plotted.late} late, {plotted.hours:.1f} hours")
    with stage:
        actor = Actor(stage, plotted, chance)
        until = plotted.hours * 3600
        while stage.now < until and not actor.faults and not stage.judge.faults:
            stage.on(stage.now + actor.gap())
            actor.happen()
        return actor.finish()
