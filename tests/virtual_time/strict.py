"""What has to hold besides where each reply is a true one or none, and each step is longer than twice the margin: nobody is renewed before
its time, and nobody is forgotten. It is seen at the broker, in the log and in the file of the ends."""

from __future__ import annotations

from .clock import NANOSECONDS, ns
from .machine import Machine
from .vault import Asked

TICK = ns(0.05)
"""By how much later than it may an agent asks whose machine wakes up in time."""
LONG, LONGER = 30, 300
"""Seconds between two tries, while two margins or less are left, and while more are."""


class Strict:
    """Watches the world of a stage. `faults`: what went wrong, a line each."""

    def __init__(self, stage: Machine, others: frozenset[str] = frozenset()) -> None:
        """`others`: entries of which nothing is said, since they are refused, or do not stay what they are."""
        self._stage, self._margin, self._others = stage, ns(stage.margin), others
        self.faults: list[str] = []
        self._lines = self._asked = self._reads = 0
        """What of the log, of the requests, and of the file of the ends was judged."""
        self._told: set[str] = set()
        """Those that were told an end which the file may not have yet: it is written once a second at most."""
        self._in_round: set[str] = set()
        self._failed: dict[str, int] = {}
        """Since when each has failed that was not granted or looked up since."""
        self._unpressed: set[str] = set()
        """Those of them that failed before their time, and that no round asked."""
        self._is_away, self._lost_at = False, 0
        """Whether the broker counts as away, and when a request was last lost."""
        self._asked_at: dict[str, int] = {}
        """When each was last asked."""
        self._quiet_since: int | None = 0
        """Since when the agent is awake, and no request of it is out."""
        stage.world.watchers.append(self.watch)

    def watch(self) -> None:
        """Judges what is new."""
        stage = self._stage
        self._hear_log()
        if self._reads < stage.judge.reads:
            self._reads = stage.judge.reads
            self._told.clear()
        if self._quiet_since is not None and stage.agent.is_awake:
            self._nobody_is_forgotten(self._quiet_since)
        new = stage.broker.vault.asked[self._asked:]
        self._asked += len(new)
        asked = [one for one in new if one.by == stage.name]
        for one in asked:
            self._nobody_is_early(one)
            self._asked_at[one.name] = one.moment
        if stage.broker.out or not stage.agent.is_awake:
            self._quiet_since = None
        elif asked or self._quiet_since is None:
            self._quiet_since = stage.world.now

    def _tell(self, fault: str) -> None:
        whose = f"{self._stage.name}: " if self._stage.name else ""
        self.faults.append(f"at {self._stage.now:.3f}: {whose}{fault}")

    def _hear_log(self) -> None:
        lines = self._stage.agent.lines[self._lines:]
        self._lines += len(lines)
        for line in lines:
            match line.event:
                case "wake":
                    self._in_round |= set(line.words[1:])
                case "lost":
                    self._lose(line.words[0], line.moment)
                case "away" | "back":
                    self._is_away = line.event == "away"
                case "entry" | "told" | "ahead":
                    self._failed.pop(line.words[0], None)
                    self._told.add(line.words[0])
                    if line.event == "told":
                        self._in_round.discard(line.words[0])

    def _lose(self, name: str, moment: int) -> None:
        self._failed[name] = self._lost_at = moment
        end = self._stage.judge.believed.get(name)
        if end is not None and moment < self._its_time(end) and name not in self._in_round:
            self._unpressed.add(name)
        else:
            self._unpressed.discard(name)

    def _nobody_is_early(self, one: Asked) -> None:
        end = self._stage.judge.believed.get(one.name)
        if not one.renews or end is None or one.name in self._others | self._told | self._in_round | set(self._failed):
            return
        early = end - self._margin - self._stage.clocks.elapsed(one.moment)
        if early > 0:
            self._tell(f"{one.name} is renewed {early / NANOSECONDS:.3f} s before its time")

    def _nobody_is_forgotten(self, quiet_since: int) -> None:
        """No request was out since then: whose time has come, or who may be tried again, has waited no longer than it takes to wake up."""
        now, clocks = self._stage.world.now, self._stage.clocks
        for name, end in self._stage.judge.believed.items():
            if end > clocks.elapsed(now) and name not in self._others | self._told:
                waited = now - max(quiet_since, self._due(name, end))
                if waited > TICK + 2 * self._stage.late:
                    self._tell(f"{name} waits for {waited / NANOSECONDS:.3f} s, and nobody is asked")

    def _its_time(self, end: int) -> int:
        """The time of an entry with that end, as a moment of the world."""
        clocks = self._stage.clocks
        return clocks.booted + end - self._margin - clocks.elapsed(clocks.booted)

    def _due(self, name: str, end: int) -> int:
        """The moment from which it has to be asked where nobody else is: its time, or a second behind a request that was shortly before that.
        (What is left counts in whole seconds. While the broker is away, all that failed share one pause, which is no longer than that of
        any of them whose time had come, or whom a round asks.)"""
        failed = self._failed.get(name)
        if failed is None or self._is_away and name in self._unpressed:
            return max(self._its_time(end), self._asked_at.get(name, 0) + NANOSECONDS)
        left = end - self._stage.clocks.elapsed(failed)
        longest = LONG if left <= 2 * self._margin else LONGER
        since = max(failed, self._lost_at) if self._is_away else failed
        return since + max(NANOSECONDS, min(ns(longest), left // 16)) + NANOSECONDS
