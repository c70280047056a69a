"""What has to hold in every world, seen at the broker, in the file of the ends and in the log."""

from __future__ import annotations

from pathlib import Path
from stat import S_ISREG

from .agent import Agent
from .clock import NANOSECONDS, ns
from .fleet import Fleet
from .listening import Broker
from .vault import Asked, Row, second_of

APART = NANOSECONDS - 2_000_000
"""Two requests of an entry are a second apart; its clock shows whole milliseconds."""


class Judge:
    """Watches a world. `faults`: what went wrong, a line each."""

    def __init__(self, broker: Broker, agent: Agent, ends: Path, width: int) -> None:
        self._broker, self._agent, self._ends, self._width = broker, agent, ends, width
        self.faults: list[str] = []
        self.believed: dict[str, int] = {}
        """The ends in the file, on the clock that never steps."""
        self.reads = 0
        """How often the file was read anew."""
        self.is_behind = self.has_files = False
        """Whether its agent stands behind another: then it looks entries up on lanes of its own besides, whatever else it asks; and whether
        it has files of credentials, which are looked up on such lanes, too."""
        self._judged = self._twice = 0
        self._last: dict[str, Asked] = {}
        self._stamp: tuple[int, int] = (0, 0)
        self._crowded = False
        broker.world.watchers.append(self.watch)

    def watch(self) -> None:
        """Judges what is new."""
        self._judge_requests()
        for name, are_renewals in self._broker.twice[self._twice:]:
            if are_renewals or not self.is_behind:
                self._tell(f"{name} is asked while it is being asked")
        self._twice = len(self._broker.twice)
        if self._broker.out > self._most_out and not self._crowded:
            self._crowded = True
            self._tell(f"{self._broker.out} requests are out, and {self._most_out} may be")
        self._judge_ends()

    @property
    def _most_out(self) -> int:
        """How many requests may be out: as many as its lanes, and one for a credential of a client."""
        return (1 + self.is_behind + self.has_files) * self._width + 1

    def _tell(self, fault: str) -> None:
        whose = f"{self._agent.name}: " if self._agent.name else ""
        self.faults.append(f"at {self._broker.world.now / NANOSECONDS:.3f}: {whose}{fault}")

    def _judge_requests(self) -> None:
        asked = self._broker.vault.asked
        for one in asked[self._judged:]:
            if one.by != self._agent.name:
                continue
            before = self._last.get(one.credential)
            self._last[one.credential] = one
            if before is not None and one.moment - before.moment < APART and not self._may_follow(before, one):
                self._tell(f"{one.name or one.credential} is asked {(one.moment - before.moment) / NANOSECONDS:.3f} s after it was asked")
        self._judged = len(asked)

    def _may_follow(self, before: Asked, one: Asked) -> bool:
        """Whether it is the renewal right behind its lookup, or what asks knows of no request before it: it has been started again, or the
        credential was looked up before it was taken."""
        if one.renews and not before.renews or self.is_behind and not (one.renews and before.renews):
            return True
        taken = self._agent.said("add", one.name) + self._agent.said("replace", one.name)
        return one.run != before.run or any(before.moment <= line.moment <= one.moment for line in taken)

    # ---- ends

    def _judge_ends(self) -> None:
        try:
            seen = self._ends.stat()
        except OSError:
            return
        if not S_ISREG(seen.st_mode):
            return
        stamp = seen.st_mtime_ns, seen.st_ino
        if stamp == self._stamp:
            return
        self._stamp = stamp
        self.reads += 1
        clocks, latest = self._agent.clocks, self._broker.vault.latest_ends()
        rows = [line.split() for line in self._ends.read_text(errors="replace").splitlines()]
        self.believed = {row[0]: ns(int(row[1])) for row in rows if len(row) == 5 and row[0] in latest and row[1].isdigit()}
        for name, end in self.believed.items():
            real = clocks.elapsed(latest[name])
            if end > real + clocks.lag(latest[name]):
                self._tell(f"the file of the ends has {name} end at {end / NANOSECONDS:.0f}, and the broker at {real / NANOSECONDS:.3f}")

    def judge_status(self, ends: dict[str, float], slack: float) -> None:
        """Ends that the agent shows, in seconds since 1970, are no later than the broker's. `slack`: by how much its clock may be wrong."""
        latest = self._broker.vault.latest_ends()
        for name, end in ends.items():
            real = second_of(latest[name])
            if end > real + slack:
                self._tell(f"status shows the end of {name} at {end}, and the broker {real}")

    # ---- lives

    def lost(self, fleet: Fleet) -> list[str]:
        """The entries that are needed and have ended, although renewals could have led them on: neither revoked, nor at a ceiling, nor
        not to be renewed, they or one over them."""
        now, rows, lost = self._broker.world.now, self._broker.vault.by_name(), []
        for name, need in needed(fleet, rows).items():
            row = rows[name]
            ended = row.ended(now)
            if ended is not None and second_of(ended) < need and ended < min(row.reach(), now):
                lost.append(name)
        return lost


def needed(fleet: Fleet, rows: dict[str, Row]) -> dict[str, int]:
    """Until when each is needed, in seconds since 1970: by itself, or by one that the broker has under it, for as long as that can live."""
    needs = {entry.name: entry.need for entry in fleet.entries}
    for entry in reversed(fleet.entries):
        row = rows[entry.name]
        if row.parent is not None and row.parent.name in needs:
            needs[row.parent.name] = max(needs[row.parent.name], min(needs[entry.name], second_of(row.own_reach())))
    return needs
