"""A machine of a world: an agent that serves a fleet, its folder and clocks, its way to the broker, and a judge."""

from __future__ import annotations

import os
from collections.abc import Callable, Iterable
from pathlib import Path
from typing import Any

from .agent import CONTROL, ENDS, PAGES, STATE, Agent, Client
from .clock import NANOSECONDS, Clocks, ns
from .fleet import Fleet
from .judge import Judge
from .listening import Broker
from .vault import Vault
from .world import World

SOCKET, INVENTORY = "vault.sock", "fleet.toml"
TOLD: list[Callable[[str], None]] = []
"""Who is told what happens in each world, and what its agents log."""


class Machine:
    """An agent with what is around it. Where there are several, each has a name, and a way of its own to one broker. Moments are seconds of
    the world."""

    def __init__(self, world: World, vault: Vault, program: Path, room: Path, fleet: Fleet, *, name: str = "", width: int = 8,
                 timeout: int = 5, latency: float = 0.0, late: float = 0.0, wall_ahead: float = 0.0, slow: float = 0.0,
                 words: Iterable[str] = ()) -> None:
        """`words`: more options of the agent."""
        self.world, self.room, self.fleet, self.name = world, room, fleet, name
        self.timeout, self.width, self.late = timeout, width, ns(late)
        self.margin = fleet.margin
        """That of the agent."""
        self.clocks = Clocks(wall_ahead, slow)
        self.broker = Broker(world, vault, room / SOCKET, lambda: self.agent.run, name)
        self.broker.latency = latency
        self.write(INVENTORY, fleet.text())
        options = [INVENTORY, f"./{SOCKET}", "--timeout", str(timeout), "--width", str(width)]
        options += ["--control", f"./{CONTROL}", "--listen", f"./{PAGES}", "--state", f"./{STATE}"]
        self.agent = Agent(world, program, room, [*options, *words], self.clocks, late, name)
        self.judge = Judge(self.broker, self.agent, room / ENDS, width)
        self.judge.has_files = any(entry.file for entry in fleet.entries)
        self._told = 0
        """Lines of the log that were told."""
        world.watchers.append(self._tell_log)

    def close(self) -> None:
        self.agent.kill()
        self.broker.close()

    def write(self, name: str, text: str) -> None:
        """A file in its folder, which is moved to its place, and bears the date of the world."""
        path = self.room / f"{name}.new"
        path.write_text(text)
        path.chmod(0o600)
        self.date(path)
        path.rename(self.room / name)

    def date(self, path: Path) -> None:
        """The file was written now. (The disk's own clock is that of the test: two writes of hours apart may have one date.)"""
        wall = self.clocks.wall(self.world.now)
        os.utime(path, ns=(wall, wall))

    def tell(self, text: str) -> None:
        """Says something that happens, to whoever is told."""
        for told in TOLD:
            told(f"{self.now:12.3f} ** {self._whose}{text}")

    def _tell_log(self) -> None:
        for line in self.agent.lines[self._told:]:
            for told in TOLD:
                told(f"{self._whose}{line}")
        self._told = len(self.agent.lines)

    @property
    def _whose(self) -> str:
        return f"{self.name}: " if self.name else ""

    # ---- what happens

    @property
    def now(self) -> float:
        return self.world.now / NANOSECONDS

    def on(self, until: float) -> None:
        """Goes on to that moment."""
        self.world.run(ns(until))

    def start(self) -> None:
        self.agent.start()
        if not self.agent.is_up:
            raise AssertionError(f"it does not start: {self.agent.errors()}")

    def restart(self) -> None:
        """Killed, and started again at once."""
        self.agent.kill()
        self.start()

    def ask(self, *words: str) -> list[str]:
        return self.agent.ask(*words)

    def client(self, *words: str) -> Client:
        return self.agent.client(*words)

    def away(self, since: float, until: float) -> None:
        """Between these moments the broker refuses connections."""
        self.world.at(ns(since), self.broker.leave)
        self.world.at(ns(until), self.broker.come_back)

    # ---- what has to hold

    def lost(self) -> list[str]:
        return self.judge.lost(self.fleet)

    def beginnings(self) -> int:
        return len(self.agent.said("begin"))

    def shown(self) -> dict[str, dict[str, Any]]:
        """What the page of its status shows of each entry."""
        told = self.agent.page("/status")
        return {} if told is None else {entry["name"]: entry for entry in told["entries"]}

    def next_wake(self) -> int | None:
        """The next wake-up as that page shows it."""
        told = self.agent.page("/status")
        return None if told is None else told["next_wake"]

    def ill(self) -> list[str]:
        """What its judge says, and that it has ended by itself."""
        status = self.agent.status
        has_ended = status is not None and status >= 0
        return self.judge.faults + ([f"{self._whose}it has ended with {status}: {self.agent.errors()}"] if has_ended else [])
