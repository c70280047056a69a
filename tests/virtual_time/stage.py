"""A world with one agent and its broker: what scenarios are written in."""

from __future__ import annotations

import os
import tempfile
from collections.abc import Iterable
from pathlib import Path
from types import TracebackType
from typing import Any

from .clock import BEGAN, ns
from .fleet import Fleet
from .machine import Machine
from .vault import Vault
from .world import World

MEMORY = "/dev/shm"
"""Folders are made there, where it is: a sync takes no real time on it."""


def folder() -> tempfile.TemporaryDirectory[str]:
    """A folder for a world."""
    return tempfile.TemporaryDirectory(prefix="vt.", dir=MEMORY if os.access(MEMORY, os.W_OK) else None)


class Verdict:
    """What a scenario says that has to hold."""

    def __init__(self, world: World) -> None:
        self._world = world
        self.wrong: list[str] = []

    def must(self, holds: bool, what: str) -> None:
        """That has to hold; else it is a fault."""
        if not holds:
            self.wrong.append(f"at {self._world.now / ns(1):.3f}: {what}")

    def equal(self, what: str, wanted: object, got: object) -> None:
        self.must(wanted == got, f"{what}: wanted {wanted!r}, got {got!r}")


def loss(gone: Iterable[str], lost: Iterable[str], sick: Iterable[str]) -> list[str]:
    """That others are lost than these, but perhaps those that are sick."""
    left, wanted = [name for name in gone if name not in set(sick)], list(lost)
    if set(left) == set(wanted):
        return []
    return [f"lost {len(left)}: {' '.join(left) or 'nothing'}" + (f", and not {' '.join(wanted)}" if wanted else "")]


class Stage(Machine):
    """A broker, an agent that serves a fleet, and a judge."""

    def __init__(self, program: Path, fleet: Fleet, *, width: int = 8, timeout: int = 5, latency: float = 0.0, late: float = 0.0,
                 wall_ahead: float = 0.0, slow: float = 0.0, began: float = 0.0, words: Iterable[str] = (),
                 real: dict[str, dict[str, Any]] | None = None) -> None:
        """`real`: what of some entries is otherwise at the broker; `began`: a fraction of a second at which it is started; `words`: more
        options of the agent."""
        self._folder = folder()
        world = World()
        world.now = ns(began)
        vault = Vault()
        fleet.load(vault, **(real or {}))
        super().__init__(world, vault, program, Path(self._folder.name), fleet, width=width, timeout=timeout, latency=latency, late=late,
                         wall_ahead=wall_ahead, slow=slow, words=words)
        verdict = Verdict(world)
        self.must, self.equal, self._wrong = verdict.must, verdict.equal, verdict.wrong

    def __enter__(self) -> Stage:
        self.start()
        return self

    def __exit__(self, kind: type[BaseException] | None, error: BaseException | None, trace: TracebackType | None) -> None:
        self.close()
        self.world.close()
        self._folder.cleanup()

    def faults(self, *lost: str, sick: Iterable[str] = (), quiet: bool = False) -> list[str]:
        """What went wrong. These entries are lost, and no others, but perhaps those that are sick. `quiet`: nothing is short."""
        shorts = [str(line) for line in self.agent.said("short", level="warning")] if quiet else []
        return [*self._wrong, *(f"a warning: {line}" for line in shorts), *loss(self.lost(), lost, sick), *self.ill()]


def at(seconds: float) -> int:
    """That moment of the world in seconds since 1970, rounded down."""
    return BEGAN + int(seconds)
