"""What a random world begins with: a fleet, a broker, and how long an outage they are to survive."""

from __future__ import annotations

import math
import random
from dataclasses import dataclass

from .clock import ns
from .fleet import ALWAYS, FAR, Entry, Fleet
from .vault import Kind

SLACK = 1.5
"""Seconds by which an outage is shorter than the bound."""


def longest(margin: float, count: int, width: int, timeout: float, latency: float, late: float) -> float:
    """The bound of docs/watch.md, in seconds."""
    quiet = math.ceil(count / width) * (latency + late) + late
    return margin - timeout - 2 * (latency + late) - quiet - max(1.0, min(30.0, quiet / 15))


def unseen(margin: float) -> float:
    """For how many seconds a suspension that is over may go unseen: the longest wait of a turn."""
    return max(1.0, min(30.0, margin / 16))


@dataclass(frozen=True)
class Plot:
    """What a world begins with."""

    fleet: Fleet
    files: frozenset[str]
    """The entries whose credentials stand in files."""
    real: dict[str, dict[str, object]]
    margin: float
    """The least of an entry: three quarters of its grants, where these are short."""
    width: int
    timeout: int
    latency: float
    late: float
    tells_date: bool
    hours: float

    def bearable(self, is_twice: bool, drips: bool = False) -> float:
        """The longest outage that is to be survived. `is_twice`: everything may be looked up in it besides."""
        count = sum(1 if entry.step >= 3 * self.fleet.margin else 2 for entry in self.fleet.entries) + 2
        settled = 2 * self.timeout + 2 if drips else self.timeout
        return longest(self.margin, 2 * count if is_twice else count, self.width, settled, self.latency, self.late) - SLACK


def plot(chance: random.Random) -> Plot:
    """A random beginning."""
    margin = chance.choice((20, 20, 40, 60, 60, 120, 300))
    timeout = chance.choice([seconds for seconds in (1, 2, 3, 5) if 4 * seconds <= margin])
    entries = tokens_of(chance, margin)
    entries += leases_of(chance, margin, entries)
    fleet = Fleet(tuple(entries), margin)
    files = frozenset(entry.name for entry in entries if entry.file)
    real = real_terms(chance, fleet) if chance.random() < 0.3 else {}
    grants = [int(str(terms["grants"])) for terms in real.values() if "grants" in terms]
    return Plot(
        fleet, files, real, min([margin, *(grant * 0.75 - 1 for grant in grants)]), chance.choice((2, 4, 8, 8, 8, 16)), timeout,
        chance.choice((0.0, 0.002, 0.02, 0.1)), chance.choice((0.0, 0.0, 0.05)), chance.random() < 0.5, chance.uniform(1.0, 3.0))


def tokens_of(chance: random.Random, margin: int) -> list[Entry]:
    """Tokens, some of them children. One that holds a file has none under it."""
    made: list[Entry] = []
    for place in range(chance.randint(1, 12)):
        step = int(margin * chance.choice((2.0, 2.5, 4, 10)))
        above = [entry.name for entry in made if not entry.file]
        parent = chance.choice(above) if above and chance.random() < 0.4 else None
        name = f"t{place}"
        made.append(Entry(
            name, Kind.TOKEN, parent, chance.randint(margin + 15, step + 20) + chance.random(), step + 20, need_of(chance),
            file=f"{name}.token" if chance.random() < 0.25 else None))
    return made


def leases_of(chance: random.Random, margin: int, tokens: list[Entry]) -> list[Entry]:
    """Leases of tokens whose credentials stay."""
    above = [entry.name for entry in tokens if not entry.file]
    made: list[Entry] = []
    for place in range(chance.randint(0, 10) if above else 0):
        step = int(margin * chance.choice((2.0, 3, 8)))
        made.append(Entry(
            f"l{place}", Kind.LEASE, chance.choice(above), chance.randint(margin + 15, step + 20) + chance.random(), step + 20,
            FAR, f"db/{place}"))
    return made


def need_of(chance: random.Random) -> int:
    return chance.choice((FAR, FAR, FAR, ALWAYS, 0))


def real_terms(chance: random.Random, fleet: Fleet) -> dict[str, dict[str, object]]:
    """What the broker really does with some entries: a nearer ceiling, shorter grants, another tree, or no renewal."""
    real: dict[str, dict[str, object]] = {}
    for entry in fleet.entries:
        what = chance.random()
        if what < 0.15:
            real[entry.name] = {"ceiling": ns(entry.left + chance.uniform(0, 30 * fleet.margin))}
        elif what < 0.25:
            real[entry.name] = {"grants": int(chance.uniform(1.4, 3) * fleet.margin)}
        elif what < 0.3 and entry.kind is Kind.TOKEN:
            real[entry.name] = {"parent": None}
        elif what < 0.33:
            real[entry.name] = {"is_renewable": False}
    return real
