"""What else goes wrong in a bad hour: a quota of requests, credentials that are revoked, and what is changed amid an outage."""

from __future__ import annotations

import math
import random
from collections.abc import Sequence
from dataclasses import dataclass
from enum import Enum


class What(Enum):
    """What happens in an outage."""

    BEGIN = "everything is to be looked up anew"
    RELOAD = "FILE is read anew, and says the same"
    EDIT = "FILE is read anew, and says another step of an entry"
    ADD = "a client adds an entry"
    DROP = "a client drops an entry"
    REPLACE = "a client gives an entry another credential"


@dataclass(frozen=True)
class Incident:
    """It happens behind that part of an outage, to the entry of that name."""

    part: float
    what: What
    name: str


@dataclass(frozen=True)
class Trouble:
    """From the beginning of an outage on `revoked` are refused, and more than `quota` requests in a second hear 429. Incidents are in it, one
    after the other."""

    quota: int | None = None
    revoked: frozenset[str] = frozenset()
    incidents: tuple[Incident, ...] = ()

    @property
    def touched(self) -> frozenset[str]:
        """Entries that are revoked, or are no more what they were."""
        return self.revoked | {one.name for one in self.incidents if one.what in (What.ADD, What.DROP, What.REPLACE)}

    def joins(self, entries: int) -> int:
        """How many lookups it brings to the line, of so many entries."""
        brings = {What.BEGIN: entries, What.EDIT: 1, What.ADD: 1, What.REPLACE: 1}
        return sum(brings.get(one.what, 0) for one in self.incidents)

    def costs(self, margin: int, count: int, quiet: float) -> float:
        """Seconds within which so many requests are granted beyond those without a quota, where all that wait are asked within `quiet`: in a
        pause, in which each of them is asked, and a second as many are granted as the quota says."""
        return 0.0 if self.quota is None else math.ceil(count / self.quota) * (max(1.0, margin / 16) + quiet + 1)


NONE = Trouble()


def trouble(chance: random.Random, names: Sequence[str]) -> Trouble:
    """None in every other hour; else incidents, and a quota or entries that are revoked. (Those use up a quota: where they are more than it,
    nobody else may have his turn.)"""
    if chance.random() < 0.5:
        return NONE
    quota = chance.choice((None, None, 5, 10, 20))
    part = chance.choice((0, 0.25, 0.5, 0.75)) if quota is None else 0
    revoked = frozenset(chance.sample(names, int(len(names) * part)))
    return Trouble(quota, revoked, incidents(chance, [name for name in names if name not in revoked]))


def incidents(chance: random.Random, names: Sequence[str]) -> tuple[Incident, ...]:
    """Up to four, each about another one of these entries; or about one that is added."""
    kinds = chance.choices((*What, None, None), k=min(4, len(names)))
    parts = sorted(chance.random() for _ in kinds)
    about = chance.sample(names, len(kinds))
    return tuple(
        Incident(part, what, f"a{place}" if what is What.ADD else name)
        for place, (part, what, name) in enumerate(zip(parts, kinds, about)) if what is not None)
