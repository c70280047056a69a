"""Changes that are given to an agent while it is killed or stopped; and whether those that were acknowledged hold."""

from __future__ import annotations

import asyncio
import random
import re
from dataclasses import replace
from pathlib import Path
from typing import Callable

from leasekeep_inventory.durations import until_text
from leasekeep_inventory.inventory import Entry, Kind, entry_text

from .control import ControlFault, send_command

ABSENT = "absent"
PAUSE = (2.0, 8.0)
OF_NEEDS = 0.8
"""How many of the changes are of a need."""
LATE = 8.0
"""Seconds within which the agent shows an entry that was added or dropped: it takes up to five, and the machine is busy."""
_LINE = re.compile(r"(\S+) [a-z]+ end \S+ need (\S+) .*")


def spare_entries(now: int, seconds: int, over: list[str]) -> list[Entry]:
    """A lease of each of these tokens to add and drop, which outlives the trial whether it is kept or not."""
    return [Entry(f"spare{place}", Kind.LEASE, token, now, now + seconds + 3600, increment=600, max_ttl=864000, need=now + seconds,
                  credential=f"database/creds/spare{place}") for place, token in enumerate(over)]


class Orders:
    """Gives needs, additions and drops, one after the other, and looks at what the agent shows after each. `agent` tells its control
    socket and its process, where it runs; `spare` are entries to add and drop."""

    def __init__(self, agent: Callable[[], tuple[Path, int] | None], kept: list[Entry], spare: list[Entry], chance: random.Random,
                 late: float = LATE) -> None:
        self._agent, self._chance, self._late = agent, chance, late
        self._kept, self._spare = kept, spare
        self._may_be = {entry.name: {until_text(entry.need)} for entry in kept} | {entry.name: {ABSENT} for entry in spare}
        self._number = 0
        self._turn = asyncio.Lock()
        self.acknowledged, self.refused, self.looks = 0, 0, 0
        self.lost: list[str] = []

    async def serve(self) -> None:
        """Runs until it is cancelled."""
        while True:
            await self.give()
            await self.look()
            await asyncio.sleep(self._chance.uniform(*PAUSE))

    async def give(self) -> None:
        """One change. What was acknowledged is what may be there; what was not may be there too."""
        async with self._turn:
            await self._give()

    async def _give(self) -> None:
        served = self._agent()
        if served is None:
            return
        name, words, value = self._change()
        self._may_be[name].add(value)
        if await _say(served[0], words) is None:
            self.refused += 1
        else:
            self.acknowledged += 1
            self._may_be[name] = {value}

    def _change(self) -> tuple[str, list[str], str]:
        """A change that no other is like: its entry's name, its words, and what `status` shows after it."""
        self._number += 1
        if self._chance.random() < OF_NEEDS:
            entry = self._chance.choice(self._kept)
            until = entry.need + self._number
            return entry.name, ["need", entry.name, str(until)], until_text(until)
        entry = self._chance.choice(self._spare)
        if ABSENT in self._may_be[entry.name]:
            entry = replace(entry, need=entry.need + self._number)
            return entry.name, ["add", entry_text(entry, is_served=True)], until_text(entry.need)
        return entry.name, ["drop", entry.name], ABSENT

    async def look(self) -> bool:
        """Compares what the agent shows with what was acknowledged; whether it ran all the while."""
        async with self._turn:
            return await self._look()

    async def _look(self) -> bool:
        wrong = await self._wrong()
        if wrong and self._late:
            await asyncio.sleep(self._late)
            wrong = await self._wrong()
        if wrong is None:
            return False
        self.lost += wrong
        self.looks += 1
        return True

    async def _wrong(self) -> list[str] | None:
        """What is shown and may not be; None where the agent did not run all the while."""
        before = self._agent()
        lines = None if before is None else await _say(before[0], ["status"])
        if not lines or "next-wake " not in lines[0] or self._agent() != before:
            return None
        shown = {line[1]: line[2] for line in map(_LINE.fullmatch, lines[1:]) if line is not None}
        return [f"{name}: {shown.get(name, ABSENT)}, and {' or '.join(sorted(may_be))} was acknowledged"
                for name, may_be in self._may_be.items() if shown.get(name, ABSENT) not in may_be]


async def _say(socket: Path, words: list[str]) -> list[str] | None:
    """The lines of the answer; None where there is none, or it is a refusal."""
    try:
        return await asyncio.to_thread(send_command, socket, words)
    except ControlFault:
        return None
