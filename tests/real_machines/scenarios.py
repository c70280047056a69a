"""What happens to the agent in front, and what is seen of it."""

from __future__ import annotations

import asyncio
import signal
import time
from collections.abc import Awaitable, Callable, Iterable
from dataclasses import dataclass

from .broker import Asked
from .trio import Trio

STALE = ["e0", "e4", "e8"]
"""Entries whose credentials stand in files."""
MISSING = ["e1", "e6"]
"""Those that an older FILE does not have."""
PAUSE = 330


@dataclass(frozen=True)
class Counts:
    """Requests in a time, that were answered: renewals in front and behind, and lookups behind."""

    renewed_in_front: int
    renewed_behind: int
    looked_up_behind: int

    def __str__(self) -> str:
        return f"{self.renewed_in_front:4} {self.renewed_behind:4} {self.looked_up_behind:4}"


def counted(asked: Iterable[Asked]) -> Counts:
    good = [one for one in asked if one.status == 200]
    front = [one for one in good if one.by == "front"]
    behind = [one for one in good if one.by != "front"]
    renewed = sum(one.renews for one in behind)
    return Counts(sum(one.renews for one in front), renewed, len(behind) - renewed)


@dataclass(frozen=True)
class Seen:
    """What a scenario showed: while nothing was wrong, and while something was; which entries were lost; the least that was left to one
    when it was renewed, in seconds; and how many requests had a late answer or none while nothing was wrong, since the machine was busy."""

    name: str
    calm: Counts
    wrong: Counts
    lost: list[str]
    nearest: float
    late: int

    @property
    def is_well(self) -> bool:
        """Nothing was lost, and those behind renewed nothing while the one in front was well, and each had its answers."""
        return not self.lost and (self.calm.renewed_behind == 0 or self.late > 0)


Scenario = Callable[[Trio], Awaitable[Seen]]
Happens = Callable[[Trio], Awaitable[None]]


def scenario(name: str, happens: Happens, is_over: Happens) -> Scenario:
    """Nothing happens; then that; and then it is over."""
    async def played(trio: Trio) -> Seen:
        began, before = time.monotonic(), late(trio)
        await asyncio.sleep(trio.calm)
        middle, after = time.monotonic(), late(trio)
        trio.note(f"{name} begins")
        await happens(trio)
        await asyncio.sleep(max(0.0, middle + trio.wrong - time.monotonic()))
        trio.note(f"{name} is over")
        end, heard = time.monotonic(), answers(trio)
        await is_over(trio)
        took = await back(trio, end, heard)
        await asyncio.sleep(trio.rests)
        lost = await trio.lost()
        left = [one.left for one in trio.asked(began, time.monotonic()) if one.renews and one.status == 200 and one.left is not None]
        calm, wrong = counted(trio.asked(began, middle)), counted(trio.asked(middle, end))
        seen = Seen(name, calm, wrong, lost, min(left, default=0.0), after - before)
        trio.note(f"{name}: calm {seen.calm}, wrong {seen.wrong}, nearest {seen.nearest:.1f}, lost {' '.join(lost) or 'nothing'}, "
                  f"in front an answer after {took:.1f}")
        return seen
    return played


def late(trio: Trio) -> int:
    """How many requests of the fleet had no answer by its log, or one for which the broker took half of the time-out."""
    return sum(machine.said("lost") for machine in trio.machines) + sum(one.took > trio.timeout / 2 for one in trio.broker.asked)


def answers(trio: Trio) -> int:
    """How many good answers the one in front has logged."""
    return trio.front.said("told") + trio.front.said("entry")


async def back(trio: Trio, end: float, heard: int) -> float:
    """Waits until the one in front has another good answer, and says how long that took. (It pauses for five minutes where every end that
    it knew is past.)"""
    while answers(trio) == heard and time.monotonic() < end + PAUSE:
        await asyncio.sleep(2)
    return time.monotonic() - end


async def kill(trio: Trio) -> None:
    await trio.front.kill()


async def start(trio: Trio) -> None:
    await trio.front.start_agent()


async def kill_two(trio: Trio) -> None:
    await trio.front.kill()
    await trio.machines[2].kill()


async def start_two(trio: Trio) -> None:
    await trio.front.start_agent()
    await trio.machines[2].start_agent()


async def stop(trio: Trio) -> None:
    trio.front.signal(signal.SIGSTOP)


async def go_on(trio: Trio) -> None:
    trio.front.signal(signal.SIGCONT)


async def cut(trio: Trio) -> None:
    trio.front.wire.cut()


async def mend(trio: Trio) -> None:
    trio.front.wire.mend()


async def stale(trio: Trio) -> None:
    await trio.rotate(STALE)


async def fresh(trio: Trio) -> None:
    trio.bring(STALE)


async def older(trio: Trio) -> None:
    await trio.push([token for token in trio.tokens if token.name not in MISSING])


async def newer(trio: Trio) -> None:
    await trio.push(trio.tokens)


async def slow(trio: Trio) -> None:
    """Its replies take most of the time-out, and it wakes up as late as that, again and again."""
    pause = 0.7 * trio.timeout
    trio.broker.delays["front"] = pause
    until = time.monotonic() + trio.wrong - 5
    while time.monotonic() < until:
        trio.front.signal(signal.SIGSTOP)
        await asyncio.sleep(pause)
        trio.front.signal(signal.SIGCONT)
        await asyncio.sleep(pause / 2)


async def quick(trio: Trio) -> None:
    trio.broker.delays.clear()


SCENARIOS: tuple[Scenario, ...] = (
    scenario("killed", kill, start), scenario("stopped", stop, go_on), scenario("cut off", cut, mend),
    scenario("stale secret", stale, fresh), scenario("older FILE", older, newer), scenario("slow", slow, quick),
    scenario("killed with one behind", kill_two, start_two),
)


def table(seen: list[Seen]) -> str:
    """A line for each scenario, with sums over all times that it was played."""
    head = f"{'scenario':24}times lost  calm: renewals in front, behind, lookups behind, late; wrong: the first three; nearest\n"
    lines = [head]
    for name in dict.fromkeys(one.name for one in seen):
        ones = [one for one in seen if one.name == name]
        calm, wrong = total(one.calm for one in ones), total(one.wrong for one in ones)
        lost, nearest = sum(len(one.lost) for one in ones), min(one.nearest for one in ones)
        lines.append(f"{name:24}{len(ones):5} {lost:4}  {calm} {sum(one.late for one in ones):4}  {wrong}  {nearest:.1f} s\n")
    return "".join(lines)


def total(counts: Iterable[Counts]) -> Counts:
    every = list(counts)
    return Counts(sum(one.renewed_in_front for one in every), sum(one.renewed_behind for one in every),
                  sum(one.looked_up_behind for one in every))
