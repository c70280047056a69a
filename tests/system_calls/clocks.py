"""SystemClock: which clocks it reads, and how long it waits."""

from __future__ import annotations

import time
from datetime import datetime

from trying import SLOWER

from .recording import Call
from .stage import MARGIN, PATIENCE, Stage, boot_time, inventory, until

SUSPENDED = 7200
"""Seconds by which CLOCK_BOOTTIME is ahead of CLOCK_MONOTONIC: as where the machine was suspended for so long."""
SOON = 2
"""Seconds after which an entry is renewed that ends as much later than the margin."""
LONGEST = max(1000, min(30_000, MARGIN * 1000 // 16))
"""The longest wait, in milliseconds, while nothing happens: after it a suspension is seen."""
UNTOLD = 1000
"""The most milliseconds that are slept where nothing tells of sockets: each is tried after that."""
REFUSED = 20
"""The milliseconds that are slept in the place of a wait that the system refuses."""
SLEEPS_WITHIN = 5 * SLOWER
"""Seconds within which it has slept twice."""
RESTLESS = 100
"""More waits in a second than an agent makes that has little to do."""


def waits(calls: list[Call]) -> list[int]:
    """The time-outs of waits for sockets, in milliseconds."""
    return [int(call.words[1]) for call in calls if call.name == "epoll_wait"]


def sleeps(calls: list[Call]) -> list[int]:
    return [int(call.words[0]) for call in calls if call.name == "sleep"]


def elapsed_and_wall(stage: Stage) -> None:
    """The clock that never steps is CLOCK_BOOTTIME: so an end is told by it. The dates of the log are the wall's. A wait ends by itself."""
    name = stage.write("one.toml", inventory())
    kept = stage.room / "ends"
    told = {"BOOT_AHEAD": str(SUSPENDED)}
    with stage.broker(MARGIN + SOON) as broker, stage.serve(name, broker.word, "--runtime", ".", told=told) as agent:
        began = time.monotonic()
        stage.check("the end is kept", True, until(lambda: kept.exists() and kept.read_text().startswith("web ")))
        end = int(kept.read_text().split()[1]) if kept.exists() else 0
        stage.check("it is an end by CLOCK_BOOTTIME", True, 0 < end - (boot_time() + SUSPENDED) <= 2 * (MARGIN + SOON))
        renews = until(lambda: any(b"/renew-self" in request for request in broker.requests), PATIENCE + SOON)
        stage.check("it renews when its time has come", True, renews)
        passed = time.monotonic() - began
        calls = agent.recording.calls()
        shown = datetime.fromisoformat(agent.lines[0].split()[0]).timestamp() if agent.lines else 0
        stage.check("the log has the wall's date", True, abs(shown - time.time()) < 60 + passed)
    waited = waits(calls)
    stage.check("each wait has an end", (True, []), (bool(waited), [wait for wait in waited if not 0 <= wait <= LONGEST]))
    stage.check("it rests", (True, True), (any(waited), len(waited) < RESTLESS * (passed + 1)))


def refused_waits(stage: Stage) -> None:
    """Where the system refuses each wait, it is slept a little instead, and goes on."""
    rests(stage, "epoll_wait", REFUSED)


def without_poll(stage: Stage) -> None:
    """Where the system gives nothing that waits for sockets, a wait is a sleep, and each neighbour is tried."""
    rests(stage, "epoll_create", UNTOLD)


def rests(stage: Stage, refused: str, longest: int) -> None:
    """An agent that is refused those calls goes on, and sleeps between its turns, so long at most."""
    name = stage.write("one.toml", inventory())
    with stage.broker() as broker, stage.serve(name, broker.word, "--control", "./control.sock", told=stage.failing(refused)) as agent:
        stage.check("it looks up", True, until(lambda: len(broker.requests) > 0))
        stage.check("it answers", True, agent.answers())
        first = agent.recording.calls()
        began = time.monotonic()
        until(lambda: len(sleeps(agent.recording.calls())) > len(sleeps(first)) + 1, SLEEPS_WITHIN)
        passed = time.monotonic() - began
        calls = agent.recording.calls()[len(first):]
    slept = sleeps(calls)
    stage.check("it sleeps between", (True, []), (len(slept) > 0, [sleep for sleep in slept if not 0 < sleep <= longest]))
    stage.check("each turn", True, len(waits(calls)) <= len(slept) + 1)
    stage.check("it rests", True, len(slept) < RESTLESS * (passed + 1))
