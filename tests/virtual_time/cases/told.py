"""What `status` and `health` tell of entries in bad hours."""

from __future__ import annotations

from pathlib import Path
from typing import Any

from ..clock import ns
from ..faults import Act, about, both, fault, renewals
from ..fleet import Entry, Fleet, fleet
from ..stage import Stage, at
from . import Case

HOUR, DAY = 3600, 86400


def told(stage: Stage, name: str) -> tuple[str, list[str]]:
    """The state of that entry, and the first two words of each line of `health`."""
    answer = stage.ask("health")
    stage.equal("health", "ok", answer[0])
    return str(stage.shown()[name]["state"]), [" ".join(line.replace(":", "").split()[:2]) for line in answer[1:]]


ALL = ["every needed"]


def nothing_is_known_yet(program: Path) -> list[str]:
    with Stage(program, fleet(1, 600, 60, 400)) as stage:
        stage.broker.faults = [fault(0, 20, Act.SILENT)]
        stage.on(2)
        stage.equal("before an answer", ("unknown", ["e0 unknown"]), told(stage, "e0"))
        stage.on(60)
        stage.equal("behind it", ("kept", ALL), told(stage, "e0"))
        return stage.faults()


def one_that_is_gone_for_a_while(program: Path) -> list[str]:
    """The other one is kept."""
    with Stage(program, fleet(2, 600, 60, 400)) as stage:
        stage.broker.faults = [fault(0, 100, status=403, picks=about("e1"))]
        stage.on(50)
        stage.equal("while it is refused", ("gone", ["e1 gone"]), told(stage, "e1"))
        stage.equal("until when it can be kept", 0, stage.shown()["e1"]["in_force"])
        stage.equal("the other one", "kept", stage.shown()["e0"]["state"])
        stage.on(150)
        stage.equal("behind that", ("kept", ALL), told(stage, "e1"))
        return stage.faults()


def one_that_is_revoked(program: Path) -> list[str]:
    """It is gone when its time has come, and stays so."""
    with Stage(program, fleet(2, 600, 60, 400)) as stage:
        stage.on(50)
        stage.broker.vault.named("e1").revoked = stage.world.now
        stage.on(339)
        stage.equal("before its time", "kept", stage.shown()["e1"]["state"])
        for moment in (345, HOUR):
            stage.on(moment)
            stage.equal(f"at {moment}", ("gone", ["e1 gone"]), told(stage, "e1"))
        return stage.faults()


def next_of_one_that_is_revoked(program: Path) -> list[str]:
    """From its time on, before its end and behind it, the next wake-up is that of the other one, and the log says so once."""
    with Stage(program, fleet(2, 600, 60, 400)) as stage:
        stage.on(50)
        stage.equal("before their time", at(340), stage.next_wake())
        stage.broker.vault.named("e1").revoked = stage.world.now
        for moment in (345, 390, 450):
            stage.on(moment)
            stage.equal(f"at {moment}", at(880), stage.next_wake())
        stage.equal("in the log", ["e0", "e0"], [line.words[-1] for line in stage.agent.said("next")])
        return stage.faults()


def one_that_is_tried_until_it_ends(program: Path) -> list[str]:
    """As long as it lives it counts as kept for `health`."""
    with Stage(program, fleet(2, 600, 60, 400)) as stage:
        stage.broker.faults = [fault(100, 20_000, Act.CLOSED, picks=both(renewals, about("e1")))]
        stage.on(90)
        stage.equal("before its time", ("kept", ALL), told(stage, "e1"))
        stage.on(385)
        stage.equal("while it is tried", ("trying", ALL), told(stage, "e1"))
        stage.on(402)
        stage.equal("behind its end", ("ended", ["e1 ended"]), told(stage, "e1"))
        return stage.faults("e1")


def one_that_is_short(program: Path) -> list[str]:
    """It says until when it can be kept, and then that it has ended."""
    short = Entry("e0", left=400, step=600, max_ttl=3000)
    with Stage(program, Fleet((short, Entry("e1", left=400, step=600)), 60)) as stage:
        stage.on(2000)
        stage.equal("before its ceiling", ("short", ["e0 short"]), told(stage, "e0"))
        stage.equal("until when", at(2500), stage.shown()["e0"]["in_force"])
        stage.on(2600)
        state, said = told(stage, "e0")
        stage.must(state in ("ended", "gone") and said == [f"e0 {state}"], f"behind it: {state}, {said}")
        return stage.faults()


def one_that_another_needs(program: Path) -> list[str]:
    """A token without a need of its own, over a lease that is needed, is named; one that nobody needs is not."""
    over, idle = (Entry(name, left=400, step=600, need=0) for name in ("over", "idle"))
    entries = (over, idle, Entry("under", parent="over", left=400, step=600))
    with Stage(program, Fleet(entries, 60)) as stage:
        stage.broker.faults = [fault(0, 50, status=403, picks=about("over", "idle"))]
        stage.on(20)
        state, said = told(stage, "over")
        stage.equal("while both are refused", ("gone", "over gone"), (state, said[0]))
        stage.must("idle gone" not in said, f"one that nobody needs is named: {said}")
        stage.on(HOUR)
        stage.equal("behind that", ("kept", ALL), told(stage, "over"))
        return stage.faults()


def ends_and_counts(program: Path) -> list[str]:
    """Ends are the broker's and no later, by a second; and each answer is counted."""
    with Stage(program, fleet(2, 600, 60, 400), latency=0.25) as stage:
        stage.broker.faults = [fault(339, 345, Act.CLOSED, picks=about("e1")), fault(345, 347, status=400, picks=about("e1"))]
        stage.on(500)
        shown = stage.shown()
        end, real = shown["e0"]["end"], at(0) + stage.broker.vault.named("e0").end / ns(1)
        stage.must(real - 1.5 <= end <= real, f"the end of e0 is {real}, and shown as {end}")
        stage.must(at(339) <= shown["e0"]["last_success"] <= at(341), f"e0 was granted at {shown['e0']['last_success']}")
        stage.equal("answers about e0", (1, 0, 0), counts(shown["e0"]))
        stage.must(counts(shown["e1"])[0] == 1 and min(counts(shown["e1"])) > 0, f"answers about e1: {counts(shown['e1'])}")
        return stage.faults()


def counts(row: dict[str, Any]) -> tuple[int, int, int]:
    return row["granted"], row["refused"], row["lost"]


KEPT: tuple[Case, ...] = (
    nothing_is_known_yet, one_that_is_gone_for_a_while, one_that_is_revoked, next_of_one_that_is_revoked, one_that_is_tried_until_it_ends,
    one_that_is_short, one_that_another_needs, ends_and_counts,
)
NOT_YET: tuple[Case, ...] = ()
