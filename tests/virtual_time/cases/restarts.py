"""Kills, restarts, and what is known after them."""

from __future__ import annotations

import hashlib
import os
from collections.abc import Callable
from pathlib import Path

from ..agent import ENDS
from ..clock import ns

from ..faults import fault
from ..fleet import Entry, Fleet, fleet
from ..stage import Stage
from . import Case

HOUR = 3600


def killed_inside_the_margin(program: Path) -> list[str]:
    """40 entries at 0.3 seconds a reply (m 20)."""
    with Stage(program, fleet(40, 300, 20, 200), latency=0.3) as stage:
        stage.on(181)
        stage.restart()
        stage.on(HOUR)
        return stage.faults()


def later_ones_end_sooner(program: Path) -> list[str]:
    """A start with 40 entries at a second a reply (m 60)."""
    with Stage(program, fleet(40, 600, 60, lambda place: 140 - place), latency=1.0) as stage:
        stage.on(HOUR)
        return stage.faults()


def a_step_little_over_the_margin(program: Path) -> list[str]:
    """30 entries, killed twice."""
    with Stage(program, fleet(30, 63, 60, 63)) as stage:
        for moment in (100, 200):
            stage.on(moment)
            stage.restart()
        stage.on(HOUR)
        return stage.faults()


def killed_early_in_an_outage(program: Path) -> list[str]:
    """It ends 24 seconds before the leases do (m 120)."""
    with Stage(program, fleet(30, 1000, 120, 600)) as stage:
        stage.away(480, 576)
        stage.on(485)
        stage.restart()
        stage.on(3 * HOUR)
        return stage.faults()


def killed_in_an_outage_with_no_ends_known(program: Path) -> list[str]:
    """The margin is an hour. When the broker is back, 100 seconds before the ends, nothing is known of them: each entry is looked up
    within half a minute, and renewed."""
    with Stage(program, fleet(10, 4 * HOUR, HOUR, 4000)) as stage:
        stage.away(300, 3900)
        stage.on(350)
        stage.agent.kill()
        (stage.room / ENDS).unlink()
        stage.start()
        stage.on(2 * HOUR)
        first = min(one.moment for one in stage.broker.vault.asked if one.moment >= ns(3900))
        stage.must(first < ns(3931), f"it asks at {first}")
        return stage.faults()


def not_there_for_a_while(program: Path) -> list[str]:
    """Nobody runs for 140 seconds, 190 seconds before the leases end (20 entries, m 40)."""
    with Stage(program, fleet(20, 300, 40, 200)) as stage:
        stage.on(10)
        stage.agent.kill()
        stage.on(150)
        stage.start()
        stage.on(3 * HOUR)
        return stage.faults()


def another_boot(program: Path) -> list[str]:
    """The machine is booted anew, and its boot clock begins again: the ends that were kept count for nothing."""
    with Stage(program, fleet(20, 600, 60, 300), latency=0.05) as stage:
        stage.on(1000)
        stage.agent.kill()
        stage.on(1030)
        stage.agent.new_boot()
        since = stage.broker.vault.count(renews=False)
        stage.start()
        stage.on(1031)
        stage.equal("everything is looked up", 20, stage.broker.vault.count(renews=False) - since)
        stage.on(2 * HOUR)
        return stage.faults()


def ended_by_systemd(program: Path) -> list[str]:
    """SIGTERM ends it, and the next one begins with renewals where the time has come."""
    with Stage(program, fleet(10, 600, 60, 300)) as stage:
        stage.on(100)
        stage.agent.stop()
        stage.equal("status", -15, stage.agent.status)
        stage.on(241)
        stage.start()
        stage.on(241.5)
        asked = [one.renews for one in stage.broker.vault.asked if one.run == 2]
        stage.equal("what is asked first", [True] * 8, asked[:8])
        stage.on(HOUR)
        return stage.faults()


def a_disk_that_stalls(program: Path) -> list[str]:
    """Its ends stand on a disk that answers nothing for 20 seconds, from right before the time of 12 entries on (m 60). Whoever
    waits for the disk waits for all of that, and nothing is lost: it is an outage."""
    with Stage(program, fleet(12, 300, 60, 100)) as stage:
        stage.on(39)
        stage.agent.disk_stalls(20)
        stage.on(HOUR)
        return stage.faults()


def ends_that_cannot_be_kept(program: Path) -> list[str]:
    """The disk is full for an hour: that is a note, and nothing else."""
    with Stage(program, fleet(12, 300, 60, 100)) as stage:
        stage.on(5)
        stage.agent.disk_fails(28)
        stage.on(HOUR)
        stage.equal("notes", [("could", "not", "be", "kept:", "no", "space", "is", "left")],
                    [tuple(" ".join(line.words).split()) for line in stage.agent.said("ends", level="note")])
        stage.agent.disk_fails(0)
        stage.on(HOUR + 600)
        return stage.faults()


def killed_at_any_call(program: Path) -> list[str]:
    """Killed before one call after another while its entries are renewed and changed, and started again at once."""
    with Stage(program, fleet(6, 120, 30, 60), latency=0.02) as stage:
        needs: dict[str, int] = {}
        for number in range(1, 60):
            stage.agent.kill_at_call(number)
            name, need = f"e{number % 6}", stage.fleet.get("e0").need + number
            client = stage.client("need", name, str(need))
            stage.world.run(stage.world.now + ns(40), lambda: not stage.agent.is_up)
            if client.is_ok:
                needs[name] = need
            stage.restart()
            stage.on(stage.now + 2)
            shown = {each: row["need"] for each, row in stage.shown().items()}
            for each, given in needs.items():
                unsure = need if each == name else given
                seen = shown.get(each)
                stage.must(seen in (given, unsure), f"kill {number}: the need of {each} is {given}, and shown as {seen}")
                needs[each] = shown.get(each, given)
        return stage.faults()


def part_of(name: str, spread: int) -> int:
    """The part of a spread that falls to an agent's name, in seconds."""
    return int.from_bytes(hashlib.sha256(name.encode()).digest()[:8], "big") * (spread + 1) >> 64


def a_start_waits_for_its_part(program: Path) -> list[str]:
    """Of a spread of 60 seconds, where each end is known and far: nothing is asked meanwhile. A need ends the wait at once."""
    part = part_of("a", 60)
    with Stage(program, fleet(5, 3600, 60, 3000), words=("--spread", "60", "--name", "a")) as stage:
        stage.on(10)
        stage.restart()
        stage.equal("it waits", ("waits", "for", str(part)), stage.agent.said("start")[-1].words[:3])
        before = len(stage.broker.vault.asked)
        stage.on(10 + part - 0.5)
        stage.equal("asked in the wait", before, len(stage.broker.vault.asked))
        stage.on(10 + part + 1)
        stage.equal("asked behind it", before + 5, len(stage.broker.vault.asked))
        stage.restart()
        stage.equal("need", "ok", stage.ask("need", "e1", str(stage.fleet.get("e1").need + 1))[0])
        stage.on(stage.now + 0.5)
        stage.equal("asked behind a need", before + 10, len(stage.broker.vault.asked))
        stage.on(2 * HOUR)
        return stage.faults()


def suspended_in_a_start_that_waits(program: Path) -> list[str]:
    """The machine is suspended until five seconds behind the time of each entry: it renews them within a second of that."""
    part = part_of("a", 60)
    with Stage(program, fleet(5, 3600, 60, 3000), words=("--spread", "60", "--name", "a")) as stage:
        stage.on(10)
        stage.restart()
        stage.on(10 + part / 2)
        stage.equal("it waits", 0, sum(one.run == 2 for one in stage.broker.vault.asked))
        stage.agent.suspend(2945 - stage.now)
        stage.on(2946.1)
        stage.equal("renewed", 5, stage.broker.vault.count(renews=True))
        stage.on(2 * HOUR)
        return stage.faults()


def written(text: Callable[[bytes], bytes]) -> Callable[[Path], object]:
    """Writes that into the file of the ends, by what it held."""
    return lambda path: path.write_bytes(text(path.read_bytes()))


def in_its_place(make: Callable[[Path], object]) -> Callable[[Path], object]:
    """Something else in the place of the file."""
    def done(path: Path) -> None:
        path.unlink()
        make(path)
    return done


def ends_that_are_none(program: Path) -> list[str]:
    """Lines of the file of the ends are spoiled, or it is no file. After a kill, when the time of each entry has come, those whose lines
    are whole are renewed first, and the others looked up. Nothing is lost."""
    found, names = [], [f"e{place}" for place in range(6)]
    rows: tuple[tuple[Callable[[Path], object], list[str]], ...] = (
        (written(lambda whole: whole), names), (written(lambda whole: b""), []), (written(lambda whole: b"\xff" * 50), []),
        (written(lambda whole: b"e0 1\n" * 1000), []), (written(lambda whole: whole[:-9]), names[:-1]),
        (written(lambda whole: whole.replace(b" yes ", b" maybe ", 1)), names[1:]),
        (written(lambda whole: b"x" * 9000 + b"\n" + whole), names), (in_its_place(os.mkdir), []),
    )
    for number, (spoil, known) in enumerate(rows):
        with Stage(program, fleet(6, 600, 60, 300), latency=0.02) as stage:
            stage.on(239)
            stage.agent.kill()
            spoil(stage.room / ENDS)
            stage.on(241)
            stage.start()
            stage.on(243)
            first = {one.name: one.renews for one in reversed(stage.broker.vault.asked) if one.run == 2}
            stage.equal(f"row {number}: renewed first", known, sorted(name for name, renews in first.items() if renews))
            stage.equal(f"row {number}: asked", names, sorted(first))
            stage.on(2 * HOUR)
            found += stage.faults()
    return found


def a_pipe_in_the_place_of_its_ends(program: Path) -> list[str]:
    """Nobody writes to it: the start does not wait for that."""
    with Stage(program, fleet(2, 600, 60, 300)) as stage:
        stage.on(10)
        stage.agent.kill()
        in_its_place(os.mkfifo)(stage.room / ENDS)
        stage.start()
        stage.on(HOUR)
        return stage.faults()


def its_memory_stays(program: Path) -> list[str]:
    """Over some 3,000 requests, and changes by clients, it takes no more memory than after the first hours."""
    with Stage(program, fleet(8, 100, 20, 60)) as stage:
        sizes = list[int]()
        for hour in range(1, 9):
            stage.on(hour * HOUR)
            for number in range(20):
                stage.ask("need", "e1", str(stage.fleet.get("e1").need + 20 * hour + number))
            stage.ask("status")
            sizes.append(stage.agent.memory())
        stage.must(sizes[-1] < sizes[1] + 2**21, f"its memory grows: {sizes}")
        return stage.faults()


def an_orphan_whose_parent_in_the_file_has_ended(program: Path) -> list[str]:
    """FILE has it under a token that has ended; the broker says that it is an orphan. Killed while everything gets 403 for 30 seconds, the
    agent asks it until a reply tells. (The world of seed 101.)"""
    entries = (Entry("base", left=100, step=600, need=0), Entry("job", parent="base", left=600, step=600))
    with Stage(program, Fleet(entries, 60), real={"base": {"is_renewable": False}, "job": {"parent": None}}) as stage:
        stage.on(300)
        stage.broker.faults = [fault(300, 330, status=403)]
        stage.on(310)
        stage.restart()
        stage.on(HOUR)
        return stage.faults(sick=["base"])


KEPT: tuple[Case, ...] = (
    killed_inside_the_margin, later_ones_end_sooner, a_step_little_over_the_margin, killed_early_in_an_outage,
    killed_in_an_outage_with_no_ends_known, not_there_for_a_while, another_boot, ended_by_systemd, a_disk_that_stalls,
    ends_that_cannot_be_kept, killed_at_any_call, a_start_waits_for_its_part, suspended_in_a_start_that_waits,
    ends_that_are_none, a_pipe_in_the_place_of_its_ends, its_memory_stays, an_orphan_whose_parent_in_the_file_has_ended,
)
NOT_YET: tuple[Case, ...] = ()
