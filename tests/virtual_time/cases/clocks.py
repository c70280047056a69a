"""Clocks that step, lag, or stand still, and the moments at which it asks."""

from __future__ import annotations

from pathlib import Path

from ..clock import ns
from ..fleet import Fleet, Entry, fleet
from ..stage import Stage, at
from . import Case

HOUR, DAY = 3600, 86400


def three_weeks_without_faults(program: Path) -> list[str]:
    """Three entries of one step: each wake-up renews all, a margin before their end as it was looked up last or granted since, and nothing
    else is renewed. Each beginning looks each up once, and there is one a day: it tells their end, or a second less, which whole seconds
    cost."""
    days, step, margin = 21, 50_000, 120
    until = days * DAY - 20_000
    with Stage(program, fleet(3, step, margin, 40_000, need=at(until))) as stage:
        stage.on(days * DAY)
        moments, end = list[int](), at(40_000)
        for line in sorted(stage.agent.said("entry") + stage.agent.said("wake"), key=lambda line: line.moment):
            if line.event == "wake":
                moments.append(end - margin - at(0))
                end = int(line.words[0]) + step
            else:
                told = int(line.words[1])
                stage.must(end - 1 <= told <= end, f"{line}: it ends at {end}")
                end = told
        stage.must(len(moments) == (until - 40_000) // (step - margin) + 1, f"{len(moments)} wake-ups")
        stage.equal("renewals", [moment for moment in moments for _ in range(3)],
                    [one.moment / ns(1) for one in stage.broker.vault.asked if one.renews])
        stage.must(stage.beginnings() >= days, f"{stage.beginnings()} beginnings")
        stage.equal("lookups", 3 * stage.beginnings(), stage.broker.vault.count(renews=False))
        return stage.faults(quiet=True)


def few_wake_ups(program: Path) -> list[str]:
    """In an hour in which nothing is due it wakes up each sixteenth of the margin: half a minute at most, a second at least."""
    found = []
    for margin, rest in ((1200, 30), (600, 30), (160, 10), (20, 1.25), (10, 1)):
        with Stage(program, fleet(3, 50_000, margin, 50_000), timeout=2) as stage:
            stage.on(100)
            before = stage.agent.rests
            stage.on(100 + HOUR)
            rests = stage.agent.rests - before
            stage.must(abs(rests - HOUR / rest) <= 1, f"margin {margin}: it wakes up {rests} times in an hour")
            found += stage.faults()
    return found


def a_start_at_any_part_of_a_second(program: Path) -> list[str]:
    """No end that is believed lies past the real one, and nothing is renewed before its round, however the two clocks' seconds lie."""
    found = []
    for began in (0.0, 0.001, 0.5, 0.999):
        for whole in (False, True):
            with Stage(program, fleet(2, 100, 10, 60), timeout=2, began=began, latency=0.0005) as stage:
                stage.broker.vault.has_whole_seconds = whole
                stage.on(1100)
                early = [str(line) for line in stage.agent.said("wake") if at(0) + line.moment / ns(1) < int(line.words[0])]
                stage.equal("rounds that open early", [], early)
                stage.must(len(stage.agent.said("told")) > 20, "it renews nothing")
                found += [f"{began}, {whole}: {fault}" for fault in stage.faults()]
    return found


def late_where_the_machine_wakes_up_late(program: Path) -> list[str]:
    """A machine that wakes up a tenth of a second late asks a tenth of a second late at most."""
    with Stage(program, fleet(1, 300, 20, 170), late=0.1) as stage:
        stage.on(400)
        first = stage.broker.vault.moments("e0", True)[0]
        stage.must(150 <= first <= 150.2, f"the first renewal comes at {first}")
        return stage.faults()


def suspended(program: Path) -> list[str]:
    """Until a second before a wake-up (m 20), with no new beginning; for an hour, with a wake-up passing within the margin; until two
    seconds before the ends (m 20)."""
    found = []
    for margin, step, left, until, most in ((20, 300, 200, 179, 1), (60, 7200, HOUR + 140, 100 + HOUR, 2), (20, 300, 200, 198, 2)):
        with Stage(program, fleet(5, step, margin, left)) as stage:
            stage.on(100)
            stage.agent.suspend(until - 100)
            stage.on(3 * HOUR)
            stage.must(stage.beginnings() <= most, f"suspended until {until}: {stage.beginnings()} beginnings")
            found += stage.faults()
    return found


def suspended_past_many_ends(program: Path) -> list[str]:
    """After it 400 entries have ended, and 8 have 15 seconds left, a second for each answer: the dying go before the dead."""
    with Stage(program, fleet(408, 7200, 60, lambda place: 600 if place < 400 else 1200), latency=1.0) as stage:
        stage.on(150)
        stage.agent.suspend(1185 - 150)
        stage.on(1400)
        return stage.faults(*(f"e{place}" for place in range(400)))


def the_wall_an_hour_off_for_a_while(program: Path) -> list[str]:
    found = []
    for ahead in (HOUR, -HOUR):
        for tells in (False, True):
            with Stage(program, fleet(10, 600, 60, 300)) as stage:
                stage.broker.tells_date = tells
                stage.on(250)
                stage.clocks.wall_ahead = ns(ahead)
                stage.on(750)
                stage.clocks.wall_ahead = 0
                stage.on(2 * HOUR)
                found += stage.faults()
    return found


def the_wall_an_hour_ahead_all_the_time(program: Path) -> list[str]:
    """Under ceilings, with a broker that tells its date."""
    entries = tuple(Entry(f"e{place}", left=300, step=600, need=at(HOUR), max_ttl=500 + 2 * HOUR) for place in range(10))
    with Stage(program, Fleet(entries, 60), wall_ahead=float(HOUR)) as stage:
        stage.broker.tells_date = True
        stage.on(2 * HOUR)
        return stage.faults(quiet=True)


def a_slow_clock_for_weeks(program: Path) -> list[str]:
    """30 millionths slow, leases of 14 days: 4 days without the broker's date, and 15 with it."""
    found = []
    for tells, days in ((False, 4), (True, 15)):
        with Stage(program, fleet(3, 14 * DAY, 120, 10 * DAY, need=at(40 * DAY)), slow=30e-6) as stage:
            stage.broker.tells_date = tells
            stage.on(days * DAY)
            found += stage.faults(quiet=True)
    return found


def jumps_and_days(program: Path) -> list[str]:
    """A step of the wall clock of more than two seconds begins anew, and so does a day."""
    found = []
    for jump, beginnings in ((1.5, 1), (-1.5, 1), (2.5, 2), (-2.5, 2)):
        with Stage(program, fleet(1, 3000, 200, 2000)) as stage:
            stage.on(50)
            stage.clocks.wall_ahead = ns(jump)
            stage.on(81)
            stage.equal(f"a jump of {jump}: beginnings", beginnings, stage.beginnings())
            stage.equal(f"a jump of {jump}: lookups", beginnings, stage.broker.vault.count(renews=False))
            found += stage.faults()
    with Stage(program, fleet(1, 300_000, 200, 1_000_000)) as stage:
        stage.on(3 * DAY + 200)
        for day, moment in enumerate(stage.broker.vault.moments("e0", False)):
            stage.must(0 <= moment - DAY * day <= 31 * day, f"day {day} is looked up at {moment}")
        stage.equal("beginnings", 4, stage.beginnings())
        return found + stage.faults()


def nodes_whose_dates_differ(program: Path) -> list[str]:
    """Two nodes answer in turn, 4 seconds apart: at most one beginning in ten minutes, and each asks one lookup of each entry."""
    with Stage(program, fleet(20, 600, 60, 600)) as stage:
        stage.broker.tells_date, stage.broker.nodes_ahead = True, (0.0, 4.0)
        stage.on(2 * HOUR)
        stage.must(stage.beginnings() <= 1 + 2 * HOUR // 600, f"{stage.beginnings()} beginnings")
        stage.equal("lookups", 20 * stage.beginnings(), stage.broker.vault.count(renews=False))
        return stage.faults()


def one_that_is_revoked_stops_no_daily_lookups(program: Path) -> list[str]:
    with Stage(program, fleet(3, 20_000, 120, 20_000)) as stage:
        stage.on(100)
        stage.broker.vault.named("e1").revoked = stage.world.now
        stage.on(2 * DAY + HOUR)
        stage.equal("beginnings", 3, stage.beginnings())
        return stage.faults()


KEPT: tuple[Case, ...] = (
    three_weeks_without_faults, few_wake_ups, a_start_at_any_part_of_a_second, late_where_the_machine_wakes_up_late, suspended,
    suspended_past_many_ends,
    the_wall_an_hour_off_for_a_while, the_wall_an_hour_ahead_all_the_time, a_slow_clock_for_weeks, jumps_and_days, nodes_whose_dates_differ,
    one_that_is_revoked_stops_no_daily_lookups,
)
NOT_YET: tuple[Case, ...] = ()
