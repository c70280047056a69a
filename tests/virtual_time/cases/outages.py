"""Refusals, lookups that fail, and outages of the whole broker or of a part of it. `m` is the margin."""

from __future__ import annotations

from pathlib import Path

from ..clock import ns
from ..faults import Act, about, both, fault, lookups, renewals
from ..fleet import fleet
from ..machine import SOCKET
from ..stage import Stage
from . import Case

HOUR = 3600


# ---- refusals

def refused_at_the_start(program: Path) -> list[str]:
    """All lookups and renewals get 403 for 15 seconds (30 entries, m 60)."""
    with Stage(program, fleet(30, 600, 60, 80)) as stage:
        stage.broker.faults = [fault(0, 15, status=403)]
        stage.on(3 * HOUR)
        return stage.faults()


def refused_at_a_wake_up(program: Path) -> list[str]:
    """All get 403 for 66 seconds (m 120), and nothing is said to be short."""
    with Stage(program, fleet(30, 1000, 120, 600)) as stage:
        stage.broker.faults = [fault(480, 546, status=403)]
        stage.on(3 * HOUR)
        return stage.faults(quiet=True)


def one_400_until_shortly_before_its_end(program: Path) -> list[str]:
    """Until 10 seconds before it (m 20); for 110 seconds (m 300)."""
    found = []
    for margin, lasts in ((20, 10), (300, 110)):
        with Stage(program, fleet(3, 1500, margin, 1000, root=True)) as stage:
            stage.broker.faults = [fault(1000 - margin, 1000 - margin + lasts, status=400, picks=about("e0"))]
            stage.on(3 * HOUR)
            found += stage.faults(quiet=True)
    return found


def one_revoked_among_thirty(program: Path) -> list[str]:
    """It is said once, and nothing begins anew."""
    with Stage(program, fleet(30, 1500, 60, 1000)) as stage:
        stage.on(100)
        stage.broker.vault.named("e7").revoked = stage.world.now
        stage.on(3 * HOUR)
        stage.equal("beginnings", 1, stage.beginnings())
        stage.equal("alerts", 1, len(stage.agent.said("gone", "e7", "403", level="alert")))
        return stage.faults()


# ---- lookups

def one_lookup_fails_for_three_hours(program: Path) -> list[str]:
    """With and without entries under it."""
    found = []
    for name, root in (("e3", False), ("root", True)):
        with Stage(program, fleet(30, 600, 60, 300, root=root)) as stage:
            stage.broker.faults = [fault(0, 3 * HOUR, picks=both(lookups, about(name)))]
            stage.on(3 * HOUR + 600)
            found += stage.faults()
    return found


def the_roots_lookup_fails_across_a_jump(program: Path) -> list[str]:
    with Stage(program, fleet(30, 600, 60, 300, root=True)) as stage:
        stage.broker.faults = [fault(0, HOUR, picks=both(lookups, about("root")))]
        stage.on(1000)
        stage.clocks.wall_ahead = ns(5)
        stage.on(3 * HOUR)
        return stage.faults()


def a_lookup_that_nobody_can_read(program: Path) -> list[str]:
    with Stage(program, fleet(30, 300, 20, 200)) as stage:
        stage.broker.faults = [fault(0, 3 * HOUR, Act.GARBLED, picks=both(lookups, about("e4")))]
        stage.on(3 * HOUR)
        stage.equal("beginnings", 1, stage.beginnings())
        return stage.faults()


def a_quota_of_requests(program: Path) -> list[str]:
    """50 a second, for 40 entries."""
    found = []
    for margin in (20, 60):
        with Stage(program, fleet(40, 300, margin, margin + 30), latency=0.002) as stage:
            stage.broker.vault.quota = 50
            stage.on(HOUR)
            stage.equal("beginnings", 1, stage.beginnings())
            found += stage.faults()
    return found


# ---- outages

def one_backend_down_for_three_hours(program: Path) -> list[str]:
    """Its entry is lost, and 29 are kept."""
    with Stage(program, fleet(30, 3600, 60, 1000)) as stage:
        stage.broker.faults = [fault(0, 3 * HOUR, picks=both(renewals, about("e5")))]
        stage.on(3 * HOUR)
        stage.equal("beginnings", 1, stage.beginnings())
        stage.must(stage.broker.vault.count(renews=True) < 300, f"{stage.broker.vault.count(renews=True)} renewals")
        return stage.faults("e5")


def a_reply_that_drips(program: Path) -> list[str]:
    """It costs its own entry."""
    with Stage(program, fleet(30, 600, 60, 300)) as stage:
        stage.broker.faults = [fault(100, 3 * HOUR, Act.DRIPS, picks=both(renewals, about("e5")))]
        stage.on(3 * HOUR)
        stage.equal("beginnings", 1, stage.beginnings())
        return stage.faults("e5")


def a_slow_broker(program: Path) -> list[str]:
    """Replies of 1.5 seconds to 30 entries (m 120); of 4.7 seconds to 40 in one round (m 60)."""
    found = []
    for latency, entries, margin in ((1.5, 30, 120), (4.7, 40, 60)):
        with Stage(program, fleet(entries, 900, margin, 600), latency=latency) as stage:
            stage.on(HOUR)
            stage.equal("beginnings", 1, stage.beginnings())
            found += stage.faults(quiet=True)
    return found


def two_outages_with_half_a_minute_between(program: Path) -> list[str]:
    """310 and 273 seconds (m 600): connections are refused, broken off, or silent."""
    found = []
    for act in (None, Act.CLOSED, Act.SILENT):
        with Stage(program, fleet(30, 1500, 600, 1000)) as stage:
            if act is None:
                stage.away(400, 710)
                stage.away(740, 1013)
            else:
                stage.broker.faults = [fault(400, 710, act), fault(740, 1013, act)]
            stage.on(3 * HOUR)
            found += stage.faults(quiet=True)
    return found


def a_backend_down_and_then_all(program: Path) -> list[str]:
    """One entry gets 500 for 595 seconds, and then all are refused for 430 (step 1000, m 600)."""
    with Stage(program, fleet(30, 1000, 600, 1000)) as stage:
        stage.broker.faults = [fault(400, 995, picks=both(renewals, about("e5")))]
        stage.away(1000, 1430)
        stage.on(3 * HOUR)
        return stage.faults()


def what_a_loss_is_called(program: Path) -> list[str]:
    """A loss and an absence say why."""
    found = []
    whys = ((Act.CLOSED, 0, "closed"), (Act.SILENT, 0, "timeout"), (Act.DRIPS, 0, "timeout"), (Act.GARBLED, 0, "reply"),
            (Act.STATUS, 503, "503"), (Act.STATUS, 472, "472"), (None, 0, f"connect ./{SOCKET}: no such file"))
    for act, status, why in whys:
        with Stage(program, fleet(1, 600, 60, 100)) as stage:
            if act is None:
                stage.away(30, 50)
            else:
                stage.broker.faults = [fault(30, 50, act, status)]
            stage.on(50)
            said = [(line.event, *line.words) for line in stage.agent.lines if line.level == "warning"]
            stage.equal(f"{why}: it says", [("lost", "e0", *why.split()), ("away", *why.split())], said)
            found += stage.faults()
    return found


def an_outage_that_is_too_long(program: Path) -> list[str]:
    """One that ends with the lives of two tokens loses both: so what others do not lose could be lost."""
    with Stage(program, fleet(2, 100, 20, 100.9), width=1, latency=0.25) as stage:
        stage.broker.faults = [fault(79.5, 101, Act.SILENT)]
        stage.on(220)
        return stage.faults("e0", "e1")


KEPT: tuple[Case, ...] = (
    refused_at_the_start, refused_at_a_wake_up, one_400_until_shortly_before_its_end, one_revoked_among_thirty,
    one_lookup_fails_for_three_hours, the_roots_lookup_fails_across_a_jump, a_lookup_that_nobody_can_read, a_quota_of_requests,
    one_backend_down_for_three_hours, a_reply_that_drips, a_slow_broker, two_outages_with_half_a_minute_between,
    a_backend_down_and_then_all, what_a_loss_is_called, an_outage_that_is_too_long,
)
NOT_YET: tuple[Case, ...] = ()
