"""Ceilings, short grants, trees, and what a broker's terms make of them."""

from __future__ import annotations

from pathlib import Path

from ..clock import NANOSECONDS, ns
from ..faults import Act, about, both, fault, renewals
from ..fleet import Entry, Fleet, fleet, of, tokens
from ..stage import Stage, at
from . import Case

HOUR, DAY = 3600, 86400


def ceilings_nearer_than_written(program: Path) -> list[str]:
    """20 of them, at one moment or 100 seconds apart: at most 400 renewals in 3 hours, never over 60 a minute, and a warning each."""
    found = []
    for apart in (0, 100):
        real = {f"e{place}": {"ceiling": ns(3000 + apart * place)} for place in range(20)}
        with Stage(program, fleet(20, 600, 60, 300), real=real) as stage:
            stage.on(3 * HOUR)
            moments = [one.moment for one in stage.broker.vault.asked if one.renews]
            most = max(sum(moment <= other < moment + 60 * NANOSECONDS for other in moments) for moment in moments)
            stage.must(len(moments) <= 400, f"{apart} apart: {len(moments)} renewals")
            stage.must(most <= 60, f"{apart} apart: {most} renewals in a minute")
            shorts = [line.words[0] for line in stage.agent.said("short", level="warning")]
            stage.equal(f"{apart} apart: warnings", sorted(real), sorted(shorts))
            found += stage.faults()
    return found


def grants_that_are_shorter_than_asked(program: Path) -> list[str]:
    """30 seconds, and 62, to one of five entries (m 60): under 1,500 and 800 renewals in 3 hours."""
    found = []
    for seconds, most in ((30, 1500), (62, 800)):
        with Stage(program, fleet(5, 3600, 60, 1000), real={"e2": {"grants": seconds, "end": ns(seconds)}}) as stage:
            stage.on(3 * HOUR)
            count = stage.broker.vault.count(renews=True)
            stage.must(count < most, f"grants of {seconds}: {count} renewals")
            found += stage.faults()
    return found


def short_grants_are_no_ceiling(program: Path) -> list[str]:
    """Grants of 600 seconds of 3,600, and a need in the middle of a round, so that there is a second one right after it: each seems to
    lead no further than the one before."""
    found = []
    for entries, latency in ((80, 0.05), (66, 0.25), (80, 0.4)):
        real = {f"e{place}": {"grants": 600} for place in range(entries)}
        with Stage(program, fleet(entries, 3600, 60, 600), latency=latency, real=real) as stage:
            stage.on(540.3)
            stage.client("need", f"e{entries - 1}", str(stage.fleet.get("e0").need + 1))
            stage.on(HOUR)
            stage.equal("topped", [], [str(line) for line in stage.agent.said("top")])
            found += stage.faults(quiet=True)
    return found


def a_short_grant_is_no_ceiling(program: Path) -> list[str]:
    """One grant of 30 seconds, and then longer ones again."""
    with Stage(program, fleet(2, 600, 60, 200)) as stage:
        stage.on(139)
        stage.broker.vault.named("e0").grants = 30
        stage.on(142)
        stage.broker.vault.named("e0").grants = None
        stage.on(600)
        return stage.faults(quiet=True)


def a_ceiling_is_told(program: Path) -> list[str]:
    """It takes few renewals to find it, and the warning has its moment."""
    with Stage(program, fleet(2, 600, 60, 400), real={"e0": {"ceiling": ns(1500)}}) as stage:
        stage.on(2 * HOUR)
        stage.must(len(stage.broker.vault.named("e0").renewals) < 20, "it takes 20 renewals")
        stage.equal("warnings", [("e0", str(at(1500)))], [line.words for line in stage.agent.said("short", level="warning")])
        return stage.faults()


def the_terms_follow_the_broker(program: Path) -> list[str]:
    """It says orphan, and a shorter step: the parent is needed no more, and `job` is kept by what it is granted."""
    entries = (Entry("base", left=900, step=1000, need=0), Entry("job", parent="base", left=900, step=1000, need=at(5000)))
    with Stage(program, Fleet(entries, 60), real={"job": {"parent": None, "grants": 70}}) as stage:
        stage.on(4000)
        stage.equal("it is said", 1, len(stage.agent.said("orphan", "job", level="warning")))
        stage.equal("base ends", 0, len(stage.broker.vault.named("base").renewals))
        return stage.faults(sick=["base"])


def gone_and_back(program: Path) -> list[str]:
    """For 100 seconds a token with three leases gets 403: one alert, and nothing is lost."""
    rooted = fleet(4, 600, 60, 400, root=True)
    other = Entry("other", left=400, step=600)
    with Stage(program, of(60, rooted.entries[:1], (other,), rooted.entries[1:])) as stage:
        stage.broker.faults = [fault(0, 100, status=403, picks=about("root"))]
        stage.on(1200)
        stage.equal("alerts", 1, len(stage.agent.said("gone", "root", "403", level="alert")))
        return stage.faults()


def a_token_that_never_ends(program: Path) -> list[str]:
    """It is named, and its children are kept."""
    entries = (Entry("root", left=10**6, step=600, need=0), Entry("child", parent="root", left=400, step=600))
    with Stage(program, Fleet(entries, 60), real={"root": {"is_endless": True}}) as stage:
        stage.on(2 * HOUR)
        stage.equal("alerts", 1, len(stage.agent.said("never", "root", level="alert")))
        stage.equal("states", {"root": "kept", "child": "kept"}, {name: row["state"] for name, row in stage.shown().items()})
        return stage.faults()


def what_nobody_needs_is_not_asked(program: Path) -> list[str]:
    with Stage(program, fleet(3, 600, 60, 400).changed("e1", need=0)) as stage:
        stage.on(HOUR)
        stage.equal("e1 is asked", 0, stage.broker.vault.count("e1"))
        stage.must(stage.broker.vault.count("e0") > 5, "e0 is not kept")
        stage.equal("alerts", [], [str(line) for line in stage.agent.lines if line.level == "alert"])
        return stage.faults()


def pauses_of_what_is_lost(program: Path) -> list[str]:
    """From a failure within the margin to the next try no more than a sixteenth of what is left passes, a second at least, and half a
    minute at most. The end here is 1000."""
    with Stage(program, fleet(3, 1500, 600, 1000)) as stage:
        stage.broker.faults = [fault(400, 999, picks=both(renewals, about("e1")))]
        stage.on(1001)
        moments = stage.broker.vault.moments("e1", True)
        stage.must(400 <= moments[0] < 401.1, f"it is first renewed at {moments[0]}")
        for moment, later in zip(moments, moments[1:]):
            most = min(max((1000 - moment) / 16, 1), 30) + 1
            stage.must(0.998 <= later - moment <= most, f"it is renewed at {moment}, and then at {later}")
        stage.must(moments[-1] >= 999, f"it is last renewed at {moments[-1]}")
        return stage.faults()


def a_refused_renewal_is_followed_by_a_lookup(program: Path) -> list[str]:
    with Stage(program, fleet(3, 600, 60, 200)) as stage:
        stage.broker.faults = [fault(139.5, 140.9, status=400, picks=both(renewals, about("e1")))]
        stage.on(400)
        asked = [one.renews for one in stage.broker.vault.asked if one.name == "e1"]
        stage.equal("what is asked", [False, True, False, True], asked[:4])
        return stage.faults(quiet=True)


def a_busy_broker_delays_its_own_entry(program: Path) -> list[str]:
    """After a 429 its entry waits for a second, and no other; and whose lookup failed is renewed, since a grant tells its end too."""
    with Stage(program, fleet(20, 300, 20, 200)) as stage:
        stage.broker.faults = [fault(0, 2.5, status=429, picks=about("e1"))]
        stage.on(10)
        first = [one for one in stage.broker.vault.asked if one.name != "e1"]
        stage.must(all(one.moment < ns(0.5) for one in first), "another waits")
        stage.must(stage.broker.vault.count("e1") <= 5, f"e1 is asked {stage.broker.vault.count('e1')} times")
        return stage.faults()


def never_more_at_once_than_may_be(program: Path) -> list[str]:
    """A broker that is silent is asked as many at once as there are lanes."""
    found = []
    for width in (1, 3, 8, 32):
        with Stage(program, fleet(40, 300, 20, 200), width=width) as stage:
            stage.broker.faults = [fault(0, 100, Act.SILENT)]
            stage.on(0.5)
            stage.equal(f"width {width}: out", width, stage.broker.out)
            found += stage.faults()
    return found


def tops_at_one_moment(program: Path) -> list[str]:
    """Tokens of which the broker renews none past the same moment, with one that goes on: the others are topped, and it is kept."""
    real = {f"t{place}": {"ceiling": ns(2000.5)} for place in range(5)}
    with Stage(program, of(60, tokens("t", 5, 500.9, 600), tokens("o", 1, 500.9, 600)), real=real) as stage:
        stage.on(2 * HOUR)
        stage.equal("topped", sorted(real), sorted({line.words[0] for line in stage.agent.said("top")}))
        return stage.faults()


KEPT: tuple[Case, ...] = (
    ceilings_nearer_than_written, grants_that_are_shorter_than_asked, short_grants_are_no_ceiling, a_short_grant_is_no_ceiling,
    a_ceiling_is_told, the_terms_follow_the_broker, gone_and_back, a_token_that_never_ends, what_nobody_needs_is_not_asked,
    pauses_of_what_is_lost, a_refused_renewal_is_followed_by_a_lookup, a_busy_broker_delays_its_own_entry, never_more_at_once_than_may_be,
    tops_at_one_moment,
)
NOT_YET: tuple[Case, ...] = ()
