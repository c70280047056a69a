"""Three agents of one fleet: one in front, and two behind it (docs/running.md, Several machines). Of each agent the judges say what they
say of a single one: believed ends are no later than the broker's, no entry is renewed before its time by that agent's own margin, and none
is forgotten."""

from __future__ import annotations

from collections.abc import Callable
from dataclasses import replace
from pathlib import Path

from ..clock import ns
from ..faults import Act, fault
from ..fleet import Entry, Fleet, of, tokens
from ..machine import INVENTORY
from ..machines import FRONT, SECOND, THIRD, Machines
from ..plots import SLACK, longest
from ..stage import Stage
from . import Case

HOUR = 3600
BEGINS, LASTS = 300, 300
"""When something goes wrong, and for how long: for longer than any entry lives."""
ENDS, LATER = BEGINS + LASTS, 1300
PAUSE = 300
"""For so long an agent may pause that takes all its entries for lost."""


def twelve() -> Fleet:
    """Half of them have steps of four minutes, and half of ten."""
    return of(60, tokens("a", 6, lambda place: 100 + 20 * place, 240), tokens("b", 6, lambda place: 150 + 70 * place, 600))


def quick(margin: int = 60) -> Fleet:
    """Twelve with steps of three to five minutes."""
    entries = tokens("e", 12, lambda place: 90 + 9 * place)
    return Fleet(tuple(replace(entry, step=180 + 10 * place) for place, entry in enumerate(entries)), margin)


def looks(three: Machines, margin: int) -> int:
    """How many lookups one behind sends where the one in front renews in time: one for each entry at its start, and one for each end whose
    look moment has come. (What it believes is up to two seconds earlier; nothing is looked up so near the end of the hour.)"""
    lead = ns(margin + (three.fleet.margin - margin) / 2)
    ends = [[ns(entry.left), *(end for _, end in three.vault.named(entry.name).renewals)] for entry in three.fleet.entries]
    return sum(1 + sum(end - lead <= three.world.now for end in its) for its in ends)


def a_calm_hour(program: Path) -> list[str]:
    """The one in front sends what it would send alone. The others renew nothing, and look each entry up at their start and once for each
    of its ends."""
    with Stage(program, twelve()) as stage:
        stage.on(HOUR)
        alone = [(one.moment, one.name, one.renews) for one in stage.broker.vault.asked]
    with Machines(program, twelve()) as three:
        three.on(HOUR)
        asked = three.vault.asked
        three.equal("requests in front", alone, [(one.moment, one.name, one.renews) for one in asked if one.by == FRONT])
        three.leave(0)
        for machine in three.behind:
            got = three.vault.count(by=machine.name)
            three.equal(f"lookups of {machine.name}", looks(three, machine.margin), got)
            three.equal(f"{machine.name} says ahead", got - 12, len(machine.agent.said("ahead")))
            three.equal("steps in", [], machine.agent.said("steps-in"))
        shown = [machine.agent.page("/status")["standby"] for machine in three.of.values()]
        three.equal("shown", ["first", "behind", "behind"], shown)
        three.must(500 <= len(asked) <= 520, f"{len(asked)} requests in all, and {len(alone)} of one alone")
        return three.faults()


# ---- something is wrong with the one in front


def wrong_in_front(program: Path, happens: Callable[[Machines], None], is_over: Callable[[Machines], None]) -> list[str]:
    """For five minutes those behind keep everything, and then they leave it again."""
    with Machines(program, quick()) as three:
        three.on(BEGINS)
        three.leave(0)
        happens(three)
        three.on(ENDS)
        three.step_in(BEGINS, ENDS)
        is_over(three)
        three.on(LATER)
        three.leave(ENDS + PAUSE + three.fleet.margin)
        three.equal("renewed in front", set(three.fleet.names), set(three.renewals(FRONT, ENDS)))
        return three.faults()


def nothing(_three: Machines) -> None:
    """It is over by itself."""


def the_one_in_front_is_killed(program: Path) -> list[str]:
    """It is started again five minutes later."""
    return wrong_in_front(program, lambda three: three.front.agent.kill(), lambda three: three.front.start())


def the_one_in_front_is_stopped(program: Path) -> list[str]:
    """By SIGSTOP; and it goes on, with ends that are long over."""
    return wrong_in_front(program, lambda three: three.front.agent.stand_still(LASTS), nothing)


def the_one_in_front_is_suspended(program: Path) -> list[str]:
    return wrong_in_front(program, lambda three: three.front.agent.suspend(LASTS), nothing)


def the_one_in_front_is_cut_off(program: Path) -> list[str]:
    """What it sends is answered by nobody."""
    def cut(three: Machines) -> None:
        three.front.broker.faults = [fault(BEGINS, ENDS, Act.SILENT)]
    return wrong_in_front(program, cut, nothing)


def never_back(program: Path) -> list[str]:
    """The one in front is killed for good, and later one of those behind: the last one keeps everything."""
    with Machines(program, quick()) as three:
        three.on(BEGINS)
        three.front.agent.kill()
        three.on(LATER)
        three.step_in(BEGINS, LATER)
        three.of[SECOND].agent.kill()
        three.on(2 * LATER)
        three.equal("requests of others", 0, sum(one.by != THIRD for one in three.vault.asked if one.moment > ns(LATER)))
        return three.faults()


def two_agents(program: Path) -> list[str]:
    """One behind another, which is killed again and again and comes back each time: nothing is lost, and what it does is left to it."""
    with Machines(program, quick(), names=(FRONT, THIRD)) as two:
        for turn in range(1, 4):
            two.on(2 * turn * BEGINS)
            two.leave(2 * turn * BEGINS - 300)
            two.front.agent.kill()
            two.on(2 * turn * BEGINS + 70 * turn)
            two.front.start()
        two.on(8 * BEGINS)
        return two.faults()


STALE = ("e0", "e4", "e8", "e11")


def a_stale_secret(program: Path) -> list[str]:
    """Four credentials are replaced by their files on the machines behind, and not on the one in front. A minute later the old ones are
    revoked. Its file comes a quarter of an hour later, and then those behind leave it these entries again."""
    held = quick().mapped(lambda entry: replace(entry, file=f"{entry.name}.token") if entry.name in STALE else entry)
    new = {name: f"s.{name}.new" for name in STALE}
    with Machines(program, held, unjudged={name: STALE for name in (FRONT, SECOND, THIRD)}) as three:
        three.on(BEGINS)
        for name in STALE:
            entry, old = held.get(name), three.vault.named(name)
            three.vault.add(replace(entry, credential=new[name], left=BEGINS + entry.step).row(None))
            old.revoked = ns(BEGINS + 60)
            for machine in three.behind:
                machine.write(f"{name}.token", new[name])
        three.on(ENDS)
        since = three.now
        three.on(LATER)
        by = {name for machine in three.behind for name in three.renewals(machine.name, since)}
        three.must(set(STALE) <= by, f"renewed by those behind: {by}")
        three.equal("gone in front", set(STALE), {line.words[0] for line in three.front.agent.said("gone", level="alert")})
        for name in STALE:
            three.front.write(f"{name}.token", new[name])
        three.on(2 * LATER)
        three.leave(LATER + PAUSE + three.fleet.margin)
        return three.faults()


def an_older_file(program: Path) -> list[str]:
    """Two entries are not in FILE of the one in front: those behind keep them. (Their rounds ask others along.)"""
    older = quick().without("e5").without("e9")
    with Machines(program, quick(), files={FRONT: older}) as three:
        three.on(LATER)
        for machine in three.behind:
            three.must({"e5", "e9"} <= set(three.renewals(machine.name)), f"{machine.name} renews them")
        three.equal("renewed in front", set(older.names), set(three.renewals(FRONT)))
        return three.faults()


def a_slow_one_in_front(program: Path) -> list[str]:
    """It wakes up two seconds late, and its replies take three: those behind have nothing to do."""
    with Machines(program, quick(), odd={FRONT: {"late": 2.0, "latency": 3.0}}) as three:
        three.on(LATER)
        three.leave(0)
        return three.faults()


def too_slow_in_front(program: Path) -> list[str]:
    """It sends one request at a time, and each takes four seconds. Those behind renew some of its entries, and nothing is lost."""
    with Machines(program, quick(), odd={FRONT: {"width": 1, "latency": 4.0}}) as three:
        three.on(LATER)
        return three.faults()


# ---- something else is wrong


def one_behind_is_cut_off(program: Path) -> list[str]:
    """For ten minutes: nothing happens, and then it leaves again to the one in front what that does."""
    with Machines(program, quick()) as three:
        three.of[SECOND].broker.faults = [fault(BEGINS, BEGINS + 600, Act.SILENT)]
        three.on(LATER + PAUSE)
        three.equal("renewed by the other", [], three.renewals(THIRD))
        three.equal("renewed by it", [], three.renewals(SECOND, BEGINS + 600 + PAUSE + three.fleet.margin))
        return three.faults()


def two_in_front(program: Path) -> list[str]:
    """Each renewal is sent twice, and nothing is lost."""
    with Machines(program, quick(), fronts=(FRONT, SECOND)) as three:
        three.on(ENDS)
        three.leave(0)
        return three.faults()


def nobody_in_front(program: Path) -> list[str]:
    """Those behind keep everything, and say so."""
    with Machines(program, quick(), names=(SECOND, THIRD)) as two:
        two.on(LATER)
        two.step_in(0, LATER)
        return two.faults()


def walls_that_are_wrong(program: Path) -> list[str]:
    """By an hour, on each machine otherwise."""
    walls = {FRONT: -HOUR, SECOND: HOUR, THIRD: 86400.0}
    with Machines(program, quick(), odd={name: {"wall_ahead": wall} for name, wall in walls.items()}) as three:
        three.on(ENDS)
        three.leave(0)
        return three.faults()


def an_outage_without_the_one_in_front(program: Path) -> list[str]:
    """It is dead, and the broker is away for as long as one behind survives by its own margin: at the worst moments nothing is lost."""
    found = list[str]()
    for place in range(4):
        with Machines(program, quick(), names=(FRONT, THIRD)) as two:
            two.on(100)
            two.front.agent.kill()
            machine = two.of[THIRD]
            two.on(BEGINS)
            time = min(row.end for row in two.vault.rows.values()) - ns(machine.margin)
            since = max(time / ns(1) - 1 - place / 5, two.now)
            machine.broker.faults = [fault(since, since + longest(machine.margin, 12, 8, 5, 0, 0) - 0.1, Act.SILENT)]
            two.on(since + 200)
            found += two.faults()
    return found


def its_looks_are_known_after_a_restart(program: Path) -> list[str]:
    """One behind has renewed nothing for half an hour. Then the one in front dies, and the broker is away; the one behind is started again
    in that outage, and knows the ends that it heard when it looked."""
    found = list[str]()
    for restarts in (2, 10):
        with Machines(program, quick(), names=(FRONT, THIRD)) as two:
            two.on(LATER)
            two.front.agent.kill()
            machine = two.of[THIRD]
            two.on(max(LATER, min(row.end for row in two.vault.rows.values()) / ns(1) - machine.margin - 2))
            length = longest(machine.margin, 24, 8, 5, 0, 0) - SLACK
            machine.broker.faults = [fault(two.now, two.now + length, Act.SILENT)]
            two.on(two.now + restarts)
            machine.restart()
            two.on(two.now + 300)
            found += two.faults()
    return found


# ---- changes


def a_file_for_each_machine(program: Path) -> list[str]:
    """FILE is brought to each machine, with an entry more, one less and another margin, and read there. Then the one in front is killed.
    (Where a wider margin has an entry's time behind already, it is renewed there at once.)"""
    with Machines(program, quick(), is_strict=False) as three:
        three.on(BEGINS)
        more = Entry("more", left=BEGINS + 300, step=300)
        three.vault.add(more.row(None))
        after = replace(quick().without("e0").with_entry(more), margin=80)
        three.write(after)
        for machine in three.of.values():
            three.equal(f"{machine.name} reads it", ["ok"], machine.ask("reload")[:1])
        three.on(BEGINS + 600)
        three.leave(0, BEGINS)
        three.leave(BEGINS + after.margin)
        three.front.agent.kill()
        three.on(LATER)
        three.step_in(BEGINS + 600, LATER)
        return three.faults()


def a_bad_push(program: Path) -> list[str]:
    """FILE says nonsense on each machine, and is read there. The one in front is killed, and one behind is started again: the last good one
    is served."""
    with Machines(program, quick()) as three:
        three.on(BEGINS)
        for machine in three.of.values():
            machine.write(INVENTORY, "margin = oh no\n")
            three.must(machine.ask("reload")[:1] != ["ok"], f"{machine.name} takes it")
        three.front.agent.kill()
        three.of[SECOND].restart()
        three.on(LATER)
        three.step_in(BEGINS, LATER)
        three.front.start()
        three.on(LATER + 600)
        three.leave(LATER + three.fleet.margin)
        return three.faults()


KEPT: tuple[Case, ...] = (
    a_calm_hour, the_one_in_front_is_killed, the_one_in_front_is_stopped, the_one_in_front_is_suspended, the_one_in_front_is_cut_off,
    never_back, two_agents, a_stale_secret, an_older_file, a_slow_one_in_front, too_slow_in_front, one_behind_is_cut_off,
    two_in_front, nobody_in_front, walls_that_are_wrong, an_outage_without_the_one_in_front, its_looks_are_known_after_a_restart,
    a_file_for_each_machine, a_bad_push,
)
NOT_YET: tuple[Case, ...] = ()
