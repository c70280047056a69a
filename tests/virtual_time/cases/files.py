"""Files of credentials and FILE itself: what stands in them, and when it is taken."""

from __future__ import annotations

import os
from collections.abc import Callable
from pathlib import Path

from ..clock import ns
from ..fleet import ALWAYS, Entry, Fleet
from ..machine import INVENTORY
from ..stage import Stage
from ..vault import Kind
from . import Case

HOUR = 3600


def with_files(program: Path, *entries: Entry, margin: int = 60) -> Stage:
    """A stage of these, each with its file."""
    stage = Stage(program, Fleet(entries, margin))
    for entry in entries:
        if entry.file is not None:
            stage.write(entry.file, entry.secret)
    return stage


def states(stage: Stage) -> dict[str, str]:
    return {name: row["state"] for name, row in stage.shown().items()}


def a_token_and_its_lease_at_once(program: Path) -> list[str]:
    """Both get new credentials in their files in one moment, in which the broker revokes the old ones: both are taken within half a
    minute, and kept."""
    app, web = Entry("app", left=800, step=900, file="app.token"), Entry("web", left=800, step=900)
    db = Entry("db", Kind.LEASE, "app", left=800, step=900, file="db.lease", credential="db/1")
    with with_files(program, app, web, db) as stage:
        vault = stage.broker.vault
        stage.on(20)
        vault.named("app").revoked = stage.world.now
        other = vault.add(Entry("app", left=2000, step=900, credential="s.two").row(None))
        vault.add(Entry("db", Kind.LEASE, left=2000, step=900, credential="db/2").row(other))
        stage.write("app.token", "s.two")
        stage.write("db.lease", "db/2")
        stage.on(50)
        stage.equal("taken", {"app", "db"}, {line.words[0] for line in stage.agent.said("replace")})
        stage.on(2 * HOUR)
        stage.equal("states", {"app": "kept", "web": "kept", "db": "kept"}, states(stage))
        later = {one.credential for one in vault.asked if one.moment > ns(60)}
        stage.equal("what is asked then", {"s.two", "db/2", "s.web"}, later)
        return stage.faults()


def another_one_behind_a_refused_one(program: Path) -> list[str]:
    """A file that held what the broker refuses holds another one: that is taken within twenty seconds. What was refused is said anew where
    the file was well in between, which is said too."""
    with with_files(program, Entry("web", left=800, step=900, file="web.token"), Entry("own", left=800, step=900)) as stage:
        stage.broker.vault.add(Entry("web", left=2000, step=900, credential="s.two").row(None, is_spare=True))
        stage.on(5)
        for secret, warnings, mended in (("s.none", 1, 0), ("s.web", 1, 1), ("s.none", 2, 1)):
            stage.write("web.token", secret)
            stage.on(stage.now + 15)
            stage.equal(f"warnings behind {secret}", warnings, len(stage.agent.said("secret-file", "web", level="warning")))
            stage.equal(f"the old one behind {secret}", mended, len(stage.agent.said("secret-file", "web", level="info")))
        stage.write("web.token", "s.two")
        next(row for row in stage.broker.vault.rows.values() if row.is_spare).is_spare = False
        stage.on(stage.now + 20)
        stage.equal("taken", 1, len(stage.agent.said("replace", "web")))
        stage.on(2 * HOUR)
        return stage.faults()


def one_that_is_added_with_a_file(program: Path) -> list[str]:
    """An entry is added whose file comes later: it waits, with an alert, and is kept from then on, over a restart too."""
    new = Entry("new", left=2000, step=900, file="new.token")
    with with_files(program, Entry("own", left=800, step=900)) as stage:
        stage.on(5)
        stage.equal("add", "ok", stage.ask("add", new.table())[0])
        stage.on(30)
        stage.equal("shown", {"own": "kept", "new": "waiting"}, states(stage))
        stage.equal("alerts", 1, len(stage.agent.said("secret-file", "new", level="alert")))
        stage.broker.vault.add(new.row(None))
        stage.write("new.token", "s.new")
        stage.on(60)
        stage.equal("shown then", {"own": "kept", "new": "kept"}, states(stage))
        stage.restart()
        stage.fleet = stage.fleet.with_entry(new)
        stage.on(2 * HOUR)
        stage.equal("shown after a restart", {"own": "kept", "new": "kept"}, states(stage))
        return stage.faults()


def another_change_takes_no_file_unseen(program: Path) -> list[str]:
    """Within the five seconds that a change waits for others a file comes to hold what the broker refuses: that is looked up, and never
    renewed."""
    entries = (Entry("web", left=800, step=900, file="web.token"), Entry("own", left=800, step=900), Entry("spare", left=800, step=900))
    with with_files(program, *entries) as stage:
        stage.on(10)
        stage.equal("drop", "ok", stage.ask("drop", "spare")[0])
        stage.fleet = stage.fleet.without("spare")
        stage.on(14.9)
        stage.write("web.token", "s.none")
        stage.on(2 * HOUR)
        asked = {one.renews for one in stage.broker.vault.asked if one.credential == "s.none"}
        stage.equal("what is asked with it", {False}, asked)
        stage.equal("states", {"web": "kept", "own": "kept"}, states(stage))
        return stage.faults()


def what_is_no_file(program: Path) -> list[str]:
    """A pipe that nobody writes to, a folder, or a device without an end in the place of FILE holds nothing up: it is not read anew, nor
    settled, and after a kill the last good one is served."""
    found = []
    makes: tuple[Callable[[Path], object], ...] = (os.mkfifo, os.mkdir, lambda path: path.symlink_to("/dev/zero"))
    for make in makes:
        with with_files(program, Entry("own", left=800, step=900), Entry("app", left=800, step=900)) as stage:
            stage.on(5)
            stage.equal("need", "ok", stage.ask("need", "own", str(ALWAYS - 1))[0])
            (stage.room / INVENTORY).unlink()
            make(stage.room / INVENTORY)
            for word in ("reload", "settle"):
                stage.must(stage.ask(word)[0].startswith("error: "), f"it can {word}")
            stage.restart()
            stage.on(2 * HOUR)
            stage.equal("needs", {"own": ALWAYS - 1, "app": stage.fleet.get("app").need},
                        {name: row["need"] for name, row in stage.shown().items()})
            found += stage.faults()
    return found


def many_reloads(program: Path) -> list[str]:
    """FILE has another margin each time, 300 times within half a minute: nothing begins anew, nobody is looked up again, and the last one
    is served."""
    with with_files(program, Entry("own", left=800, step=900), Entry("app", left=800, step=900)) as stage:
        stage.on(10)
        for number in range(300):
            stage.write(INVENTORY, Fleet(stage.fleet.entries, 31 + number % 7).text())
            stage.client("reload")
            stage.on(stage.now + 0.1)
        stage.on(60)
        stage.equal("beginnings", 1, stage.beginnings())
        stage.equal("lookups", 2, stage.broker.vault.count(renews=False))
        stage.equal("the margin", str(31 + 299 % 7), stage.ask("status")[1].split()[-1])
        stage.on(2 * HOUR)
        return stage.faults()


KEPT: tuple[Case, ...] = (
    a_token_and_its_lease_at_once, another_one_behind_a_refused_one, one_that_is_added_with_a_file, another_change_takes_no_file_unseen,
    what_is_no_file, many_reloads,
)
NOT_YET: tuple[Case, ...] = ()
