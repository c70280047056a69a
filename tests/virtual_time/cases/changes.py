"""What clients, FILE and files of credentials change while it runs."""

from __future__ import annotations

from pathlib import Path

from ..faults import Act, fault
from ..fleet import ALWAYS, Entry, Fleet, fleet
from ..machine import INVENTORY
from ..stage import Stage
from ..vault import Kind
from . import Case

HOUR = 3600


def a_need_while_a_round_is_tried_again(program: Path) -> list[str]:
    """It counts at once; nothing is cut, and nothing begins anew."""
    with Stage(program, fleet(5, 600, 60, 300)) as stage:
        stage.away(240, 270)
        stage.on(256)
        need = stage.fleet.get("e1").need + 1
        stage.equal("told", "ok", stage.ask("need", "e1", str(need))[0])
        stage.on(3 * HOUR)
        stage.equal("beginnings", 1, stage.beginnings())
        stage.equal("the need", need, stage.shown()["e1"]["need"])
        return stage.faults(quiet=True)


def needs_in_a_loop(program: Path) -> list[str]:
    """Two clients give needs in a loop (12 entries, m 20), and eight of them (40 entries, m 60), while entries are renewed."""
    found = []
    for clients, entries, margin in ((2, 12, 20), (8, 40, 60)):
        with Stage(program, fleet(entries, 400, margin, 300), latency=0.05) as stage:
            stage.on(295 - margin)
            need, number = stage.fleet.get("e0").need, 0
            while stage.now < 320 - margin:
                for client in range(clients):
                    number += 1
                    stage.client("need", f"e{(client + number) % entries}", str(need + number))
                stage.on(stage.now + 0.1)
            stage.on(800)
            found += stage.faults()
    return found


def what_was_acknowledged_holds(program: Path) -> list[str]:
    """Each kind of change, and a kill right behind its `ok`: it is there after the restart."""
    spare = Entry("x", left=5000, step=900)
    with Stage(program, fleet(6, 900, 60, 600, root=True)) as stage:
        vault = stage.broker.vault
        vault.add(spare.row(None))
        stage.on(5)
        stage.equal("need", "ok", stage.ask("need", "e1", str(ALWAYS - 1))[0])
        stage.restart()
        stage.on(7)
        stage.equal("the need", ALWAYS - 1, stage.shown()["e1"]["need"])
        stage.equal("add", "ok", stage.ask("add", spare.table())[0])
        stage.restart()
        stage.on(15)
        stage.equal("added", True, "x" in stage.shown())
        vault.add(Entry("x", left=5000, step=900, credential="s.x2").row(None))
        stage.equal("replace", "ok", stage.ask("replace", "x", "s.x2")[0])
        stage.restart()
        stage.on(30)
        stage.equal("the new secret is sent", "s.x2", [one.credential for one in vault.asked if one.name == "x"][-1])
        stage.equal("drop", "ok", stage.ask("drop", "e4")[0])
        stage.restart()
        stage.on(40)
        stage.equal("dropped", False, "e4" in stage.shown())
        stage.equal("settle", ["ok", f"{INVENTORY} holds every change"], stage.ask("settle"))
        stage.restart()
        stage.on(50)
        stage.equal("settled", (["e0", "e1", "e2", "e3", "root", "x"], ALWAYS - 1), (sorted(stage.shown()), stage.shown()["e1"]["need"]))
        stage.fleet = stage.fleet.without("e4").with_entry(spare)
        stage.on(2 * HOUR)
        return stage.faults()


def file_wins(program: Path) -> list[str]:
    """An operator writes another need into FILE than the one that was given, has it read, and it holds over a restart; a faulty file is
    refused, and after a kill the last good one is served."""
    with Stage(program, fleet(3, 900, 60, 600)) as stage:
        stage.on(5)
        stage.ask("need", "e1", str(ALWAYS - 1))
        stage.fleet = stage.fleet.changed("e1", need=ALWAYS)
        stage.write(INVENTORY, stage.fleet.text())
        stage.equal("reload", ["ok", f"{INVENTORY} was read anew"], stage.ask("reload"))
        stage.on(15)
        stage.equal("the file's need", ALWAYS, stage.shown()["e1"]["need"])
        stage.write(INVENTORY, "margin = 20 x")
        stage.equal("a faulty file", ["error: line 1: the file is not a TOML document"], [stage.ask("reload")[0].partition(";")[0]])
        stage.restart()
        stage.on(25)
        stage.equal("the copy's need", ALWAYS, stage.shown()["e1"]["need"])
        stage.on(2 * HOUR)
        return stage.faults()


def a_file_that_rotates(program: Path) -> list[str]:
    """Every ten minutes a file holds a new token, by a rename, in place, or half of it first; the old one is revoked a minute later."""
    entry = Entry("web", left=600, step=900, file="web.token")
    beside = Entry("own", left=600, step=900)
    stage = Stage(program, Fleet((entry, beside), 60))
    stage.write("web.token", "s.web\n")
    with stage:
        vault = stage.broker.vault
        for number in range(1, 9):
            stage.on(600 * number)
            old, secret = vault.named("web"), f"s.web{number}"
            vault.add(Entry("web", left=stage.now + 700, step=900, credential=secret).row(None))
            if number % 3 == 0:
                stage.write("web.token", secret)
            else:
                path = stage.room / "web.token"
                if number % 3 == 1:
                    path.write_text(secret[:3])
                    stage.date(path)
                    stage.on(stage.now + 3)
                path.write_text(secret)
                stage.date(path)
            stage.on(600 * number + 60)
            old.revoked = stage.world.now
        stage.on(600 * 9 + 300)
        stage.equal("taken", 8, len(stage.agent.said("replace", "web")))
        return stage.faults()


def a_secret_that_the_broker_refuses(program: Path) -> list[str]:
    """It is not taken, from a client or from a file, and the old one is kept. So it is with a token that never ends."""
    stage = Stage(program, Fleet((Entry("web", left=600, step=900, file="web.token"), Entry("own", left=600, step=900)), 60))
    stage.write("web.token", "s.web\n")
    with stage:
        stage.on(5)
        refused = ["error: the broker answers 403 to its lookup: own keeps the old one"]
        stage.equal("replace", refused, stage.ask("replace", "own", "s.none"))
        stage.broker.vault.add(Entry("endless", credential="s.endless").row(None, is_endless=True))
        endless = ["error: it never ends (ttl 0) and needs no keeping: own keeps the old one"]
        stage.equal("one that never ends", endless, stage.ask("replace", "own", "s.endless"))
        for secret, count in (("s.none", 1), ("s.endless", 2)):
            stage.write("web.token", secret)
            stage.on(stage.now + 15)
            stage.equal(f"a file with {secret}", count, len(stage.agent.said("secret-file", level="warning")))
        stage.on(2 * HOUR)
        return stage.faults()


def changes_in_an_outage(program: Path) -> list[str]:
    """An entry is added and one dropped while nobody answers, and FILE is read anew: nothing is lost (20 entries, m 120)."""
    spare = Entry("x", left=2000, step=900)
    with Stage(program, fleet(20, 900, 120, 600, root=True), latency=0.05) as stage:
        stage.broker.vault.add(spare.row(None))
        stage.broker.faults = [fault(470, 550, Act.SILENT)]
        stage.on(490)
        added = stage.client("add", spare.table())
        stage.on(510)
        stage.equal("add", ("ok", True), (added.lines[0], added.lines[-1].endswith("(it could not be looked up: timeout)")))
        stage.equal("drop", "ok", stage.ask("drop", "e3")[0])
        stage.equal("reload", "ok", stage.ask("reload")[0])
        stage.fleet = stage.fleet.without("e3").with_entry(spare)
        stage.on(2 * HOUR)
        return stage.faults()


def a_disk_that_is_full(program: Path) -> list[str]:
    """No change is kept, and the client is told why; what was acknowledged before holds."""
    with Stage(program, fleet(3, 900, 60, 600)) as stage:
        stage.on(5)
        stage.equal("need", "ok", stage.ask("need", "e1", str(ALWAYS - 1))[0])
        stage.agent.disk_fails(28)
        stage.equal("full", ["error: it cannot be kept: no space is left"], stage.ask("need", "e1", str(ALWAYS - 2)))
        stage.agent.disk_fails(0)
        stage.restart()
        stage.on(10)
        stage.equal("the need", ALWAYS - 1, stage.shown()["e1"]["need"])
        stage.on(HOUR)
        return stage.faults()


def changes_while_the_disk_stalls(program: Path) -> list[str]:
    """For 20 seconds, from right before the time of 12 entries on (m 60): each kind of change is told once the disk goes on, and holds
    after a kill. What is told before that is on the disk, so nothing is."""
    found = []
    for words in (("need", "e1", str(ALWAYS - 1)), ("drop", "e3"), ("settle",), ("reload",)):
        with Stage(program, fleet(12, 300, 60, 100)) as stage:
            stage.on(10)
            stage.equal("a need before", "ok", stage.ask("need", "e2", str(ALWAYS - 2))[0])
            if words == ("reload",):
                stage.write(INVENTORY, stage.fleet.changed("e4", need=ALWAYS - 4).text())
            stage.on(39)
            stage.agent.disk_stalls(20)
            client = stage.client(*words)
            stage.on(55)
            stage.must(not client.is_done, f"{words[0]}: told before the disk goes on")
            stage.on(70)
            stage.must(client.is_ok, f"{words[0]}: told {client.lines}")
            stage.restart()
            stage.on(80)
            needs = {name: row["need"] for name, row in stage.shown().items() if name in ("e1", "e2", "e3", "e4")}
            wanted = {name: stage.fleet.get(name).need for name in ("e1", "e2", "e3", "e4")} | {"e2": ALWAYS - 2}
            match words[0]:
                case "need":
                    wanted["e1"] = ALWAYS - 1
                case "drop":
                    del wanted["e3"]
                    stage.fleet = stage.fleet.without("e3")
                case "reload":
                    wanted["e4"] = ALWAYS - 4
            stage.equal(f"{words[0]}: needs", wanted, needs)
            stage.on(HOUR)
            found += stage.faults()
    return found


def leases_under_a_token_of_a_file(program: Path) -> list[str]:
    """A token whose file comes later than the agent, and a lease under it: both wait, and are kept from then on, and others all the time."""
    entries = (Entry("web", left=600, step=900, file="web.token"), Entry("own", left=600, step=900),
               Entry("db", Kind.LEASE, "web", left=600, step=900))
    with Stage(program, Fleet(entries, 60)) as stage:
        stage.on(100)
        stage.equal("shown", {"own": "kept", "web": "waiting", "db": "waiting"}, {name: row["state"] for name, row in stage.shown().items()})
        stage.write("web.token", "s.web")
        stage.on(2 * HOUR)
        stage.equal("kept", ["db", "own", "web"], sorted(name for name, row in stage.shown().items() if row["state"] == "kept"))
        return stage.faults()


KEPT: tuple[Case, ...] = (
    a_need_while_a_round_is_tried_again, needs_in_a_loop, what_was_acknowledged_holds, file_wins, a_file_that_rotates,
    a_secret_that_the_broker_refuses, changes_in_an_outage, a_disk_that_is_full, changes_while_the_disk_stalls,
    leases_under_a_token_of_a_file,
)
NOT_YET: tuple[Case, ...] = ()
