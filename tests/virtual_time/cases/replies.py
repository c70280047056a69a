"""What follows from each kind of reply, and what the requests themselves are."""

from __future__ import annotations

import json
import time
from collections.abc import Callable
from pathlib import Path

from trying import framed
from vault_replies import LEASE_ID, Replies, samples, variants, versions

from ..clock import BEGAN, NANOSECONDS, ns
from ..faults import Act, fault
from ..fleet import ALWAYS, Entry, Fleet, fleet
from ..stage import Stage, at
from ..vault import Kind
from . import Case

HOUR, DAY = 3600, 86400
REFUSED = ("400", "403", "404", "405")
LOST = ("204", "307", "401", "412", "472", "473", "500", "501", "502", "503", "504")
EMPTY = (b"", b"{", b"{}", b"[]", b'{"errors":[]}')
"""Bodies that say nothing of what was asked."""
CLOSE = b"Connection: close\r\n\r\n"
TOLD = {("entry", "app", "1100"), ("entry", "db", "1060"), ("told", "app", "100"), ("told", "db", "60")}
"""What tests/vault_replies.py tells."""


def first_trouble(program: Path, text_of: Callable[[bytes], bytes], renews: bool) -> list[tuple[str, ...]]:
    """The first lines that warn, where each lookup or each renewal is answered so."""
    with Stage(program, fleet(1, 600, 60, 100)) as stage:
        stage.on(30)
        stage.broker.text_of = text_of
        if not renews:
            stage.clocks.wall_ahead = ns(10)
        stage.on(41)
        return [(line.event, *line.words) for line in stage.agent.lines if line.level in ("warning", "alert")]


def each_status(program: Path) -> list[str]:
    """What each status of a reply to a renewal comes to, by 'HTTP status codes' of Vault's HTTP API, and a 200 that says nothing of what
    was asked."""
    found = []
    wanted: dict[str, list[tuple[str, ...]]] = {code: [("lost", "e0", code), ("away", code)] for code in LOST}
    wanted |= {code: [("refused", "e0", code)] for code in REFUSED}
    wanted["429"] = [("lost", "e0", "429")]
    for code, said in wanted.items():
        told = first_trouble(program, lambda request: framed(b'{"errors":[]}', code.encode() + b" x"), True)
        found += [] if told[:len(said)] == said else [f"{code}: {told}"]
    for body in EMPTY:
        for renews in (False, True):
            told = first_trouble(program, lambda request: framed(body), renews)
            found += [] if told[:2] == [("lost", "e0", "reply"), ("away", "reply")] else [f"{body!r}: {told}"]
    told = first_trouble(program, lambda request: framed(b'{"errors":[]}', b"403 x"), False)
    return found + ([] if set(told) == {("refused", "e0", "403"), ("gone", "e0", "403")} else [f"a lookup that is refused: {told}"])


def dates(program: Path) -> list[str]:
    """The reply's Date is the broker's clock: one that is wrong by a day moves what is told, and no end."""
    found = []
    for ahead in (0, DAY, -DAY):
        with Stage(program, fleet(3, 600, 60, 300), latency=0.01) as stage:
            stage.broker.tells_date, stage.broker.nodes_ahead = True, (float(ahead),)
            stage.on(100)
            ends = [int(line.words[1]) for line in stage.agent.said("entry", "e0")]
            stage.must(bool(ends) and abs(ends[-1] - at(300 + ahead)) <= 1, f"a Date {ahead} ahead: the end is {ends}")
            stage.on(HOUR)
            found += stage.faults()
    return found


def staged_replies(program: Path, replies: Replies) -> list[str]:
    """A token and its lease at a Vault that answers so: it is 1000 seconds after 1970 there, the token ends at 1100 and the lease at 1060."""
    entries = (Entry("app", left=100, step=100, max_ttl=9000),
               Entry("db", Kind.LEASE, "app", left=60, step=60, max_ttl=9000, credential=LEASE_ID))
    with Stage(program, Fleet(entries, 4), timeout=1, wall_ahead=1000 - BEGAN) as stage:
        def text_of(request: bytes) -> bytes:
            second = stage.clocks.wall(stage.world.now) // NANOSECONDS
            return replies.to(request, time.strftime("%a, %d %b %Y %H:%M:%S GMT", time.gmtime(second)))
        stage.broker.text_of = text_of
        stage.on(100)
        said = {(line.event, *line.words) for line in stage.agent.lines if line.event in ("entry", "told", "refused", "lost")}
        stage.equal(replies.name, TOLD, said)
        return [fault for fault in stage.faults(sick=("app", "db")) if replies.name in fault]


def whole_replies(program: Path) -> list[str]:
    """Whole replies of Vault 1.8 to 1.19, with fields that nobody asked for."""
    return [fault for replies in (*versions(), *variants(), samples()) for fault in staged_replies(program, replies)]


def requests_byte_for_byte(program: Path) -> list[str]:
    """As docs/http.md has them."""
    entries = (Entry("T", left=100, step=100, credential="s.web1"),
               Entry("L", Kind.LEASE, "T", left=100, step=60, credential="db/creds/app/1"))

    def request(method: bytes, path: bytes, body: bytes = b"") -> bytes:
        more = b"Content-Type: application/json\r\nContent-Length: %d\r\n" % len(body) if body else b""
        return method + b" /v1/" + path + b" HTTP/1.1\r\nHost: 127.0.0.1:8200\r\nX-Vault-Token: s.web1\r\n" + more + CLOSE + body
    with Stage(program, Fleet(entries, 20)) as stage:
        stage.on(85)
        stage.equal("requests", {
            request(b"GET", b"auth/token/lookup-self"), request(b"POST", b"sys/leases/lookup", b'{"lease_id":"db/creds/app/1"}'),
            request(b"POST", b"auth/token/renew-self", b'{"increment":100}'),
            request(b"POST", b"sys/leases/renew", b'{"increment":60,"lease_id":"db/creds/app/1"}')}, set(stage.broker.texts))
        return stage.faults()


def secrets_change_nothing(program: Path) -> list[str]:
    """Two inventories that differ in secrets alone give the same log, and no secret, whatever is sent back."""
    logs = []
    for mark in ("s.FIRST-MARK", "s.another-SECOND-MARK-of-more-bytes"):
        with Stage(program, Fleet((Entry("web", left=100, step=600, credential=mark),), 20)) as stage:
            stage.on(50)
            stage.broker.text_of = lambda request: framed(request, b"403 Forbidden")
            stage.on(110)
            logs.append([str(line) for line in stage.agent.lines] + [stage.agent.errors(), json.dumps(stage.shown())])
            if not all(mark.encode() in text for text in stage.broker.texts):
                return ["the secret is not sent"]
    return [f"{fault!r}" for fault in logs[0] if "MARK" in fault] + ([] if logs[0] == logs[1] else [f"{logs[0]} and {logs[1]}"])


def a_silent_broker_costs_one_time_out(program: Path) -> list[str]:
    """Nobody waits for another: 32 requests to a broker that takes them and is silent last one time-out."""
    with Stage(program, fleet(32, 600, 60, 300), width=32) as stage:
        stage.broker.faults = [fault(0, 20, Act.SILENT)]
        stage.on(5.2)
        stage.equal("lost", 32, len(stage.agent.said("lost")))
        stage.on(HOUR)
        return stage.faults()


def an_end_that_is_known_is_renewed(program: Path) -> list[str]:
    """After a restart it is renewed in time although every lookup of it is lost."""
    with Stage(program, fleet(2, 600, 60, 300)) as stage:
        stage.on(100)
        stage.broker.faults = [fault(100, HOUR, Act.CLOSED, picks=lambda request, name: not request.renews)]
        stage.restart()
        stage.on(HOUR)
        return stage.faults()


def a_need_that_ends(program: Path) -> list[str]:
    """It ends every wish; one that comes again begins a new one."""
    with Stage(program, fleet(2, 600, 60, 300)) as stage:
        stage.on(100)
        stage.ask("need", "e0", "0")
        count = stage.broker.vault.count("e0")
        stage.on(200)
        stage.equal("requests", count, stage.broker.vault.count("e0"))
        stage.ask("need", "e0", str(ALWAYS - 1))
        stage.on(2 * HOUR)
        return stage.faults()


def short_is_said_in_time(program: Path) -> list[str]:
    """An entry that cannot be kept is said to be short at once; one that is needed always, a day before its ceiling."""
    found = []
    for need, moment in ((at(3 * DAY), 0), (ALWAYS, DAY)):
        with Stage(program, Fleet((Entry("web", left=59_000, step=59_000, need=need, max_ttl=500 + 2 * DAY),), 60)) as stage:
            stage.on(DAY + HOUR)
            said = [(line.words, line.moment // NANOSECONDS) for line in stage.agent.said("short")]
            stage.equal("said", [("web", str(at(2 * DAY)))], [words for words, _ in said])
            stage.must(bool(said) and moment <= said[0][1] <= moment + 16, f"it is said at {said}")
            found += stage.faults()
    return found


def leases_that_went_with_a_revoked_token(program: Path) -> list[str]:
    """Its file gets another one. A lease that went with the old one is told as gone when its time has come, and one with a new id in its
    file is kept."""
    entries = (Entry("app", left=800, step=900, file="app.token"), Entry("web", left=800, step=900),
               Entry("db", Kind.LEASE, "app", left=800, step=900, file="db.lease", credential="db/1"),
               Entry("mq", Kind.LEASE, "app", left=800, step=900))
    stage = Stage(program, Fleet(entries, 60))
    stage.write("app.token", "s.app\n")
    stage.write("db.lease", "db/1\n")
    with stage:
        vault = stage.broker.vault
        stage.on(20)
        vault.named("app").revoked = stage.world.now
        other = vault.add(Entry("app", left=2000, step=900, credential="s.two").row(None))
        stage.write("app.token", "s.two\n")
        stage.on(45)
        vault.add(Entry("db", Kind.LEASE, left=2000, step=900, credential="db/2").row(other))
        stage.write("db.lease", "db/2\n")
        stage.on(745)
        stage.equal("gone", [("mq", "400")], [line.words for line in stage.agent.said("gone", level="alert")])
        stage.on(2 * HOUR)
        stage.equal("states", {"app": "kept", "web": "kept", "db": "kept", "mq": "gone"},
                    {name: row["state"] for name, row in stage.shown().items()})
        return stage.faults(sick=["mq"])


def leases_that_live_on(program: Path) -> list[str]:
    """A new secret in the file of a token whose leases the broker keeps: nothing is said to be gone, and the old one is asked no more."""
    entries = (Entry("app", left=800, step=900, file="app.token"), Entry("db", Kind.LEASE, "app", left=800, step=900))
    stage = Stage(program, Fleet(entries, 60))
    stage.write("app.token", "s.app\n")
    with stage:
        vault = stage.broker.vault
        stage.on(20)
        old, other = vault.named("app"), vault.add(Entry("app", left=2000, step=900, credential="s.two").row(None))
        vault.named("db").parent = other
        stage.write("app.token", "s.two\n")
        stage.on(2 * HOUR)
        stage.equal("gone", [], [str(line) for line in stage.agent.said("gone")])
        stage.equal("renewals with the old one", [], old.renewals)
        return stage.faults()


KEPT: tuple[Case, ...] = (
    each_status, dates, whole_replies, requests_byte_for_byte, secrets_change_nothing, a_silent_broker_costs_one_time_out,
    an_end_that_is_known_is_renewed, a_need_that_ends, short_is_said_in_time, leases_that_went_with_a_revoked_token,
    leases_that_live_on,
)
NOT_YET: tuple[Case, ...] = ()
