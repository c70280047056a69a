"""A broker in memory that follows Vault's rules (docs/vault.md, docs/commands/minibroker.md), and logs each life. Moments are whole
nanoseconds of the world; durations that it tells are whole seconds, rounded down."""

from __future__ import annotations

import json
import time
from dataclasses import dataclass, field
from enum import Enum
from typing import Any

from .clock import BEGAN, NANOSECONDS, NEVER, ns


class Kind(Enum):
    TOKEN = "token"
    LEASE = "lease"


@dataclass
class Row:
    """A token or lease, by its credential: the broker knows no names, these are for the test. A renewal leads `grants` seconds on
    where that is less than what is asked for, and never past the ceiling. What ends takes all under it along."""

    name: str
    kind: Kind
    credential: str
    end: int
    parent: Row | None = None
    issued: int = -ns(500)
    ceiling: int | None = None
    grants: int | None = None
    period: int = 0
    explicit_max: int = 0
    is_renewable: bool = True
    is_endless: bool = False
    revoked: int | None = None
    is_spare: bool = False
    """Whether the agent does not have its credential yet."""
    renewals: list[tuple[int, int]] = field(default_factory=list)
    """When it was renewed, and until when."""

    def __post_init__(self) -> None:
        self.latest_end = NEVER if self.is_endless else self.end
        """The latest end that it ever had. (A renewal may lead less far than the one before.)"""

    def ended(self, now: int) -> int | None:
        """When its life was over, if it was by now."""
        ends = [moment for row in self.line() for moment in (row.revoked, NEVER if row.is_endless else row.end) if moment is not None]
        return min(ends) if min(ends) <= now else None

    def line(self) -> list[Row]:
        """It and all over it."""
        return [self] if self.parent is None else [self, *self.parent.line()]

    def reach(self) -> int:
        """Until when renewals could lead it, and all over it."""
        return min(row.own_reach() for row in self.line())

    def own_reach(self) -> int:
        limits = [NEVER if self.is_endless or self.is_renewable else self.end]
        limits += [moment for moment in (self.ceiling, self.revoked) if moment is not None]
        return min(limits)


@dataclass(frozen=True)
class Request:
    """What an agent asks, as its text says."""

    path: str
    token: str
    body: dict[str, Any]

    @property
    def credential(self) -> str:
        """Of the entry that it is about."""
        return str(self.body.get("lease_id", self.token))

    @property
    def renews(self) -> bool:
        return "/renew" in self.path


@dataclass(frozen=True)
class Asked:
    """A request as it came: when, about whom (nobody whom the broker knows: an empty name), and from which run of which agent."""

    moment: int
    run: int
    name: str
    credential: str
    renews: bool
    by: str = ""


Reply = tuple[int, dict[str, Any]]
"""A status and a body."""
DENIED: Reply = (403, {"errors": ["permission denied"]})
UNKNOWN: Reply = (400, {"errors": ["unknown lease"]})
NOT_RENEWABLE: Reply = (400, {"errors": ["lease is not renewable"]})


class Vault:
    """Its rows, and what it was asked."""

    def __init__(self) -> None:
        self.rows: dict[str, Row] = {}
        self.asked: list[Asked] = []
        self.quota: int | None = None
        """Requests a second; the others hear 429."""
        self.has_whole_seconds = False
        """Whether it reckons with whole seconds."""
        self._recent: list[int] = []

    def add(self, row: Row) -> Row:
        self.rows[row.credential] = row
        return row

    def by_name(self) -> dict[str, Row]:
        """The rows of which the agent has the credentials, by their names; the one of a name that was added last."""
        return {row.name: row for row in self.rows.values() if not row.is_spare}

    def named(self, name: str) -> Row:
        """That of this name."""
        return next(row for row in reversed(self.rows.values()) if row.name == name and not row.is_spare)

    def latest_ends(self) -> dict[str, int]:
        """The latest end that any row of a name ever had."""
        ends: dict[str, int] = {}
        for row in self.rows.values():
            ends[row.name] = max(row.latest_end, ends.get(row.name, row.latest_end))
        return ends

    def count(self, name: str | None = None, renews: bool | None = None, by: str | None = None) -> int:
        """How many requests came, of one entry, of one kind or from one agent."""
        return sum(name in (None, one.name) and renews in (None, one.renews) and by in (None, one.by) for one in self.asked)

    def moments(self, name: str, renews: bool | None = None) -> list[float]:
        """When it was asked about an entry, in seconds of the world."""
        return [one.moment / NANOSECONDS for one in self.asked if one.name == name and renews in (None, one.renews)]

    def hear(self, request: Request, now: int, run: int, by: str = "") -> str:
        """A request has come; the name of the entry that it is about."""
        row = self.rows.get(request.credential)
        name = "" if row is None else row.name
        self.asked.append(Asked(now, run, name, request.credential, request.renews, by))
        return name

    def answer(self, request: Request, now: int) -> Reply:
        """What it answers at that moment, by its rules."""
        if self._is_over_quota(now):
            return 429, {"errors": []}
        if self.has_whole_seconds:
            now -= now % NANOSECONDS
        token = self.rows.get(request.token)
        if token is None or token.kind is not Kind.TOKEN or token.ended(now) is not None:
            return DENIED
        if "lease_id" not in request.body:
            return renewed_token(token, request, now) if request.renews else (200, {"data": facts_of_token(token, now)})
        lease = self.rows.get(request.credential)
        if lease is None or lease.kind is not Kind.LEASE or lease.ended(now) is not None:
            return UNKNOWN
        return renewed_lease(lease, request, now) if request.renews else (200, {"data": facts_of_lease(lease, now)})

    def _is_over_quota(self, now: int) -> bool:
        if self.quota is None:
            return False
        self._recent = [moment for moment in self._recent if moment > now - NANOSECONDS]
        if len(self._recent) >= self.quota:
            return True
        self._recent.append(now)
        return False


def renew(row: Row, asked: int, now: int) -> int:
    """Renews it; how many seconds that leads."""
    step = row.period or asked
    if row.grants is not None:
        step = min(step, row.grants)
    row.end = now + ns(step) if row.ceiling is None else min(now + ns(step), row.ceiling)
    row.renewals.append((now, row.end))
    row.latest_end = max(row.latest_end, row.end)
    return left(row, now)


def left(row: Row, now: int) -> int:
    return max((row.end - now) // NANOSECONDS, 0)


def renewed_token(row: Row, request: Request, now: int) -> Reply:
    if not row.is_renewable:
        return NOT_RENEWABLE
    return 200, {"auth": {"lease_duration": renew(row, request.body.get("increment", 0), now), "renewable": True}}


def renewed_lease(row: Row, request: Request, now: int) -> Reply:
    if not row.is_renewable:
        return NOT_RENEWABLE
    seconds = renew(row, request.body.get("increment", 0), now)
    return 200, {"lease_id": row.credential, "lease_duration": seconds, "renewable": True}


def facts_of_token(row: Row, now: int) -> dict[str, Any]:
    return {
        "creation_time": second_of(row.issued), "expire_time": None if row.is_endless else date_of(row.end),
        "explicit_max_ttl": row.explicit_max, "orphan": row.parent is None, "period": row.period,
        "renewable": row.is_renewable and not row.is_endless, "ttl": 0 if row.is_endless else left(row, now),
    }


def facts_of_lease(row: Row, now: int) -> dict[str, Any]:
    return {"expire_time": date_of(row.end), "id": row.credential, "issue_time": date_of(row.issued), "last_renewal": None,
            "renewable": row.is_renewable, "ttl": left(row, now)}


def second_of(moment: int) -> int:
    """That moment in whole seconds since 1970."""
    return BEGAN + moment // NANOSECONDS


def date_of(moment: int) -> str:
    return time.strftime("%Y-%m-%dT%H:%M:%SZ", time.gmtime(second_of(moment)))


def reply_text(reply: Reply, date: int | None = None) -> bytes:
    """The reply as it is sent. `date`: the moment that its head tells."""
    status, told = reply
    body = json.dumps(told).encode()
    head = "" if date is None else time.strftime("Date: %a, %d %b %Y %H:%M:%S GMT\r\n", time.gmtime(second_of(date)))
    return f"HTTP/1.1 {status} X\r\n{head}Content-Length: {len(body)}\r\nConnection: close\r\n\r\n".encode() + body


def request_of(text: bytes) -> Request:
    """A whole request as it came."""
    head, _, body = text.partition(b"\r\n\r\n")
    first, *lines = head.decode().split("\r\n")
    fields = {name.lower(): word.strip() for name, _, word in (line.partition(":") for line in lines)}
    return Request(first.split(" ")[1], fields.get("x-vault-token", ""), json.loads(body) if body else {})
