"""Lookups at the broker: of a new secret, of what an inventory is made of, and of a trial's entries."""

from __future__ import annotations

import asyncio
import json
import math
from dataclasses import dataclass
from enum import Enum
from typing import Any, Callable

from .http_client import Request, Response, Transport, TransportFault
from .inventory import DURATION_MAX, Entry, Inventory, Kind
from .rfc3339 import LAST, read_rfc3339, with_fraction


class Verdict(Enum):
    """What a reply means: the entry is there; the broker says it is not, or refuses; no answer that can be used."""

    GOOD = "good"
    REFUSED = "refused"
    FAILED = "failed"


@dataclass(frozen=True)
class Facts:
    """What a lookup tells of an entry. `granted`: for how many seconds it was issued, or renewed last; None where that is not
    told, but only since when (`since`)."""

    ttl: int
    issued: int
    explicit_max: int
    orphan: bool
    renewable: bool
    period: int
    since: float
    granted: int | None = None
    never_ends: bool = False

    def whole_ttl(self, now: float, most: int) -> int:
        """The TTL that it began with, `now` being the moment of the answer. Where it is not told, the time from then to its end, at
        most `most`. (The TTL that is told is rounded down.)"""
        since = math.ceil(now + self.ttl - self.since)
        return min(max(since, self.ttl), most) if self.granted is None else self.granted


@dataclass(frozen=True)
class Heard:
    """A reply, or its want: then `why` says what came instead."""

    verdict: Verdict
    status: int | None = None
    why: str = ""
    facts: Facts | None = None


class Broker:
    """Looks entries of an inventory up, each within the time-out as a whole."""

    def __init__(self, transport: Transport, timeout: float) -> None:
        self._transport, self._timeout = transport, timeout

    async def look_up(self, inventory: Inventory, entry: Entry) -> Heard:
        token = inventory.root_token(entry)
        read: Callable[[bytes, str], Facts | None]
        if entry.kind is Kind.TOKEN:
            request, read = Request("GET", "/v1/auth/token/lookup-self", token, b""), read_token_lookup
        else:
            body = json.dumps({"lease_id": entry.secret}, separators=(",", ":")).encode()
            request, read = Request("POST", "/v1/sys/leases/lookup", token, body), read_lease_lookup
        reply = await self._sent(request)
        if isinstance(reply, str):
            return Heard(Verdict.FAILED, None, reply)
        if reply.status == 200:
            facts = read(reply.body, entry.secret)
            if facts is None:
                return Heard(Verdict.FAILED, 200, "the reply tells no lookup of it")
            return Heard(Verdict.GOOD, 200, facts=facts)
        gone = reply.status in (403, 404) or (reply.status == 400 and entry.kind is Kind.LEASE)
        return Heard(Verdict.REFUSED if gone else Verdict.FAILED, reply.status, f"status {reply.status}")

    async def _sent(self, request: Request) -> Response | str:
        """The reply, or why there is none."""
        try:
            async with asyncio.timeout(self._timeout):
                return await self._transport.request(request)
        except TransportFault as fault:
            return str(fault)
        except TimeoutError:
            return f"no reply within {self._timeout:g} s"


class _Unreadable(Exception):
    """A reply that is not as Vault's API has it."""


def _object(body: bytes) -> dict[str, Any]:
    try:
        tree = json.loads(body)
    except (ValueError, RecursionError):
        raise _Unreadable from None
    if not isinstance(tree, dict) or tree.get("wrap_info") is not None:
        raise _Unreadable
    return tree


def _inner(tree: dict[str, Any], key: str) -> dict[str, Any]:
    inner = tree.get(key)
    if not isinstance(inner, dict):
        raise _Unreadable
    return inner


def _duration(tree: dict[str, Any], key: str, absent: int | None = None) -> int:
    value = tree.get(key)
    if value is None and absent is not None:
        return absent
    if isinstance(value, str):
        digits = value.removesuffix("s")
        # (Eleven digits are over the greatest duration, and Python reads no number of thousands.)
        value = int(digits.lstrip("0")[:11] or "0") if digits.isascii() and digits.isdigit() else None
    if type(value) is not int or not 0 <= value <= DURATION_MAX:
        raise _Unreadable
    return value


def _flag(tree: dict[str, Any], key: str) -> bool:
    value = tree.get(key)
    if value is not None and not isinstance(value, bool):
        raise _Unreadable
    return bool(value)


def read_token_lookup(body: bytes, _secret: str) -> Facts | None:
    """A reply of lookup-self; None where it is none."""
    try:
        data = _inner(_object(body), "data")
        created = data.get("creation_time")
        if type(created) is not int or not 0 <= created <= LAST:
            return None
        ttl, creation = _duration(data, "ttl"), _duration(data, "creation_ttl", 0)
        # A token about to end has ttl 0 too, but tells when it expires; one that never ends was made with ttl 0.
        never = ttl == 0 and data.get("expire_time") is None and creation == 0 and "expire_time" in data
        renewed = data.get("last_renewal_time")
        return Facts(
            ttl, created, _duration(data, "explicit_max_ttl", 0), _flag(data, "orphan"), _flag(data, "renewable"),
            _duration(data, "period", 0), max(created, renewed) if type(renewed) is int and renewed <= LAST else created,
            creation or None, never)
    except _Unreadable:
        return None


def read_lease_lookup(body: bytes, lease_id: str) -> Facts | None:
    """A reply of leases/lookup about that lease; None where it is none."""
    try:
        tree = _object(body)
        data = tree if tree.get("data") is None else _inner(tree, "data")
        issue = data.get("issue_time")
        issued = read_rfc3339(issue) if isinstance(issue, str) else None
        if data.get("id") != lease_id or issued is None:
            return None
        began, expires = (_precise(data.get(key)) for key in ("last_renewal", "expire_time"))
        since = _precise(issue) if began is None else began
        granted = None if expires is None or since is None else round(expires - since)
        return Facts(_duration(data, "ttl"), issued, 0, False, _flag(data, "renewable"), 0, since or issued,
                     granted if granted is not None and 0 < granted <= DURATION_MAX else None)
    except _Unreadable:
        return None


def _precise(value: Any) -> float | None:
    """The moment of a date with its fraction; None where it is none."""
    return with_fraction(value) if isinstance(value, str) else None
