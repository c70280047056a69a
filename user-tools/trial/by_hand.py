"""A broker in real time that obeys lines: it goes away for a while, revokes an entry, issues one anew, or tells how each entry stands."""

from __future__ import annotations

import asyncio
import json
import re
import time
from dataclasses import replace

from leasekeep_inventory.broker import Heard, Verdict
from leasekeep_inventory.inventory import Entry, Inventory, Kind
from leasekeep_inventory.rfc3339 import date_text

from .stage import Trial

ORDERS = "stop SECONDS, revoke NAME, issue NAME, status"
_LONGEST = 86400
_CREDENTIAL_MAX = 256


def filled(inventory: Inventory, now: int) -> Inventory:
    """The entries as the broker serves them: one whose issue and end are left open was issued now, and ends after its step, at its
    ceiling at the latest. The broker asks for no need."""
    def fill(entry: Entry) -> Entry:
        if not entry.lacks_terms:
            return replace(entry, need=0)
        return issued(inventory, replace(entry, need=0), now)
    return inventory.mapped(fill)


def issued(inventory: Inventory, entry: Entry, now: int) -> Entry:
    """The entry as it is issued at that moment."""
    ceiling = inventory.ceiling(entry, now, entry.period, entry.explicit_max_ttl)
    end = now + entry.step
    return replace(entry, issued=now, end=end if ceiling is None else min(end, ceiling))


class ByHand:
    """The broker of a trial whose agent somebody else runs. A credential that is revoked stays so, with all that is under it."""

    def __init__(self, trial: Trial) -> None:
        self._trial = trial
        self._revoked: set[tuple[Kind, str]] = set()
        self._first = {entry.name: entry.secret for entry in trial.inventory.entries}
        self._issues = 0
        self._away: asyncio.Task[None] | None = None

    async def start(self) -> None:
        """Begins to serve; BrokerFault or OSError where it cannot."""
        self._trial.relay.own_answer = self._refusal
        await self._trial.start_broker(self._trial.inventory)

    async def stop(self) -> None:
        if self._away is not None:
            self._away.cancel()
        await self._trial.stop_broker()

    async def obey(self, line: str) -> str:
        """What there is to say once a line is obeyed; why it is not, where it is none of the orders."""
        match line.split():
            case []:
                return ""
            case ["stop", seconds] if re.fullmatch(r"[0-9]{1,5}", seconds) and 1 <= int(seconds) <= _LONGEST:
                return await self._go_away(int(seconds))
            case ["revoke", name]:
                return self._revoke(name)
            case ["issue", name]:
                return await self._issue(name)
            case ["status"]:
                return await self._status()
        return f"the orders are: {ORDERS} (1 to {_LONGEST} seconds)"

    async def _go_away(self, seconds: int) -> str:
        if self._away is not None and not self._away.done():
            return "the broker is away already"
        await self._trial.relay.stop()
        self._away = asyncio.create_task(self._come_back(seconds))
        return f"the broker is away for {seconds} s"

    async def _come_back(self, seconds: int) -> None:
        await asyncio.sleep(seconds)
        await self._trial.relay.start()
        print(dated("the broker is back"), flush=True)

    def _revoke(self, name: str) -> str:
        if self._trial.inventory.find(name) is None:
            return f"no entry is named {name}"
        under = self._trial.rows.with_all_under([name])
        self._revoked |= {(entry.kind, entry.secret) for entry in self._trial.rows.entries if entry.name in under}
        return f"revoked: {' '.join(entry.name for entry in self._trial.inventory.entries if entry.name in under)}"

    async def _issue(self, name: str) -> str:
        """The entry and all under it get new credentials, as from a new login. Those that they had live on until their ends."""
        entry = self._trial.inventory.find(name)
        if entry is None:
            return f"no entry is named {name}"
        async with self._trial.relay.gate:
            rows = await self._trial.rows_now()
            if entry.parent is not None and any(self._is_gone(over.name, rows) for over in self._trial.inventory.over(entry.parent)):
                return f"{name} stands under {entry.parent}, which has ended or is revoked: issue that"
            under = self._trial.inventory.with_all_under([name])
            new = {one.name: self._anew(one) for one in self._trial.inventory.entries if one.name in under}
            self._trial.issue(new, rows)
            await self._trial.change_rows(self._trial.rows)
        return "\n".join(f"issued {one.name} {one.secret}" for one in new.values())

    def _is_gone(self, name: str, rows: Inventory) -> bool:
        entry = rows.find(name)
        return entry is None or (entry.kind, entry.secret) in self._revoked

    def _anew(self, entry: Entry) -> Entry:
        """The entry with another credential, its first one and a number, issued now."""
        taken = {(one.kind, one.secret) for one in self._trial.rows.entries} | self._revoked
        while True:
            self._issues += 1
            mark = f".{self._issues}"
            credential = f"{self._first[entry.name][:_CREDENTIAL_MAX - len(mark)]}{mark}"
            if (entry.kind, credential) not in taken:
                return issued(self._trial.inventory, replace(entry, credential=credential), int(time.time()))

    async def _status(self) -> str:
        heard = await self._trial.look_up_all()
        now = int(time.time())
        return "\n".join(f"{name} {self._standing(name, one, now)}" for name, one in heard.items())

    def _standing(self, name: str, heard: Heard, now: int) -> str:
        entry = self._trial.inventory.find(name)
        if entry is not None and (entry.kind, entry.secret) in self._revoked:
            return "revoked"
        if heard.verdict is not Verdict.GOOD or heard.facts is None:
            return f"gone ({heard.why})"
        return f"alive until {date_text(now + heard.facts.ttl)}"

    def _refusal(self, request: bytes) -> bytes | None:
        """Vault's reply to a request with a token, or about a lease, that is revoked; None for any other request."""
        head, _, body = request.partition(b"\r\n\r\n")
        token = re.search(rb"\r\nx-vault-token: *([!-~]+) *(?:\r\n|$)", head, re.IGNORECASE)
        if token is not None and (Kind.TOKEN, token[1].decode()) in self._revoked:
            return _reply("403 Forbidden", "permission denied")
        if (Kind.LEASE, _lease_id(body)) in self._revoked:
            return _reply("400 Bad Request", "invalid lease")
        return None


def dated(said: str) -> str:
    """The words after the present moment, as the agent's log has it."""
    return f"{date_text(int(time.time()))} {said}"


def _lease_id(body: bytes) -> str | None:
    try:
        tree = json.loads(body)
    except (ValueError, RecursionError):
        return None
    found = tree.get("lease_id") if isinstance(tree, dict) else None
    return found if isinstance(found, str) else None


def _reply(status: str, why: str) -> bytes:
    body = json.dumps({"errors": [why]}, separators=(",", ":"))
    return f"HTTP/1.1 {status}\r\nContent-Type: application/json\r\nContent-Length: {len(body)}\r\nConnection: close\r\n\r\n{body}".encode()
