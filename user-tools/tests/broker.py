"""A broker in memory in the manner of Vault: as a transport by itself, or at a port of 127.0.0.1 in a thread of its own."""

from __future__ import annotations

import asyncio
import json
import math
import threading
from dataclasses import dataclass, field
from typing import Any, Callable

from leasekeep_inventory.http_client import MOST, Request, Response
from leasekeep_inventory.inventory import Inventory, Kind
from leasekeep_inventory.rfc3339 import date_text


@dataclass
class Secret:
    """A token or lease of the broker. `lasts` is what it was issued for, or of a lease renewed for last, where lookups tell that too."""

    name: str
    kind: Kind
    parent: str | None
    end: float
    issued: float
    ceiling: float | None
    period: int = 0
    explicit_max: int = 0
    renewable: bool = True
    lasts: int | None = None


@dataclass
class Vault:
    """The broker: its clock and its rows. Where a status is given, every request is answered with it."""

    now: Callable[[], float]
    status: int | None = None
    rows: dict[str, Secret] = field(default_factory=dict)

    def load(self, inventory: Inventory, **real: dict[str, Any]) -> None:
        """The rows of an inventory, each with its end as written; `real` changes fields of some by name."""
        for entry in inventory.entries:
            ceiling = inventory.ceiling(entry, entry.issued, entry.period, entry.explicit_max_ttl)
            row = Secret(entry.name, entry.kind, entry.parent, entry.end, entry.issued, ceiling, entry.period, entry.explicit_max_ttl,
                         entry.renewable)
            self.rows[entry.secret] = row
            for key, value in real.get(entry.name, {}).items():
                setattr(row, key, value)

    def serve(self, request: Request) -> Response:
        status, body = self._serve(request) if self.status is None else (self.status, {"errors": []})
        return Response(status, json.dumps(body).encode())

    def _serve(self, request: Request) -> tuple[int, dict[str, Any]]:
        token = self._alive(request.token)
        if token is None or token.kind is not Kind.TOKEN:
            return 403, {"errors": ["permission denied"]}
        body = json.loads(request.body) if request.body else {}
        if request.path.endswith("lookup-self"):
            return 200, {"data": self._token_facts(token)}
        if request.path.endswith("renew-self"):
            return 200, {"auth": {"lease_duration": self._renewed(token, body.get("increment", 0)), "renewable": token.renewable}}
        lease = self._alive(body["lease_id"])
        if lease is None:
            return 400, {"errors": ["unknown lease"]}
        if request.path.endswith("leases/lookup"):
            return 200, {"data": self._lease_facts(lease, body["lease_id"])}
        seconds = self._renewed(lease, body.get("increment", 0))
        return 200, {"lease_id": body["lease_id"], "lease_duration": seconds, "renewable": lease.renewable}

    def _alive(self, credential: str) -> Secret | None:
        row = self.rows.get(credential)
        return row if row is not None and row.end > self.now() else None

    def _renewed(self, row: Secret, increment: int) -> int:
        end = self.now() + (row.period or increment)
        row.end = end if row.ceiling is None else min(end, row.ceiling)
        return self._left(row)

    def _left(self, row: Secret) -> int:
        return max(math.floor(row.end - self.now()), 0)

    def _token_facts(self, row: Secret) -> dict[str, Any]:
        facts = {"ttl": self._left(row), "creation_time": math.floor(row.issued), "renewable": row.renewable,
                 "explicit_max_ttl": row.explicit_max, "orphan": row.parent is None, "period": row.period}
        return facts if row.lasts is None else {**facts, "creation_ttl": row.lasts}

    def _lease_facts(self, row: Secret, lease_id: str) -> dict[str, Any]:
        facts = {"id": lease_id, "issue_time": date_text(row.issued), "renewable": row.renewable, "ttl": self._left(row)}
        if row.lasts is None:
            return facts
        renewed = row.end - row.lasts
        return {**facts, "expire_time": date_text(row.end), "last_renewal": date_text(renewed) if renewed > row.issued else None}


class VaultTransport:
    """A client's way to the broker."""

    def __init__(self, vault: Vault) -> None:
        self._vault = vault

    async def request(self, request: Request) -> Response:
        return self._vault.serve(request)


class VaultServer:
    """Serves a broker at a free port, which `word` names."""

    def __init__(self, vault: Vault) -> None:
        self._vault = vault
        self._loop = asyncio.new_event_loop()
        self._ready = threading.Event()
        self._thread = threading.Thread(target=self._run, daemon=True)
        self.word = ""

    def start(self) -> VaultServer:
        self._thread.start()
        self._ready.wait(5)
        return self

    def stop(self) -> None:
        self._loop.call_soon_threadsafe(self._loop.stop)
        self._thread.join(5)

    def _run(self) -> None:
        asyncio.set_event_loop(self._loop)
        server = self._loop.run_until_complete(asyncio.start_server(self._talk, "127.0.0.1", 0, limit=MOST))
        self.word = str(server.sockets[0].getsockname()[1])
        self._ready.set()
        self._loop.run_forever()
        server.close()
        for task in asyncio.all_tasks(self._loop):
            task.cancel()
        self._loop.run_until_complete(asyncio.sleep(0))
        self._loop.close()

    async def _talk(self, reader: asyncio.StreamReader, writer: asyncio.StreamWriter) -> None:
        try:
            reply = self._vault.serve(await read_request(reader))
            head = b"HTTP/1.1 %d X\r\nContent-Length: %d\r\nConnection: close\r\n\r\n" % (reply.status, len(reply.body))
            writer.write(head + reply.body)
            await writer.drain()
        except (OSError, ValueError, asyncio.IncompleteReadError, asyncio.LimitOverrunError):
            pass  # The client sees a connection that closes without a reply.
        finally:
            writer.close()


async def read_request(reader: asyncio.StreamReader) -> Request:
    """One request with a body of a told length."""
    head = (await reader.readuntil(b"\r\n\r\n")).decode("latin-1").split("\r\n")
    method, path, _ = head[0].split(" ")
    fields = {name.lower(): value.strip() for name, _, value in (line.partition(":") for line in head[1:])}
    body = await reader.readexactly(int(fields.get("content-length", "0")))
    return Request(method, path, fields.get("x-vault-token", ""), body)
