"""minibroker in real time at an address of a namespace, and what goes wrong with the requests of one machine or about one credential."""

from __future__ import annotations

import asyncio
import re
import time
from collections.abc import Iterable
from dataclasses import dataclass
from pathlib import Path

from .namespaces import Namespace, Wire

CONNECTIONS = 1_000_000
TALK_SECONDS = 30.0
DENIED = b'HTTP/1.1 403 X\r\nContent-Length: 32\r\nConnection: close\r\n\r\n{"errors":["permission denied"]}'


@dataclass(frozen=True)
class Asked:
    """A request that was answered: when, by whose machine, about which credential, with which status, how many seconds that had left until
    then, where it is known, and how long the answer took."""

    moment: float
    by: str
    credential: str
    renews: bool
    status: int
    left: float | None
    took: float


class Broker:
    """minibroker serves one connection after another, each at the real moment. Whole requests come to it, from the machines and from the
    trial itself."""

    def __init__(self, program: str, rows: Path, socket: Path, space: Namespace) -> None:
        self._program, self._rows, self._socket, self._space = program, rows, socket, space
        self._turn = asyncio.Lock()
        self._process: asyncio.subprocess.Process | None = None
        self._server: asyncio.Server | None = None
        self.asked: list[Asked] = []
        self.wires: dict[str, Wire] = {}
        self.delays: dict[str, float] = {}
        """How much later the requests of a machine are answered."""
        self.revoked: set[str] = set()
        """Credentials that are refused."""
        self._ends: dict[str, float] = {}
        """Until when each lives, as was told last."""

    async def start(self) -> None:
        self._process = await asyncio.create_subprocess_exec(
            self._program, str(self._rows), str(self._socket), str(CONNECTIONS), "-", stdin=asyncio.subprocess.PIPE,
            stdout=asyncio.subprocess.DEVNULL)
        while not self._socket.exists():
            await asyncio.sleep(0.1)
        self._server = await asyncio.start_server(self._talk, sock=self._space.listener("0.0.0.0"))

    async def stop(self) -> None:
        if self._server is not None:
            self._server.close()
        if self._process is not None and self._process.returncode is None:
            self._process.kill()
            await self._process.wait()

    async def exchange(self, request: bytes) -> bytes:
        """Has one request served now."""
        async with self._turn, asyncio.timeout(TALK_SECONDS):
            assert self._process is not None and self._process.stdin is not None
            reader, writer = await asyncio.open_unix_connection(str(self._socket))
            try:
                self._process.stdin.write(b"%d\n" % int(time.time()))
                await self._process.stdin.drain()
                writer.write(request)
                await writer.drain()
                return await reader.read()
            finally:
                writer.close()

    async def ask(self, credential: str, path: str, body: bytes = b"") -> bytes:
        """The trial itself asks about a token."""
        first = f"{'POST' if body else 'GET'} /v1/auth/token/{path} HTTP/1.1"
        fields = f"Host: broker\r\nX-Vault-Token: {credential}\r\nContent-Length: {len(body)}"
        return await self.exchange(f"{first}\r\n{fields}\r\n\r\n".encode() + body)

    async def dead(self, credentials: Iterable[str]) -> list[str]:
        """Those of these tokens that it does not know any more."""
        return [one for one in credentials if status_of(await self.ask(one, "lookup-self")) != 200]

    async def _talk(self, reader: asyncio.StreamReader, writer: asyncio.StreamWriter) -> None:
        try:
            async with asyncio.timeout(TALK_SECONDS):
                request, began = await read_request(reader), time.monotonic()
                by = next(name for name, wire in self.wires.items() if wire.at_machine == writer.get_extra_info("peername")[0])
                await asyncio.sleep(self.delays.get(by, 0.0))
                credential = token_of(request)
                reply = DENIED if credential in self.revoked else await self.exchange(request)
                self._note(by, credential, b"/renew" in request.partition(b"\r\n")[0], reply, began)
                writer.write(reply)
                await writer.drain()
        except (OSError, ValueError, TimeoutError, asyncio.IncompleteReadError, asyncio.CancelledError):
            pass  # The agent sees a connection that closes, or nothing.
        finally:
            writer.close()


    def _note(self, by: str, credential: str, renews: bool, reply: bytes, began: float) -> None:
        """Writes down what was asked and answered."""
        now, status = time.monotonic(), status_of(reply)
        end = self._ends.get(credential)
        self.asked.append(Asked(now, by, credential, renews, status, None if end is None else end - now, now - began))
        told = re.search(rb'"(?:lease_duration|ttl)":(\d+)', reply)
        if status == 200 and told:
            self._ends[credential] = now + int(told[1])


class Proxy:
    """What stands on a machine at 127.0.0.1, and leads over its wire to the broker."""

    def __init__(self, space: Namespace, wire: Wire) -> None:
        self._space, self._wire = space, wire
        self._server: asyncio.Server | None = None

    async def start(self) -> None:
        self._server = await asyncio.start_server(self._talk, sock=self._space.listener("127.0.0.1"))

    def stop(self) -> None:
        if self._server is not None:
            self._server.close()

    async def _talk(self, reader: asyncio.StreamReader, writer: asyncio.StreamWriter) -> None:
        stream = self._space.stream()
        try:
            async with asyncio.timeout(TALK_SECONDS):
                request = await read_request(reader)
                await asyncio.get_running_loop().sock_connect(stream, (self._wire.at_broker, 8200))
                back, there = await asyncio.open_connection(sock=stream)
                there.write(request)
                writer.write(await back.read())
                await writer.drain()
                there.close()
        except (OSError, ValueError, TimeoutError, asyncio.IncompleteReadError, asyncio.CancelledError):
            pass
        finally:
            stream.close()
            writer.close()


async def read_request(reader: asyncio.StreamReader) -> bytes:
    """The bytes of one request with a body of a told length."""
    head = await reader.readuntil(b"\r\n\r\n")
    length = re.search(rb"\r\ncontent-length: *(\d{1,7})\r\n", head, re.IGNORECASE)
    return head + await reader.readexactly(int(length[1]) if length else 0)


def token_of(request: bytes) -> str:
    found = re.search(rb"\r\nx-vault-token: *([^\r]*)\r\n", request, re.IGNORECASE)
    return found[1].decode() if found else ""


def status_of(reply: bytes) -> int:
    return int(reply[9:12]) if reply.startswith(b"HTTP/1.1 ") else 0
