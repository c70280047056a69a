"""One request and its reply over HTTP/1.1, on a connection of its own, to 127.0.0.1 or a UNIX socket."""

from __future__ import annotations

import asyncio
from dataclasses import dataclass
from typing import Protocol

MOST = 1 << 20
"""The longest reply that is read, in bytes."""


class TransportFault(Exception):
    """A request that got no readable reply. Its words hold nothing of the request or the reply."""


@dataclass(frozen=True)
class Request:
    method: str
    path: str
    token: str
    body: bytes

    def __repr__(self) -> str:
        return f"Request({self.method} {self.path})"


@dataclass(frozen=True)
class Response:
    """A reply: its status and its body."""

    status: int
    body: bytes

    def __repr__(self) -> str:
        return f"Response({self.status})"


class Transport(Protocol):
    """Sends a request and gives its reply, or raises TransportFault. It knows no time-out: its caller has one."""

    async def request(self, request: Request) -> Response: ...


@dataclass(frozen=True)
class Address:
    """Where the broker listens: a port of 127.0.0.1, or the path of a UNIX socket (a word with a `/` in it)."""

    word: str

    @property
    def is_path(self) -> bool:
        return "/" in self.word

    async def connect(self) -> tuple[asyncio.StreamReader, asyncio.StreamWriter]:
        if self.is_path:
            return await asyncio.open_unix_connection(self.word, limit=MOST)
        return await asyncio.open_connection("127.0.0.1", int(self.word), limit=MOST)


class HttpTransport:
    """Real sockets."""

    def __init__(self, address: Address) -> None:
        self._address = address
        self._host = "127.0.0.1" if address.is_path else f"127.0.0.1:{address.word}"

    async def request(self, request: Request) -> Response:
        try:
            reader, writer = await self._address.connect()
        except OSError as error:
            raise TransportFault(f"connect: {error.strerror or 'failed'}") from None
        try:
            writer.write(request_bytes(request, self._host))
            await writer.drain()
            return await read_response(reader)
        except (OSError, ValueError, asyncio.IncompleteReadError, asyncio.LimitOverrunError):
            raise TransportFault("the reply is cut short or is no HTTP") from None
        finally:
            writer.transport.abort()


def request_bytes(request: Request, host: str) -> bytes:
    """The request as it is sent, like those of `leasekeep`."""
    lines = [f"{request.method} {request.path} HTTP/1.1", f"Host: {host}", f"X-Vault-Token: {request.token}"]
    if request.method != "GET":
        lines += ["Content-Type: application/json", f"Content-Length: {len(request.body)}"]
    head = "\r\n".join([*lines, "Connection: close", "", ""])
    return head.encode("ascii") + request.body


async def read_response(reader: asyncio.StreamReader) -> Response:
    """Reads one reply; ValueError where it is malformed or over a mebibyte."""
    head = (await reader.readuntil(b"\r\n\r\n")).decode("latin-1")
    status_line, *fields = head[:-4].split("\r\n")
    words = status_line.split(" ")
    if len(words) < 2 or not words[0].startswith("HTTP/1.") or not (words[1].isdigit() and len(words[1]) == 3):
        raise ValueError
    values: dict[str, list[str]] = {}
    for line in fields:
        name, colon, value = line.partition(":")
        if not colon:
            raise ValueError
        values.setdefault(name.lower(), []).append(value.strip())
    status = int(words[1])
    body = b"" if status in (204, 304) else await _read_body(reader, values)
    return Response(status, body)


async def _read_body(reader: asyncio.StreamReader, fields: dict[str, list[str]]) -> bytes:
    coding, length = fields.get("transfer-encoding"), fields.get("content-length")
    if coding is not None:
        if length is not None or [value.lower() for value in coding] != ["chunked"]:
            raise ValueError
        return await _read_chunks(reader)
    if length is not None:
        if len(length) != 1 or not length[0].isdigit() or int(length[0]) > MOST:
            raise ValueError
        return await reader.readexactly(int(length[0]))
    body = bytearray()
    while piece := await reader.read(65536):
        body += piece
        if len(body) > MOST:
            raise ValueError
    return bytes(body)


async def _read_chunks(reader: asyncio.StreamReader) -> bytes:
    body = bytearray()
    while size := int((await reader.readuntil(b"\r\n")).decode("ascii").strip(), 16):
        if size < 0 or len(body) + size > MOST:
            raise ValueError
        body += await reader.readexactly(size)
        if await reader.readexactly(2) != b"\r\n":
            raise ValueError
    return bytes(body)
