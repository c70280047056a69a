"""minibroker in real time: it reads the moment of each connection from its standard input, and a relay in front of it
writes that moment when a client connects."""

from __future__ import annotations

import asyncio
import re
import ssl
import time
from pathlib import Path
from typing import Callable

CONNECTIONS = 1_000_000
TALK_SECONDS = 30.0


class BrokerFault(Exception):
    """minibroker does not serve."""


class LiveBroker:
    """One minibroker process, whose connections are served one after the other, each at the real moment."""

    def __init__(self, program: str, inventory: Path) -> None:
        self._program, self._inventory = program, inventory
        self._process: asyncio.subprocess.Process | None = None
        self._turn = asyncio.Lock()
        self._port = 0

    async def start(self) -> None:
        self._process = await asyncio.create_subprocess_exec(
            self._program, str(self._inventory), "0", str(CONNECTIONS), "-", stdin=asyncio.subprocess.PIPE,
            stdout=asyncio.subprocess.DEVNULL, stderr=asyncio.subprocess.PIPE)
        assert self._process.stderr is not None
        line = (await self._process.stderr.readline()).decode("ascii", "replace")
        listening = re.fullmatch(r"listening 127\.0\.0\.1:(\d+)\n", line)
        if listening is None:
            await self.stop()
            raise BrokerFault(f"{self._program} does not listen: {line.strip()}")
        self._port = int(listening[1])

    async def stop(self) -> None:
        if self._process is not None and self._process.returncode is None:
            self._process.kill()
            await self._process.wait()

    async def exchange(self, request: bytes) -> bytes:
        """Has one request served at the present moment; its reply, empty where there is none."""
        async with self._turn, asyncio.timeout(TALK_SECONDS):
            assert self._process is not None and self._process.stdin is not None
            reader, writer = await asyncio.open_connection("127.0.0.1", self._port)
            try:
                self._process.stdin.write(b"%d\n" % int(time.time()))
                await self._process.stdin.drain()
                writer.write(request)
                await writer.drain()
                return await reader.read()
            finally:
                writer.close()


class Relay:
    """Listens at a UNIX socket, or with a certificate at a port of 127.0.0.1, and has each request served by the broker, `delay`
    seconds after it came. What `own_answer` gives for a request is the reply in place of the broker's. Whoever holds `gate` keeps
    requests waiting."""

    def __init__(self, path: Path, certificate: ssl.SSLContext | None = None) -> None:
        self._path, self._certificate = path, certificate
        self.delay = 0.0
        self.port = 0
        self.last_head = b""
        self.broker: LiveBroker | None = None
        self.own_answer: Callable[[bytes], bytes | None] = lambda request: None
        self.gate = asyncio.Lock()
        self._server: asyncio.Server | None = None
        self.served = 0

    async def start(self) -> None:
        if self._certificate is not None:
            self._server = await asyncio.start_server(self._talk, "127.0.0.1", self.port, ssl=self._certificate)
            self.port = self._server.sockets[0].getsockname()[1]
            return
        self._path.unlink(missing_ok=True)
        self._server = await asyncio.start_unix_server(self._talk, str(self._path))

    async def stop(self) -> None:
        if self._server is not None:
            self._server.close()
        self._path.unlink(missing_ok=True)

    async def _talk(self, reader: asyncio.StreamReader, writer: asyncio.StreamWriter) -> None:
        try:
            async with asyncio.timeout(TALK_SECONDS):
                request = await read_request(reader)
                self.last_head = request.partition(b"\r\n\r\n")[0]
                await asyncio.sleep(self.delay)
                async with self.gate:
                    reply = None if self.broker is None else self.own_answer(request) or await self.broker.exchange(request)
                if reply is not None:
                    writer.write(reply)
                    await writer.drain()
                    self.served += 1
        except (OSError, ValueError, TimeoutError, asyncio.IncompleteReadError, asyncio.LimitOverrunError):
            pass  # The client sees a connection that closes without a reply.
        except asyncio.CancelledError:
            pass  # The trial has ended.
        finally:
            writer.close()


async def read_request(reader: asyncio.StreamReader) -> bytes:
    """The bytes of one request with a body of a told length."""
    head = await reader.readuntil(b"\r\n\r\n")
    length = re.search(rb"\r\ncontent-length: *(\d{1,7})\r\n", head, re.IGNORECASE)
    return head + await reader.readexactly(int(length[1]) if length else 0)
