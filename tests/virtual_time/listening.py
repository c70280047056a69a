"""The broker at a UNIX socket: it takes requests as they come, and answers each for itself, when and as the faults of the moment say."""

from __future__ import annotations

import socket
from collections.abc import Callable
from pathlib import Path

from trying import whole_request

from .clock import NANOSECONDS, ns
from .faults import DRIP_EVERY, DRIPS, Act, Fault
from .vault import Request, Vault, reply_text, request_of
from .world import World

MOST = 65536


class Connection:
    """One connection, with one request."""

    def __init__(self, broker: Broker, stream: socket.socket) -> None:
        self._broker, self._stream, self._world = broker, stream, broker.world
        self._heard = b""
        self._is_open = True
        self.asks: tuple[int, str] | None = None
        """From which run of the agent its request is, and with which credential."""
        self.renews = False
        stream.setblocking(False)
        self._world.listen(stream, self._hear)

    def _hear(self) -> None:
        try:
            piece = self._stream.recv(MOST)
        except OSError:
            piece = b""
        if not piece:
            self.close()
            return
        was_whole = whole_request(self._heard)
        self._heard += piece
        if not was_whole and whole_request(self._heard):
            self._broker.serve(self, self._heard)

    def answer(self, text: bytes) -> None:
        """Sends that and closes, where nobody has closed it."""
        if self._is_open:
            self._world.send(self._stream, text)
            self.close()

    def drip(self, text: bytes) -> None:
        """Sends that byte by byte."""
        if self._is_open and text:
            self._world.send(self._stream, text[:1])
            self._world.later(DRIP_EVERY, lambda: self.drip(text[1:]))

    def close(self) -> None:
        if self._is_open:
            self._is_open = False
            self._world.ignore(self._stream)
            self._stream.close()
            self._world.poke()
            self._broker.closed(self)


class Broker:
    """The broker of a world, as one agent reaches it. `latency`: how long a reply takes, in seconds; what is done is done when half of it
    has passed."""

    def __init__(self, world: World, vault: Vault, path: Path, run_at: Callable[[], int], by: str = "") -> None:
        """`run_at`: which run of the agent it is; `by`: the agent's name."""
        self.world, self.vault, self._path, self._run_at, self._by = world, vault, path, run_at, by
        self.faults: list[Fault] = []
        self.latency = 0.0
        self.latency_of: Callable[[], float] | None = None
        """In its place, one for each request."""
        self.text_of: Callable[[bytes], bytes] | None = None
        """The whole reply to a whole request, in place of what the rules say."""
        self.texts: list[bytes] = []
        """Each request as it came."""
        self.twice: list[tuple[str, bool]] = []
        """The name of each entry that was asked while a request of it was out, and whether both were renewals."""
        self.tells_date = False
        self.nodes_ahead: tuple[float, ...] = (0.0,)
        """By how many seconds the clocks of its nodes are ahead, of which one after the other tells the date."""
        self._served = 0
        self._out: set[Connection] = set()
        self._listener: socket.socket | None = None
        self.come_back()

    @property
    def out(self) -> int:
        """How many connections are open."""
        return len(self._out)

    @property
    def is_there(self) -> bool:
        return self._listener is not None

    def come_back(self) -> None:
        """Listens."""
        if self._listener is None:
            self._listener = socket.socket(socket.AF_UNIX)
            self._listener.setblocking(False)
            self._listener.bind(str(self._path))
            self._listener.listen(128)
            self.world.listen(self._listener, self._accept)

    def leave(self) -> None:
        """Refuses connections from now on, and breaks off those that are open."""
        if self._listener is not None:
            self.world.ignore(self._listener)
            self._listener.close()
            self._listener = None
            self._path.unlink()
            for connection in list(self._out):
                connection.close()

    def close(self) -> None:
        self.leave()

    def _accept(self) -> None:
        while self._listener is not None:
            try:
                stream, _ = self._listener.accept()
            except BlockingIOError:
                return
            self._out.add(Connection(self, stream))

    def closed(self, connection: Connection) -> None:
        self._out.discard(connection)

    def serve(self, connection: Connection, text: bytes) -> None:
        """A request has come."""
        now, request = self.world.now, request_of(text)
        self.texts.append(text)
        name = self.vault.hear(request, now, self._run_at(), self._by)
        connection.asks, connection.renews = (self._run_at(), request.credential), request.renews
        for one in self._out - {connection}:
            if one.asks == connection.asks:
                self.twice.append((name or request.credential, one.renews and request.renews))
        latency = ns(self.latency if self.latency_of is None else self.latency_of())
        amiss = next((one for one in self.faults if one.holds(now, request, name)), None)
        if self.text_of is not None:
            reply = self.text_of(text)
            self.world.later(latency, lambda: connection.answer(reply))
        elif amiss is None or amiss.act is Act.SLOW:
            self._answer(connection, request, latency + (ns(amiss.seconds) if amiss else 0))
        else:
            self._go_wrong(connection, request, amiss, latency)

    def _answer(self, connection: Connection, request: Request, latency: int, is_sent: bool = True) -> None:
        text: list[bytes] = []
        self.world.later(latency // 2, lambda: text.append(reply_text(self.vault.answer(request, self.world.now), self._date())))
        self.world.later(latency, lambda: connection.answer(text[0]) if is_sent else connection.close())

    def _date(self) -> int | None:
        if not self.tells_date:
            return None
        self._served += 1
        return self.world.now + ns(self.nodes_ahead[self._served % len(self.nodes_ahead)])

    def _go_wrong(self, connection: Connection, request: Request, amiss: Fault, latency: int) -> None:
        match amiss.act:
            case Act.STATUS:
                self.world.later(latency, lambda: connection.answer(reply_text((amiss.status, {"errors": []}), self._date())))
            case Act.GARBLED:
                self.world.later(latency, lambda: connection.answer(reply_text((200, {"errors": []}))))
            case Act.CLOSED:
                connection.close()
            case Act.DRIPS:
                connection.drip(DRIPS)
            case Act.DROPPED:
                self._answer(connection, request, latency, False)
            case Act.SILENT | Act.SLOW:
                pass

    def is_away_at(self, moment: int) -> bool:
        """Whether a fault about everything holds then."""
        request = Request("", "", {})
        return not self.is_there or any(one.holds(moment, request, "") for one in self.faults if one.act is not Act.SLOW)


def seconds(moment: int) -> float:
    """A moment of the world in seconds, for people."""
    return moment / NANOSECONDS
