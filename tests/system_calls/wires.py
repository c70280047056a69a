"""SocketWires: the connections to the broker."""

from __future__ import annotations

import socket
import threading
import time

from trying import Behave, Peer

from .clocks import waits
from .doors import told_of
from .recording import CAN_READ, CAN_WRITE
from .stage import PATIENCE, SECRET, Serving, Stage, inventory, living, until

PIECE = 50
"""The most bytes that a write takes: less than a request has."""
RESTLESS_FOR = 20
"""The milliseconds after which a connection is tried again that the system does not tell of."""
AGAIN = 3
"""More tries than a few that a busy machine may leave of a hundred."""
LIFE = 3600
"""Seconds that a broker tells."""
HELD = 2.0
"""Seconds for which a broker holds an answer back: less than the time-out."""


def request(port: str) -> bytes:
    """The lookup of the token, by docs/http.md and Vault's API."""
    head = ("GET /v1/auth/token/lookup-self HTTP/1.1", f"Host: 127.0.0.1:{port}", f"X-Vault-Token: {SECRET}", "Connection: close", "", "")
    return "\r\n".join(head).encode()


def connects(stage: Stage) -> None:
    """Requests go whole to the broker and nowhere else, though each write takes a piece; no call waits, and each connection is waited
    for. So it is over both kinds of socket."""
    name = stage.write("one.toml", inventory())
    for path in (None, stage.room / "vault.sock"):
        with Peer(living(LIFE), path) as broker, stage.serve(name, broker.word, told={"SHORT_WRITES": str(PIECE)}) as agent:
            place = broker.word if path else f"127.0.0.1:{broker.word}"
            stage.check(f"{place}: it is told", True, agent.says("entry web "))
            port = "8200" if path else broker.word
            stage.check(f"{place}: the request", {request(port)}, {each for each in broker.requests if not each.startswith(b"POST ")})
            calls = agent.recording.calls()
        stage.check(f"{place}: and nobody else", {place}, {call.words[2] for call in calls if call.name == "connect"})
        meeting = [call for call in calls if call.name in ("connect", "read", "write") and call.of == place]
        stage.check(f"{place}: no call waits", (True, []), (len(meeting) > 2, [call for call in meeting if call.waits]))
        stage.check(f"{place}: it is waited for", CAN_READ | CAN_WRITE, told_of(calls).get(place, 0) & (CAN_READ | CAN_WRITE))


def holding(seconds: float) -> Behave:
    """A broker whose answers come late."""
    behave = living(LIFE)

    def later(number: int, stream: socket.socket, request: bytes) -> None:
        time.sleep(seconds)
        behave(number, stream, request)

    return later


def tries(agent: Serving) -> int:
    """How often it waited for no longer than a connection is left that the system does not tell of."""
    return sum(0 < wait <= RESTLESS_FOR for wait in waits(agent.recording.calls()))


def rests(stage: Stage) -> None:
    """While a broker holds an answer back, nothing is done. A connection that the system does not tell of is tried again and again."""
    name = stage.write("one.toml", inventory())
    with Peer(holding(HELD), stage.room / "vault.sock") as broker:
        with stage.serve(name, broker.word) as agent:
            stage.check("it is told", True, agent.says("entry web "))
            stage.check("it rests", True, tries(agent) < HELD * 5)
        with stage.serve(name, broker.word, told=stage.failing("epoll_ctl")) as agent:
            stage.check("not registered: it is told", True, agent.says("entry web "))
            stage.check("not registered: it is tried again and again", True, tries(agent) > AGAIN)


def full_queue(stage: Stage) -> None:
    """A UNIX socket whose queue is full is tried again, and the request goes out once there is room."""
    name = stage.write("one.toml", inventory())
    is_free, is_begun = threading.Event(), threading.Event()
    answer = living(LIFE)

    def behave(number: int, stream: socket.socket, request: bytes) -> None:
        if number == 1:
            is_begun.set()
            is_free.wait(PATIENCE)
        else:
            answer(number, stream, request)

    path = stage.room / "vault.sock"
    with Peer(behave, path) as broker:
        with socket.socket(socket.AF_UNIX) as first:
            first.connect(str(path))
            first.sendall(request("8200"))
            is_begun.wait(PATIENCE)
            waiting = broker.fill()
            with stage.serve(name, broker.word) as agent:
                stage.check("it tries", True, until(lambda: agent.recording.count("connect") > 3))
                is_free.set()
                for each in waiting:
                    each.close()
                stage.check("it is told", True, agent.says("entry web "))
                stage.check("and lost nothing", [], [event for event in agent.events if "lost" in event])
