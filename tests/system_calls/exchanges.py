"""TcpExchange and UnixExchange: how `leasekeep run` meets its broker, and how long it waits for it."""

from __future__ import annotations

import socket
import threading
from trying import Peer, good, secret_web

from .stage import PATIENCE, SECRET, Stage

LONGEST = 3
"""S of each run here."""
MOST = 1000 * LONGEST
PAUSE = 10
"""The milliseconds after which a full queue is tried again."""


def answer(_number: int, stream: socket.socket, request: bytes) -> None:
    if request:
        stream.sendall(good(request))


def has_limits(stage: Stage) -> None:
    """Each connect, read and write may take so long; the request goes to the broker and nowhere else."""
    (stage.room / "one.toml").write_bytes(secret_web(SECRET))
    for path in (None, stage.room / "vault.sock"):
        with Peer(answer, path) as broker:
            ran, recording = stage.run("run", "one.toml", broker.word, "1000", "--timeout", str(LONGEST))
        place = broker.word if path else f"127.0.0.1:{broker.word}"
        stage.check(f"{place}: it is told", (0, True), (ran.exit, b"\nentry web 1060\n" in b"\n" + ran.out))
        calls = recording.calls()
        stage.check(f"{place}: and nobody else", {place}, {call.words[2] for call in calls if call.name == "connect"})
        stream = [call for call in calls if call.of == place]
        stage.check(f"{place}: the connect does not wait by itself", [False], [call.waits for call in stream if call.name == "connect"])
        limits = sorted((call.name, int(call.words[1])) for call in stream if call.name.startswith("longest-"))
        stage.check(f"{place}: how long a read and a write may take", [("longest-read", MOST), ("longest-write", MOST)], limits)
        meeting = [call for call in stream if call.name in ("read", "write")]
        stage.check(f"{place}: they wait so long", (True, []), (len(meeting) > 1, [call for call in meeting if not call.waits]))
        if path is None:
            polls = [int(call.words[0]) for call in calls if call.name == "poll"]
            endless = [poll for poll in polls if not 0 < poll <= MOST]
            stage.check(f"{place}: how long the connect may take", (True, []), (bool(polls), endless))


def full_queue(stage: Stage) -> None:
    """A UNIX socket whose queue stays full is tried again, with pauses, and is given up in time."""
    (stage.room / "one.toml").write_bytes(secret_web(SECRET))
    is_over, is_begun = threading.Event(), threading.Event()

    def hold(_number: int, _stream: socket.socket, _request: bytes) -> None:
        is_begun.set()
        is_over.wait(PATIENCE)

    path = stage.room / "vault.sock"
    with Peer(hold, path) as broker, socket.socket(socket.AF_UNIX) as first:
        first.connect(str(path))
        first.sendall(b"GET / HTTP/1.1\r\n\r\n")
        is_begun.wait(PATIENCE)
        waiting = broker.fill()
        ran, recording = stage.run("run", "one.toml", broker.word, "1000", "--timeout", "1")
        is_over.set()
        for each in waiting:
            each.close()
    calls = recording.calls("connect", "epoll_wait")
    stage.check("it is given up", 6, ran.exit)
    stage.check("it was tried again", True, sum(call.name == "connect" for call in calls) == 1 + 1000 // PAUSE)
    stage.check("with pauses", [str(PAUSE)] * (1000 // PAUSE), [call.words[1] for call in calls if call.name == "epoll_wait"])
