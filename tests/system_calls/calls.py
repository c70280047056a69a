"""`connect` of the commands of a running agent, and SystemFiles, by which commands read the files that they are told of."""

from __future__ import annotations

import os
import socket
import threading
from pathlib import Path

from trying import WEB, Ran

from .clocks import sleeps
from .stage import IN_PIECES, OK, PATIENCE, Stage, until

LONGEST = "150000"
"""The milliseconds for which an agent is waited for."""
PAUSE = 10
"""Those after which a full queue is tried again."""
KEPT = b"every needed entry is kept\n"


class StandIn:
    """Answers a client that is let in as an agent does, once it may."""

    def __init__(self, path: Path) -> None:
        self._listener = socket.socket(socket.AF_UNIX)
        self._listener.bind(str(path))
        self._listener.listen(0)
        self.path, self.may_answer = path, threading.Event()
        self._thread = threading.Thread(target=self._serve, daemon=True)
        self._thread.start()

    def _serve(self) -> None:
        while True:
            self.may_answer.wait(PATIENCE)
            try:
                stream, _ = self._listener.accept()
                with stream:
                    stream.settimeout(PATIENCE)
                    if stream.recv(4096):
                        stream.sendall(OK)
            except OSError:
                return

    def fill(self) -> list[socket.socket]:
        """Connections that fill its queue."""
        waiting = [socket.socket(socket.AF_UNIX) for _ in range(3)]
        for stream in waiting:
            stream.setblocking(False)
            stream.connect_ex(str(self.path))
        return waiting

    def end(self) -> None:
        self._listener.shutdown(socket.SHUT_RDWR)
        self._listener.close()


def has_limits(stage: Stage) -> None:
    """A call connects to the socket that it is told and nowhere else, without waiting; then each read and write may take so long, but
    for a read of what goes on."""
    agent = StandIn(stage.room / "agent.sock")
    agent.may_answer.set()
    for command, longest_read in (("health", LONGEST), ("follow", "0")):
        ran, recording = stage.run(command, "--control", "./agent.sock")
        stage.check(f"{command}: it is answered", Ran(0, KEPT, b""), ran)
        calls = [call for call in recording.calls() if call.of == "./agent.sock"]
        stage.check(f"{command}: it connects without waiting", [False], [call.waits for call in calls if call.name == "connect"])
        limits = {"longest-read": "0"} | {call.name: call.words[1] for call in calls if call.name.startswith("longest-")}
        stage.check(f"{command}: how long they may take", {"longest-read": longest_read, "longest-write": LONGEST}, limits)
        meeting = [call for call in calls if call.name in ("read", "write")]
        stage.check(f"{command}: they wait so long", (True, []), (len(meeting) > 1, [call for call in meeting if not call.waits]))
    agent.end()


def full_queue(stage: Stage) -> None:
    """A socket whose queue is full is tried again, with pauses, until there is room."""
    agent = StandIn(stage.room / "agent.sock")
    waiting = agent.fill()
    for stream in waiting:
        stream.close()
    recording = stage.recording()

    def let_in() -> None:
        until(lambda: recording.count("connect") > 5)
        agent.may_answer.set()

    thread = threading.Thread(target=let_in, daemon=True)
    thread.start()
    ran = stage.ran(recording, ("health", "--control", "./agent.sock"))
    thread.join()
    agent.end()
    stage.check("it is answered", Ran(0, KEPT, b""), ran)
    slept = sleeps(recording.calls())
    stage.check("with pauses", (True, {PAUSE}), (len(slept) > 3, set(slept)))
    stage.check("a pause for each try", len(slept) + 1, recording.count("connect"))


def reads_files(stage: Stage) -> None:
    """A file is read by its path, whole though each read gives a piece; why one cannot be read is told; a pipe is read once, and not
    opened again to say more of it."""
    (stage.room / "one.toml").write_bytes(WEB)
    ran, _ = stage.run("ends", "one.toml", "1000", told=IN_PIECES)
    stage.check("a file is read", Ran(0, b"web 1060\nkeeps no\n", b""), ran)
    ran, _ = stage.run("ends", "none.toml", "1000")
    stage.check("why it cannot be read", Ran(6, b"", b"leasekeep: read\nleasekeep: none.toml: No such file or directory\n"), ran)
    os.mkfifo(stage.room / "pipe")
    thread = threading.Thread(target=lambda: (stage.room / "pipe").write_text("margin = 20 x"), daemon=True)
    thread.start()
    ran, recording = stage.run("ends", "./pipe", "1000")
    stage.check("a pipe is read", Ran(1, b"", b"leasekeep: inventory: not-toml\n"), ran)
    stage.check("once", 1, sum(call.words[0] == "./pipe" for call in recording.calls("open")))
