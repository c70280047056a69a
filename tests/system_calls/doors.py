"""SocketDoor and SocketTalk: where an agent listens, who comes in, and what they are answered."""

from __future__ import annotations

import socket
import stat
import time
from pathlib import Path

from .recording import ADD, CAN_READ, CAN_WRITE, Call
from .stage import OK, PATIENCE, Stage, inventory, talk

PIECE = 20
"""The most bytes that a write takes: less than each answer has."""
PAGE = b"GET /health HTTP/1.1\r\n\r\n"
KEPT = b"every needed entry is kept\n"


def free_port() -> int:
    with socket.create_server(("127.0.0.1", 0)) as server:
        return int(server.getsockname()[1])


def told_of(calls: list[Call]) -> dict[str, int]:
    """Of each socket, by what it is, of what somebody is told; those of a guest that was not registered are 0."""
    found: dict[str, int] = {call.of: 0 for call in calls if call.name in ("accept", "read") and call.of}
    return found | {call.of: int(call.words[3], 16) for call in calls if call.name == "epoll_ctl" and int(call.words[1]) == ADD}


def answers(stage: Stage) -> None:
    """Clients and onlookers come in where they are to, get whole answers though each write takes a piece, and are waited for by nobody."""
    name, port = stage.write("one.toml", inventory()), free_port()
    words = (name, "./vault.sock", "--control", "./control.sock", "--listen", str(port))
    with stage.broker(), stage.serve(*words, told={"SHORT_WRITES": str(PIECE)}) as agent:
        stage.check("it answers", True, agent.answers())
        stage.check("a client is answered", OK, agent.asked("health"))
        page = talk(port, PAGE)
        stage.check("an onlooker is answered", (b"HTTP/1.1 200 OK", KEPT), (page.partition(b"\r\n")[0], page.partition(b"\r\n\r\n")[2]))
        calls = agent.recording.calls()
    stage.check("where it listens", {"./control.sock", f"127.0.0.1:{port}"}, {call.words[1] for call in calls if call.name == "bind"})
    meeting = [call for call in calls if call.name in ("accept", "read", "write") and call.kind == "s"]
    stage.check("no call waits", (True, []), (bool(meeting), [call for call in meeting if call.waits]))
    told = told_of(calls)
    for door in ("./control.sock", f"127.0.0.1:{port}"):
        stage.check(f"{door} is waited for", True, bool(told.get(door, 0) & CAN_READ))
        stage.check(f"and its guests are", CAN_READ | CAN_WRITE, told.get(f"guest of {door}", 0) & (CAN_READ | CAN_WRITE))


def closes_the_untold(stage: Stage) -> None:
    """Where the system does not tell of a guest, its connection is closed: nobody would wait for it."""
    name = stage.write("one.toml", inventory())
    with stage.broker(), stage.serve(name, "./vault.sock", "--control", "./control.sock", told=stage.failing("")) as agent:
        stage.check("it answers", True, agent.answers())
        stage.failing("epoll_ctl")
        began = time.monotonic()
        stage.check("one of whom nobody tells is sent nothing", b"", agent.asked("health"))
        stage.check("its connection is closed at once", True, time.monotonic() - began < PATIENCE / 2)
        stage.failing("")
        stage.check("the next one is answered", OK, agent.asked("health"))


def is_for_its_group(stage: Stage) -> None:
    """The file of a socket is for its user and its group, whatever the umask says."""
    name = stage.write("one.toml", inventory())
    for umask in (0, 0o077):
        with stage.broker() as broker, stage.serve(name, broker.word, "--control", "./control.sock", umask=umask) as agent:
            stage.check(f"umask {umask:o}: it answers", True, agent.answers())
            stage.check(f"umask {umask:o}: the mode", 0o660, stat.S_IMODE((stage.room / "control.sock").stat().st_mode))


def dead_socket(path: Path) -> None:
    """A socket at which nobody listens any more."""
    with socket.socket(socket.AF_UNIX) as listener:
        listener.bind(str(path))


def takes_over(stage: Stage) -> None:
    """A socket at which nobody listens any more is taken over. Another agent's, another file and a link are left alone."""
    name, path = stage.write("one.toml", inventory()), stage.room / "control.sock"
    dead_socket(path)
    with stage.broker() as broker, stage.serve(name, broker.word, "--control", "./control.sock") as agent:
        stage.check("one that is left is taken over", True, agent.answers())
        was = path.stat().st_ino
        with stage.serve(name, broker.word, "--control", "./control.sock", "--runtime", "/nowhere") as other:
            stage.check("another agent's: it is an alert", True, other.says("alert: socket ./control.sock "))
            stage.check("another agent's: it stays", (was, OK), (path.stat().st_ino, talk(path, b'["health"]\n')))
        stage.write("file", "kept")
        dead_socket(stage.room / "dead.sock")
        (stage.room / "link").symlink_to("dead.sock")
        for each in ("file", "link"):
            with stage.serve(name, broker.word, "--control", f"./{each}", "--runtime", "/nowhere") as other:
                stage.check(f"a {each}: it is an alert", True, other.says(f"alert: socket ./{each} "))
        stage.check("a file stays", "kept", (stage.room / "file").read_text() if (stage.room / "file").is_file() else "")
        stage.check("a link stays", True, (stage.room / "link").is_symlink())
