"""StandardOutput: what it opens and writes, and that it waits for nobody."""

from __future__ import annotations

import os
import pty
import re
import tty
from collections.abc import Callable

from .recording import Call
from .stage import Serving, Stage, inventory, talk, until

BEGUN = ["begin start", "look web", "entry web", "next"]
"""How the log of an agent begins: the first words of its lines."""
DATED = re.compile(r"\d{4}-\d\d-\d\dT\d\d:\d\d:\d\dZ ")
BEFORE = "before\n"
PIECE = 50
"""The most bytes that a write takes: less than some of those lines have."""


def is_begun(text: str) -> bool:
    """Whether these are the first lines of a log, whole, once and in order, after the warnings of what lies on a disk."""
    lines = text.splitlines(keepends=True)
    words = [word for line in lines if not (word := DATED.sub("", line, count=1)).startswith("warning: ")]
    return len(words) >= len(BEGUN) and all(DATED.match(line) and line.endswith("\n") for line in lines) and [
        True] * len(BEGUN) == [word.startswith(wanted) for word, wanted in zip(words, BEGUN)]


def to_output(calls: list[Call], kind: str) -> list[Call]:
    """The writes to what standard output leads to."""
    return [call for call in calls if call.name == "write" and call.kind == kind]


def served(stage: Stage, out: int, then: Callable[[Serving], None], *words: str, told: dict[str, str] | None = None) -> None:
    """An agent whose log goes there."""
    name = stage.write("one.toml", inventory())
    with stage.broker() as broker, stage.serve(name, broker.word, "--control", "./control.sock", *words, out=out, told=told) as agent:
        stage.check("it answers", True, agent.answers())
        then(agent)
        stage.check("nothing is written to standard error", b"", agent.end())


def to_pipe(stage: Stage) -> None:
    """A pipe gets whole lines though each write takes a piece; no write waits, and who else writes there still waits."""
    reader, writer = os.pipe()
    got = bytearray()

    def read_on(agent: Serving) -> None:
        os.set_blocking(reader, False)
        stage.check("it gets the lines", True, until(lambda: take(reader, got) and is_begun(got.decode())))
        writes = to_output(agent.recording.calls(), "p")
        stage.check("no write waits", (True, []), (len(writes) > len(BEGUN), [call for call in writes if call.waits]))
        stage.check("others wait as before", True, os.get_blocking(writer))

    served(stage, writer, read_on, told={"SHORT_WRITES": str(PIECE)})
    os.close(reader)
    os.close(writer)


def take(reader: int, got: bytearray) -> bool:
    """Takes what is there; it is true."""
    try:
        got.extend(os.read(reader, 65536))
    except BlockingIOError:
        pass
    return True


def to_full_pipe(stage: Stage) -> None:
    """A pipe that nobody reads costs nothing, and once it is read all lines come."""
    reader, writer = os.pipe()
    os.set_blocking(writer, False)
    filled = 0
    try:
        while True:
            filled += os.write(writer, b"x" * 4096)
    except BlockingIOError:
        os.set_blocking(writer, True)
    got = bytearray()

    def read_on(_agent: Serving) -> None:
        os.set_blocking(reader, False)
        stage.check("once it is read all lines come", True, until(lambda: take(reader, got) and is_begun(got[filled:].decode())))

    served(stage, writer, read_on)
    os.close(reader)
    os.close(writer)


def to_file(stage: Stage) -> None:
    """A file is written on where others have come to."""
    path = stage.room / "log"
    with path.open("w") as out:
        out.write(BEFORE)
        out.flush()

        def read_on(_agent: Serving) -> None:
            stage.check("it gets the lines", True, until(lambda: is_begun(path.read_text().removeprefix(BEFORE))))

        served(stage, out.fileno(), read_on)
    stage.check("what stood there stays", True, path.read_text().startswith(BEFORE))


def to_nobody(stage: Stage) -> None:
    """A pipe in a folder that nobody reads is opened and written to without waiting, and the lines are dropped and counted."""
    pipe = stage.room / "pipe"
    os.mkfifo(pipe)
    reader = os.open(pipe, os.O_RDONLY | os.O_NONBLOCK)
    writer = os.open(pipe, os.O_WRONLY)
    os.close(reader)
    pages = stage.room / "pages.sock"

    def dropped() -> bool:
        found = re.search(rb"\nleasekeep_log_dropped_lines_total (\d+)\n", talk(pages, b"GET /metrics HTTP/1.1\r\n\r\n"))
        return found is not None and int(found[1]) > 0

    served(stage, writer, lambda _agent: stage.check("its lines are dropped", True, until(dropped)), "--listen", "./pages.sock")
    os.close(writer)


def to_terminal(stage: Stage) -> None:
    """A terminal gets whole lines; no write waits, and who else writes there still waits."""
    reader, writer = pty.openpty()
    tty.setraw(writer)
    got = bytearray()

    def read_on(agent: Serving) -> None:
        os.set_blocking(reader, False)
        stage.check("it gets the lines", True, until(lambda: take(reader, got) and is_begun(got.decode())))
        writes = to_output(agent.recording.calls(), "t")
        stage.check("no write waits", (True, []), (len(writes) > 0, [call for call in writes if call.waits]))
        stage.check("others wait as before", True, os.get_blocking(writer))

    served(stage, writer, read_on)
    os.close(reader)
    os.close(writer)
