"""`leasekeep serve` itself in virtual time: its process, its log, and clients of its control socket."""

from __future__ import annotations

import json
import os
import re
import signal
import socket
import subprocess
from dataclasses import dataclass
from datetime import datetime
from pathlib import Path
from typing import Any

from trying import SECONDS

from .clock import NANOSECONDS, NEVER, Cell, Clocks, Turns, ns
from .world import World

MOST = 65536
CONTROL, PAGES, STATE, ENDS = "control.sock", "pages.sock", "state", "ends"
"""What stands in its folder."""
DATE = re.compile(r"\d{4}-\d\d-\d\dT\d\d:\d\d:\d\dZ")
PLAIN = {**os.environ, "ASAN_OPTIONS": "quarantine_size_mb=0"}
"""For a build under a sanitizer, which would keep what was freed."""


@dataclass(frozen=True)
class Line:
    """A line of its log. `moment`: when it was read here."""

    moment: int
    run: int
    level: str
    event: str
    words: tuple[str, ...]

    def __str__(self) -> str:
        level = "" if self.level == "info" else f"{self.level}: "
        return f"{self.moment / NANOSECONDS:12.3f} {level}{self.event} {' '.join(self.words)}".rstrip()


def words_of(told: dict[str, Any]) -> tuple[str, ...]:
    """What an object of the log says of its event, word by word, with moments in seconds. A message begins with the event."""
    said = {key: value for key, value in told.items() if key not in ("moment", "level", "event")}
    if "message" in said:
        said["message"] = said["message"].removeprefix(f"{told['event']} ")
    parts = [part for value in said.values() for part in (value if isinstance(value, list) else [value])]
    return tuple(word for part in parts for word in in_seconds(str(part)).split())


def in_seconds(word: str) -> str:
    """A date as its seconds since 1970, and any other word as it is."""
    return str(int(datetime.fromisoformat(word).timestamp())) if DATE.fullmatch(word) else word


class Client:
    """A client of the control socket, or an onlooker: it sends some bytes, and hears what is answered up to the end."""

    def __init__(self, world: World, path: Path, text: bytes, what: str) -> None:
        self.what, self._world, self._text = what, world, b""
        self.asked, self.told = world.now, NEVER
        """When it asked, and when all was answered."""
        self._stream = socket.socket(socket.AF_UNIX)
        self._stream.setblocking(False)
        try:
            self._stream.connect(str(path))
        except OSError:
            self._end()
            return
        world.listen(self._stream, self._hear)
        world.send(self._stream, text)

    def _hear(self) -> None:
        try:
            piece = self._stream.recv(MOST)
        except OSError:
            piece = b""
        self._text += piece
        if not piece:
            self._world.ignore(self._stream)
            self._end()

    def _end(self) -> None:
        self._stream.close()
        self.told = self._world.now

    @property
    def is_done(self) -> bool:
        return self.told < NEVER

    @property
    def lines(self) -> list[str]:
        """What was answered; nothing where nobody was there, or it ended before."""
        return self._text.decode().splitlines()

    @property
    def is_ok(self) -> bool:
        return self.lines[:1] == ["ok"]


class Agent:
    """The agent of a machine. It may be killed and started again; one runs at a time."""

    def __init__(self, world: World, program: Path, room: Path, words: list[str], clocks: Clocks, late: float, name: str) -> None:
        """`words`: those behind `serve`. `late`: by how many seconds the machine wakes up late."""
        self.world, self.clocks, self._program, self._room, self._words, self._late = world, clocks, program, room, words, ns(late)
        self.name = name
        self.run = 0
        """How often it was started."""
        self.lines: list[Line] = []
        self.status: int | None = None
        """How its last run has ended, if it has."""
        self._boots = 0
        self.new_boot()
        self._heard = NEVER
        self._suspended_until = self._stands_until = 0

    # ---- its life

    def new_boot(self) -> None:
        """The machine is booted anew: its boot clock begins again, and the boot has another id."""
        self._boots += 1
        self._boot_file.write_text(f"00000000-0000-4000-8000-{self._boots:012d}\n")
        self.clocks.boot(self.world.now)

    @property
    def _boot_file(self) -> Path:
        return self._room / "boot_id"

    def start(self) -> None:
        """Starts it; it runs until it waits for the first time, or ends."""
        self.run += 1
        self.status = None
        self._stands_until = 0
        self._turns = Turns(self._room, self._late)
        self._turns.show(self.clocks, self.world.now)
        self._log_path = self._room / f"log.{self.run}"
        self._error_path = self._room / f"error.{self.run}"
        with self._log_path.open("wb") as log, self._error_path.open("wb") as errors:
            self._process = subprocess.Popen(
                [str(self._program), "serve", *self._words, "--log", "json"], cwd=self._room, pass_fds=self._turns.handles,
                stdin=subprocess.DEVNULL, stdout=log, stderr=errors, env={**PLAIN, **self._turns.environment(self._boot_file)})
        self._turns.begun()
        self._log, self._unread = os.open(self._log_path, os.O_RDONLY), b""
        self.world.living.append(self)
        self._await()

    def _await(self) -> None:
        """Waits until it waits, and reads what it has logged meanwhile. Time has passed where waits of it were over by themselves."""
        self._heard = NEVER
        is_up = self._turns.take()
        self.world.now = max(self.world.now, self.clocks.moment_of(self._turns.get(Cell.NOW)))
        if is_up:
            self._read_log()
        else:
            self._buried()

    def _buried(self) -> None:
        """It has ended."""
        self.status = self._process.wait(SECONDS)
        self._read_log()
        self.world.living.remove(self)
        os.close(self._log)
        self._turns.close()

    @property
    def is_up(self) -> bool:
        return self.run > 0 and self.status is None

    def kill(self) -> None:
        """Ends it at once, as a crash does."""
        self._end(signal.SIGKILL)

    def stop(self) -> None:
        """Ends it as systemd does."""
        self._end(signal.SIGTERM)

    def _end(self, number: signal.Signals) -> None:
        if self.is_up:
            self._process.send_signal(number)
            self._process.wait(SECONDS)
            self._buried()

    def kill_at_call(self, number: int) -> None:
        """It will be killed before its so many-th call from now on that others can see."""
        self._turns.put(Cell.KILLED, number)

    def memory(self) -> int:
        """The bytes that it has in memory."""
        pages = Path(f"/proc/{self._process.pid}/statm").read_text().split()[1]
        return int(pages) * os.sysconf("SC_PAGE_SIZE")

    def errors(self) -> str:
        """What it has written on standard error."""
        return self._error_path.read_text()

    # ---- its time

    @property
    def wakes(self) -> int:
        own = self.clocks.moment_of(self._turns.get(Cell.UNTIL))
        return max(min(own, self._heard), self._suspended_until, self._stands_until)

    @property
    def is_awake(self) -> bool:
        """Whether it is up, neither stopped nor on a machine that is suspended."""
        return self.is_up and self.world.now > max(self._suspended_until, self._stands_until)

    @property
    def rests(self) -> int:
        """How many waits of this run were over by themselves, with nothing that the program waited for."""
        return self._turns.get(Cell.WAITS)

    def was_poked(self) -> None:
        self._heard = min(self._heard, self.world.now + self._late)

    def go_on(self, horizon: int) -> None:
        self._turns.show(self.clocks, self.world.now)
        self._turns.put(Cell.HORIZON, NEVER if horizon >= NEVER else self.clocks.monotonic(horizon))
        self._turns.give()
        self._await()

    def suspend(self, seconds: float) -> None:
        """The machine is suspended for so long: it does nothing, and no wait of it counts that time."""
        self.clocks.suspend(ns(seconds))
        self._suspended_until = self.world.now + ns(seconds)

    def stand_still(self, seconds: float) -> None:
        """It is stopped (SIGSTOP) for so long: it does nothing, and each wait of it counts that time."""
        self._stands_until = self.world.now + ns(seconds)

    def disk_stalls(self, seconds: float) -> None:
        """Each of its disk calls waits until then, of this run."""
        self._turns.put(Cell.DISK_WAITS, self.clocks.monotonic(self.world.now + ns(seconds)))

    def disk_fails(self, error: int) -> None:
        """Each of its disk calls fails with that error from now on; 0 is none."""
        self._turns.put(Cell.DISK_FAILS, error)

    # ---- what it says

    def _read_log(self) -> None:
        while piece := os.read(self._log, MOST):
            *whole, self._unread = (self._unread + piece).split(b"\n")
            for text in whole:
                told = json.loads(text)
                self.lines.append(Line(self.world.now, self.run, told["level"], told["event"], words_of(told)))

    def said(self, event: str, *words: str, level: str | None = None) -> list[Line]:
        """The lines of that event that begin with these words."""
        return [line for line in self.lines if line.event == event and line.words[:len(words)] == words and level in (None, line.level)]

    def client(self, *words: str) -> Client:
        """A client that has just asked for that."""
        return Client(self.world, self._room / CONTROL, json.dumps(words).encode() + b"\n", " ".join(words))

    def ask(self, *words: str, seconds: float = 30.0) -> list[str]:
        """What is answered to a command, for which so much time may pass."""
        client = self.client(*words)
        self.world.run(self.world.now + ns(seconds), lambda: client.is_done)
        return client.lines

    def page(self, path: str, seconds: float = 30.0) -> Any:
        """What a page says that is JSON; nothing where it does not come."""
        head = f"GET {path} HTTP/1.1\r\nHost: x\r\n\r\n".encode()
        onlooker = Client(self.world, self._room / PAGES, head, path)
        self.world.run(self.world.now + ns(seconds), lambda: onlooker.is_done)
        _, _, body = "\n".join(onlooker.lines).partition("\n\n")
        return json.loads(body) if body else None
