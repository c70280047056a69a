"""Programs whose calls are recorded, and who stands around them."""

from __future__ import annotations

import signal
import socket
import subprocess
import threading
import time
from collections.abc import Callable
from pathlib import Path
from types import TracebackType

from trying import SECONDS, SLOWER, Peer, Ran, Tally, framed

from .recording import Recording

SECRET = "s.web"
TIMEOUT = min(5 * SLOWER, 60)
"""Seconds for which an agent here waits for an answer: so a busy machine does not lose one."""
MARGIN = 4 * TIMEOUT
"""The least that such an agent takes."""
PATIENCE = 20 * SLOWER
"""Seconds within which something happens that is due at once, or within a second or two."""
OK = b"ok\nevery needed entry is kept\n"
IN_PIECES = {"SHORT_FILES": "20"}
"""What record_calls.c is told so that a read or a write of a file moves 20 bytes: fewer than each file has that is read or kept here."""


def until(holds: Callable[[], bool], seconds: float = PATIENCE) -> bool:
    """Waits until something holds; whether it did in time."""
    by = time.monotonic() + seconds
    while not holds():
        if time.monotonic() > by:
            return False
        time.sleep(0.02)
    return True


def table(*lines: str) -> str:
    """A token that is needed for a day, issued now."""
    now = int(time.time())
    own = ['name = "web"', f"issued = {now}", f"end = {now + 3600}", "increment = 3600", "max_ttl = 90000", f"need = {now + 86400}", *lines]
    return "\n".join(["[[token]]", *own, ""])


def inventory(*lines: str) -> str:
    """One token, with its secret unless these lines have one."""
    return f"margin = {MARGIN}\n" + table(*(lines or (f'secret = "{SECRET}"',)))


def living(seconds: int) -> Callable[[int, socket.socket, bytes], None]:
    """A broker that tells and grants so many seconds to all that it is asked for."""

    def behave(_number: int, stream: socket.socket, request: bytes) -> None:
        if b"/lookup-self" in request:
            stream.sendall(framed(b'{"data":{"creation_time":%d,"renewable":true,"ttl":%d}}' % (time.time(), seconds)))
        elif request:
            stream.sendall(framed(b'{"auth":{"lease_duration":%d,"renewable":true}}' % seconds))

    return behave


def connected(place: Path | int) -> socket.socket:
    if isinstance(place, int):
        return socket.create_connection(("127.0.0.1", place), SECONDS)
    stream = socket.socket(socket.AF_UNIX)
    stream.settimeout(PATIENCE)
    stream.connect(str(place))
    return stream


def talk(place: Path | int, text: bytes) -> bytes:
    """What is answered to these bytes, up to the end of the connection; nothing where nobody answers in time."""
    try:
        with connected(place) as stream:
            stream.sendall(text)
            return b"".join(iter(lambda: stream.recv(65536), b""))
    except OSError:
        return b""


class Serving:
    """`leasekeep serve`, whose calls are recorded, and whose log is read as it comes unless `out` is another place for it. At the end
    of its block it is killed."""

    def __init__(self, command: list[str], room: Path, recording: Recording, told: dict[str, str], out: int, umask: int) -> None:
        self.recording, self.lines = recording, list[str]()
        self._control = room / "control.sock"
        environment = recording.environment(told)
        self._process = subprocess.Popen(command, cwd=room, stdout=out, stderr=subprocess.PIPE, env=environment, umask=umask)
        self._watch = threading.Timer(2 * SECONDS, self._process.kill)
        self._watch.start()
        self._reader = threading.Thread(target=self._read, daemon=True)
        self._reader.start()

    def _read(self) -> None:
        if self._process.stdout is not None:
            for line in self._process.stdout:
                self.lines.append(line.decode(errors="replace"))

    def __enter__(self) -> Serving:
        return self

    def __exit__(self, kind: type[BaseException] | None, error: BaseException | None, trace: TracebackType | None) -> None:
        self.end()

    @property
    def events(self) -> list[str]:
        """The lines of its log, without their dates."""
        return [line.rstrip("\n").partition(" ")[2] for line in self.lines]

    def says(self, words: str) -> bool:
        """Whether a line with these words comes in time."""
        return until(lambda: any(words in event for event in self.events))

    def answers(self, seconds: float = PATIENCE) -> bool:
        """Whether it answers at `./control.sock`."""
        return until(lambda: self.asked("health").startswith(b"ok\n"), seconds)

    def asked(self, *words: str) -> bytes:
        """What it answers there."""
        line = "[" + ",".join(f'"{word}"' for word in words) + "]\n"
        return talk(self._control, line.encode()) if self._process.poll() is None else b""

    def end(self) -> bytes:
        """Kills it: what it wrote to standard error."""
        self._process.send_signal(signal.SIGKILL)
        self._process.wait(SECONDS)
        self._watch.cancel()
        self._reader.join(SECONDS)
        assert self._process.stderr is not None
        return b"" if self._process.stderr.closed else self._end_errors()

    def _end_errors(self) -> bytes:
        assert self._process.stderr is not None
        with self._process.stderr as errors:
            return errors.read()


class Stage:
    """The program and a room of its own for files."""

    def __init__(self, program: Path, library: Path, room: Path, tally: Tally, name: str) -> None:
        self.program, self.library, self.room = program, library, room
        self._tally, self._name = tally, name
        self._recordings = 0

    def check(self, what: str, wanted: object, got: object) -> None:
        self._tally.check(f"{self._name}: {what}", wanted, got)

    def write(self, name: str, text: str, mode: int = 0o600) -> str:
        path = self.room / name
        path.write_text(text)
        path.chmod(mode)
        return name

    def recording(self) -> Recording:
        """For one more program."""
        self._recordings += 1
        return Recording(self.room / f"calls-{self._recordings}", self.library)

    def serve(self, *words: str, out: int = subprocess.PIPE, umask: int = 0o022, told: dict[str, str] | None = None) -> Serving:
        """An agent with these words; what record_calls.c is told besides."""
        command = [str(self.program), "serve", *words, "--timeout", str(TIMEOUT)]
        return Serving(command, self.room, self.recording(), told or {}, out, umask)

    def failing(self, call: str) -> dict[str, str]:
        """What record_calls.c is told so that calls of that name fail from now on, or none do where there is no name."""
        path = self.room / "failing"
        path.write_text(call)
        return {"FAILS": str(path)}

    def broker(self, seconds: int = 3600) -> Peer:
        return Peer(living(seconds), self.room / "vault.sock")

    def run(self, *words: str, given: bytes = b"", told: dict[str, str] | None = None) -> tuple[Ran, Recording]:
        """A run of the program to its end, and its calls; what record_calls.c is told besides."""
        recording = self.recording()
        return self.ran(recording, words, given, told), recording

    def ran(self, recording: Recording, words: tuple[str, ...], given: bytes = b"", told: dict[str, str] | None = None) -> Ran:
        """A run of the program to its end; one that does not end in time has the exit 124."""
        try:
            ran = subprocess.run([str(self.program), *words], cwd=self.room, input=given, capture_output=True, timeout=PATIENCE,
                                 check=False, env=recording.environment(told or {}))
        except subprocess.TimeoutExpired:
            return Ran(124, b"", b"")
        return Ran(ran.returncode, ran.stdout, ran.stderr)


def boot_time() -> float:
    """What CLOCK_BOOTTIME shows now."""
    return time.clock_gettime(time.CLOCK_BOOTTIME)
