"""What the suites share that try the programs: inventories, runs, an agent that is told each moment, and a broker whose
replies are written by hand."""

from __future__ import annotations

import importlib.machinery
import importlib.util
import os
import re
import socket
import struct
import subprocess
import sys
import threading
from collections.abc import Callable
from dataclasses import dataclass
from pathlib import Path
from types import ModuleType, TracebackType

TOP = Path(__file__).resolve().parent.parent
SLOWER = int(os.environ.get("SLOWER", "1"))
"""By how much longer than usual everything may take, as tools/yardstick measures it."""
SECONDS = 60 * SLOWER
"""The longest that one run may take."""

WEB = b'[[token]]\nname = "web"\nissued = 1000\nend = 1060\nincrement = 60\nmax_ttl = 9000\nneed = 1200\n'
TOKEN_AND_LEASE = (
    b'[[token]]\nname = "T"\nissued = 1000\nend = 1100\nincrement = 100\nmax_ttl = 9000\n'
    b'[[lease]]\nname = "L"\ntoken = "T"\nissued = 1000\nend = 1060\nincrement = 60\nmax_ttl = 9000\nneed = 1200\n'
)
"""Two small inventories, of which every script knows by hand what has to come out."""


def built(words: list[str]) -> tuple[Path, Path]:
    """leasekeep and minibroker: those named, else the ones that `rt ci` or `rt run` has built."""
    paths = [Path(word).resolve() for word in words] or [TOP / f"crates/{name}/out/{name}" for name in ("leasekeep", "minibroker")]
    return paths[0], paths[1]


def suite(name: str) -> ModuleType:
    """Another script of this folder as a module."""
    loader = importlib.machinery.SourceFileLoader(name, str(TOP / "tests" / name))
    spec = importlib.util.spec_from_loader(name, loader)
    assert spec is not None
    module = importlib.util.module_from_spec(spec)
    sys.modules[name] = module
    loader.exec_module(module)
    return module


def secret_web(secret: str) -> bytes:
    """The web example with a secret of its own."""
    return WEB.replace(b'"web"\n', b'"web"\nsecret = "%s"\n' % secret.encode(), 1)


class Tally:
    """Counts what passed, and says what did not."""

    def __init__(self, script: str) -> None:
        self._script = script
        self._lock = threading.Lock()
        self.passed = self.failed = 0

    def check(self, what: str, wanted: object, got: object) -> None:
        with self._lock:
            if wanted == got:
                self.passed += 1
                return
            self.failed += 1
            print(f"{self._script}: {what}:\n  wanted {wanted!r}\n  got    {got!r}", flush=True)

    def end(self) -> int:
        """Prints the last line; the exit."""
        print(f"{self.passed} passed, {self.failed} failed")
        return int(self.failed > 0)


@dataclass(frozen=True)
class Ran:
    """How a run ended: its exit, and what it wrote."""

    exit: int
    out: bytes
    err: bytes


def run(program: Path, room: Path, *words: str, given: bytes = b"", more: dict[str, str] | None = None) -> Ran:
    """Runs the program in that folder; one that does not end in time has the exit 124."""
    try:
        ran = subprocess.run(
            [str(program), *words], cwd=room, input=given, capture_output=True, timeout=SECONDS, check=False, env=more
        )
        return Ran(ran.returncode, ran.stdout, ran.stderr)
    except subprocess.TimeoutExpired:
        return Ran(124, b"", b"")


class Agent:
    """A `leasekeep run` under way, whose lines are read one by one. It is killed after SECONDS."""

    def __init__(self, program: Path, room: Path, inventory: str, place: str, *words: str) -> None:
        self._process = subprocess.Popen(
            [str(program), "run", inventory, place, "1000", *words], cwd=room, stdin=subprocess.PIPE,
            stdout=subprocess.PIPE, stderr=subprocess.PIPE,
        )
        self._watch = threading.Timer(SECONDS, self._process.kill)
        self._watch.start()

    def hear(self) -> bytes:
        """Its next line."""
        assert self._process.stdout is not None
        return self._process.stdout.readline()

    def say(self, event: bytes) -> bytes:
        """Hands an event line in; the lines that answer it."""
        assert self._process.stdin is not None
        self._process.stdin.write(event + b"\n")
        self._process.stdin.flush()
        lines = b""
        while line := self.hear():
            lines += line
            if line.split()[0] in (b"next", b"sleep", b"idle", b"planned", b"fault"):
                break
        return lines

    def end(self) -> Ran:
        """Closes its input; how it ended, with what it still wrote."""
        out, err = self._process.communicate(timeout=SECONDS)
        self._watch.cancel()
        return Ran(self._process.returncode, out, err)

    def read_no_more(self) -> None:
        """Closes the pipe that it writes to."""
        assert self._process.stdout is not None
        self._process.stdout.close()

    def tell(self, event: bytes) -> None:
        """Hands an event line in, and reads nothing."""
        assert self._process.stdin is not None
        self._process.stdin.write(event + b"\n")
        self._process.stdin.close()

    def kill(self) -> None:
        """Ends it at once, as SIGKILL does."""
        self._process.kill()

    def left(self) -> bytes:
        """What still stands on its pipe, once it has ended."""
        assert self._process.stdout is not None
        out = self._process.stdout.read()
        self._process.wait(SECONDS)
        self._watch.cancel()
        return out

    def ended(self) -> tuple[int, bytes]:
        """Its exit and its fault line, once it has ended by itself."""
        assert self._process.stderr is not None
        fault = self._process.stderr.read()
        self._watch.cancel()
        return self._process.wait(SECONDS), fault


# ---- a broker by hand

Behave = Callable[[int, socket.socket, bytes], None]
"""What a broker does with its connection of that number, from 1, after the request that it has read."""


class Peer:
    """Listens at a port of 127.0.0.1, or at a socket of that path, and serves one connection after the other in a thread."""

    def __init__(self, behave: Behave, path: Path | None = None) -> None:
        self._behave, self._path = behave, path
        self.requests: list[bytes] = []
        self.word = "" if path is None else str(path)
        self._listener = self._listen()
        self._thread = threading.Thread(target=self._serve, daemon=True)

    def _listen(self) -> socket.socket:
        if self._path is not None:
            listener = socket.socket(socket.AF_UNIX)
            listener.bind(str(self._path))
        else:
            listener = socket.socket()
            listener.setsockopt(socket.SOL_SOCKET, socket.SO_REUSEADDR, 1)
            listener.bind(("127.0.0.1", int(self.word or 0)))
            self.word = str(listener.getsockname()[1])
        listener.listen(64)
        return listener

    def __enter__(self) -> Peer:
        self._thread.start()
        return self

    def __exit__(self, kind: type[BaseException] | None, error: BaseException | None, trace: TracebackType | None) -> None:
        self.leave()

    def leave(self) -> None:
        """Listens no more."""
        try:
            self._listener.shutdown(socket.SHUT_RDWR)
        except OSError:
            pass
        self._listener.close()
        if self._path is not None:
            self._path.unlink(missing_ok=True)

    def fill(self) -> list[socket.socket]:
        """Connections that fill its queue: while it is held up with one, nobody else is let in."""
        self._listener.listen(0)
        waiting = [socket.socket(self._listener.family) for _ in range(3)]
        for stream in waiting:
            stream.setblocking(False)
            stream.connect_ex(self._listener.getsockname())
        return waiting

    def come_back(self) -> None:
        """Listens again at the same place."""
        self._listener = self._listen()
        self._thread = threading.Thread(target=self._serve, daemon=True)
        self._thread.start()

    def _serve(self) -> None:
        listener = self._listener
        while True:
            try:
                stream, _ = listener.accept()
            except OSError:
                return
            with stream:
                try:
                    stream.settimeout(SECONDS)
                    request = read_request(stream)
                    self.requests.append(request)
                    self._behave(len(self.requests), stream, request)
                except OSError:
                    pass


def whole_request(got: bytes) -> bool:
    """Whether these bytes are one whole request."""
    head, blank, body = got.partition(b"\r\n\r\n")
    length = re.search(rb"\r\nContent-Length: (\d+)", head)
    return bool(blank) and len(body) >= (int(length[1]) if length else 0)


def read_request(stream: socket.socket) -> bytes:
    """The bytes of one request, or what came of it."""
    got = b""
    while True:
        if whole_request(got):
            return got
        piece = stream.recv(65536)
        if not piece:
            return got
        got += piece


def framed(body: bytes, status: bytes = b"200 OK") -> bytes:
    return b"HTTP/1.1 %s\r\nContent-Length: %d\r\n\r\n%s" % (status, len(body), body)


def good_body(request: bytes) -> bytes:
    """A body that tells or grants 60 seconds for what the request asks."""
    path = request.split(b" ")[1]
    found = re.search(rb'"lease_id":"([^"]*)"', request)
    lease = b"" if found is None else found[1]
    return {
        b"/v1/auth/token/lookup-self": b'{"data":{"creation_time":1000,"renewable":true,"ttl":60}}',
        b"/v1/sys/leases/lookup": b'{"data":{"id":"%s","issue_time":"1970-01-01T00:16:40Z","renewable":true,"ttl":60}}' % lease,
        b"/v1/auth/token/renew-self": b'{"auth":{"lease_duration":60,"renewable":true}}',
    }.get(path, b'{"lease_duration":60,"lease_id":"%s","renewable":true}' % lease)


def good(request: bytes) -> bytes:
    """A reply that tells or grants 60 seconds for what the request asks."""
    return framed(good_body(request))


def serve_well(_number: int, stream: socket.socket, request: bytes) -> None:
    if request:
        stream.sendall(good(request))


def reset(stream: socket.socket) -> None:
    """Breaks the connection off, so that the other side's read fails."""
    stream.setsockopt(socket.SOL_SOCKET, socket.SO_LINGER, struct.pack("ii", 1, 0))
