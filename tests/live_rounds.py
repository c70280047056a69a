"""Rounds of `leasekeep run` against brokers of this file, over a port of 127.0.0.1 and over a UNIX socket:
python3 tests/live_rounds.py TRIAL LEASEKEEP. It prints what came of both, in words that tests/end-to-end-live compares.

late: in real time, the first reply to a renewal comes after 6 seconds, each other one after 0.3 seconds, with a margin of 20.
hanging: the reply to the first renewal waits until the program has written something.
silent: the broker takes the requests of two rounds and says nothing, or takes no connection.
killed: the program is killed as its first, second or third renewal comes to the broker.
"""

from __future__ import annotations

import re
import socket
import socketserver
import sys
import tempfile
import threading
import time
from collections.abc import Iterator
from concurrent.futures import ThreadPoolExecutor
from contextlib import contextmanager
from pathlib import Path

from trying import SECONDS, SLOWER, Agent, Behave, Peer, framed, good, read_request

START = 1000
MARGIN = 20
NAMES = ("a", "b", "c")
TOLD = 26
"""What each lookup and each renewal tells, in seconds: the next round is six seconds later."""

def inventory(margin: int, step: int) -> str:
    """Three tokens, which end a step after START."""
    return f"margin = {margin}\n" + "".join(
        f'[[token]]\nname = "{name}"\nsecret = "s.{name}"\nissued = {START}\nend = {START + step}\nincrement = {step}\n'
        f"max_ttl = 9000\nneed = 9000\n"
        for name in NAMES
    )


class Clock:
    """The moment now: START and the real seconds since."""

    def __init__(self) -> None:
        self._began = time.monotonic()

    def now(self) -> float:
        return START + time.monotonic() - self._began

    def wait_until(self, moment: float) -> None:
        time.sleep(max(0.0, moment - self.now()))


class Broker:
    """Keeps the end of each token, and whether one was asked for that had ended. A request is served when it comes, by a thread
    of its own, and its reply comes as late as `lateness` says, by the number of the renewal (0 for a lookup)."""

    def __init__(self, clock: Clock) -> None:
        self._clock = clock
        self._lock = threading.Lock()
        self._ends = dict.fromkeys((f"s.{name}" for name in NAMES), float(START + TOLD))
        self._renewals = 0
        self.has_lost = False

    def serve(self, request: bytes) -> tuple[float, bytes]:
        """How late the reply comes, and its bytes."""
        found = re.search(rb"\r\nX-Vault-Token: (\S+)", request)
        secret = "" if found is None else found[1].decode()
        with self._lock:
            now = self._clock.now()
            if self._ends.get(secret, 0.0) <= now:
                self.has_lost = True
                return 0.0, framed(b'{"errors":["permission denied"]}', b"403 Forbidden")
            if b"/lookup-self" in request:
                return 0.3, framed(b'{"data":{"creation_time":%d,"renewable":true,"ttl":%d}}' % (START, TOLD))
            self._renewals += 1
            self._ends[secret] = now + TOLD
            late = 6.0 if self._renewals == 1 else 0.3
            return late, framed(b'{"auth":{"lease_duration":%d,"renewable":true}}' % TOLD)


def listen(broker: Broker, path: Path | None) -> tuple[socketserver.BaseServer, str]:
    """Serves at a free port, or at the socket of that path; the server, and the word for its place."""

    class Handler(socketserver.BaseRequestHandler):
        def handle(self) -> None:
            try:
                late, reply = broker.serve(read_request(self.request))
                time.sleep(late)
                self.request.sendall(reply)
            except OSError:
                pass

    kind = socketserver.ThreadingTCPServer if path is None else socketserver.ThreadingUnixStreamServer
    server = kind(("127.0.0.1", 0) if path is None else str(path), Handler)
    server.daemon_threads = True
    threading.Thread(target=server.serve_forever, daemon=True).start()
    return server, str(server.server_address[1]) if path is None else str(path)


def drive(program: Path, room: Path, clock: Clock, place: str) -> list[list[str]]:
    """Sends each tick when its moment has come, and again a second later where the round has to be made again, as
    docs/commands/run.md has it, for 22 seconds or six rounds; the answers of each round."""
    agent = Agent(program, room, "tokens.toml", place)
    for _ in NAMES:
        agent.hear()
    rounds = []
    moment = START
    while moment < START + 22 and len(rounds) < 6:
        clock.wait_until(moment)
        lines = [line.split() for line in agent.say(b"tick %d" % moment).decode().splitlines()]
        answers = [words[0] for words in lines if words[0] in ("told", "refused", "lost")]
        if answers:
            rounds.append(answers)
        if lines[-1][0] not in ("next", "sleep") or lines[-1][1] == "none":
            break
        if lines[-1][1] == str(moment):
            time.sleep(1)
        moment = int(lines[-1][1])
    agent.end()
    return rounds


def late(program: Path) -> None:
    """Prints the first answer, those of the later rounds, and whether a token ended. (What the others of the first round get is
    a matter of some hundredths of a second.)"""
    with tempfile.TemporaryDirectory() as folder:
        room = Path(folder)
        (room / "tokens.toml").write_text(inventory(MARGIN, TOLD))
        said: dict[str, str] = {}

        def one(name: str, path: Path | None) -> None:
            clock = Clock()
            broker = Broker(clock)
            server, place = listen(broker, path)
            rounds = drive(program, room, clock, place)
            server.shutdown()
            first, later = rounds[0][0], rounds[1:]
            words = " ".join(sorted({answer for answers in later for answer in answers}))
            said[name] = f"{name}: first {first}, in {len(later)} later rounds {words}; a token has ended: {broker.has_lost}"

        trials = [threading.Thread(target=one, args=pair) for pair in (("port", None), ("socket", room / "socket"))]
        for trial in trials:
            trial.start()
        for trial in trials:
            trial.join()
        for name in sorted(said):
            print(said[name])


# ---- within a round


@contextmanager
def asking(program: Path, behave: Behave, is_socket: bool, *words: str) -> Iterator[tuple[Agent, Peer]]:
    """A run against such a broker, whose lookups are done: three tokens that end at 1060, and a tick at 1059."""
    with tempfile.TemporaryDirectory() as folder:
        room = Path(folder)
        (room / "tokens.toml").write_text(inventory(1, 60))
        with Peer(behave, room / "socket" if is_socket else None) as peer:
            agent = Agent(program, room, "tokens.toml", peer.word, *words)
            for _ in NAMES:
                agent.hear()
            yield agent, peer


def hanging(program: Path) -> None:
    """Prints the first line of the round, whether it was written before the first reply, and the other lines."""
    for name in ("port", "socket"):
        is_read = threading.Event()
        came_first: list[bool] = []

        def behave(number: int, stream: socket.socket, request: bytes) -> None:
            if number == len(NAMES) + 1:
                came_first.append(is_read.wait(3))
            stream.sendall(good(request))

        with asking(program, behave, name == "socket") as (agent, _):
            agent.tell(b"tick 1059")
            first = agent.hear().decode().strip()
            is_read.set()
            rest = agent.left().decode().splitlines()
            print(f"{name}: {first}; before the reply: {came_first == [True]}; {'; '.join(rest)}")


def silent(program: Path) -> None:
    """Prints how many were lost in each of two rounds, and whether these took as long as they are to: the time-out of two seconds once
    in each, and a quarter of a second for each of the others."""
    trials = [(name, how) for name in ("port", "socket") for how in ("says nothing", "takes no connection")]
    with ThreadPoolExecutor(len(trials)) as pool:
        for line in pool.map(lambda trial: f"{trial[0]}, {trial[1]}: {two_rounds(program, *trial)}", trials):
            print(line)


def two_rounds(program: Path, name: str, how: str) -> str:
    is_over = threading.Event()
    kept: list[socket.socket] = []

    def behave(number: int, stream: socket.socket, request: bytes) -> None:
        if number <= len(NAMES):
            stream.sendall(good(request))
        else:
            kept.append(stream.dup())  # (It stays open.)
        if number == len(NAMES) and how == "takes no connection":
            is_over.wait(SECONDS)

    with asking(program, behave, name == "socket", "--timeout", "2") as (agent, peer):
        if how == "takes no connection":
            kept += peer.fill()
        said = []
        for _ in range(2):
            began = time.monotonic()
            lost = agent.say(b"tick 1059").count(b"lost ")
            took = time.monotonic() - began
            least = 2 + 0.25 * (len(NAMES) - 1)
            said.append(f"{lost} lost in time: {least - 0.1 < took < least + 1.2 * SLOWER}")
        agent.end()
        is_over.set()
    for stream in kept:
        stream.close()
    return "; ".join(said)


def killed(program: Path) -> None:
    """Prints what stood on the pipe of a program that was killed as a renewal came to the broker, by the number of that one."""
    for name in ("port", "socket"):
        for last in range(1, len(NAMES) + 1):
            agents: list[Agent] = []
            is_begun = threading.Event()

            def behave(number: int, stream: socket.socket, request: bytes) -> None:
                if number < len(NAMES) + last:
                    stream.sendall(good(request))
                else:
                    is_begun.wait(SECONDS)
                    agents[0].kill()

            with asking(program, behave, name == "socket") as (agent, _):
                agents.append(agent)
                is_begun.set()
                agent.tell(b"tick 1059")
                print(f"{name} {last}: {'; '.join(agent.left().decode().splitlines())}")


if __name__ == "__main__":
    {"late": late, "hanging": hanging, "silent": silent, "killed": killed}[sys.argv[1]](Path(sys.argv[2]).resolve())
