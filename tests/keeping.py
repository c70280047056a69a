"""An agent that has nothing to do but changes, and what it keeps: what tests/crashes and tests/journals share."""

from __future__ import annotations

import json
import os
import socket
import subprocess
import tempfile
import time
import tomllib
from datetime import datetime
from pathlib import Path
from types import TracebackType

from trying import SECONDS

FILE_NAME = "files/file.toml"
SOCKET = "control.sock"
DAY = 2_100_000_000
"""A moment that is ahead: needs are so many seconds after it."""
APP = f"""\
[[token]]
name = "app"
issued = 1000
end = {DAY}
increment = 3600
max_ttl = 86400
need = {DAY + 7}
secret = "s.app"

"""
WEB = APP.replace("app", "web").replace(str(DAY + 7), str(DAY + 8))
DB = f"""\
[[lease]]
name = "db"
token = "app"
issued = 1000
end = {DAY}
increment = 3600
max_ttl = 86400
need = {DAY + 9}
lease_id = "db/creds/1"

"""
MARGIN = "margin = 30\n\n"
FILE = MARGIN + APP + WEB + DB

Entries = dict[str, tuple[str, int]]
"""The credential of each entry, and how many seconds after that moment it is needed."""
AT_FIRST: Entries = {"app": ("s.app", 7), "web": ("s.web", 8), "db": ("db/creds/1", 9)}


def folder_of(room: Path, file: str = FILE, journal: bytes | None = None) -> Path:
    """A new folder with the file and, where these are given, a journal's bytes."""
    folder = Path(tempfile.mkdtemp(dir=room))
    for name in ("state", "files", "run"):
        (folder / name).mkdir(mode=0o700)
    for path, text in ((folder / FILE_NAME, file.encode()), (folder / "state" / "journal", journal)):
        if text is not None:
            path.touch(0o600)
            path.write_bytes(text)
    return folder


def entries_of(file: str) -> Entries:
    """The entries of a file."""
    tables = tomllib.loads(file)
    return {table["name"]: (table.get("secret") or table.get("lease_id") or table["name"], seconds_of(table.get("need", 0)))
            for table in [*tables.get("token", []), *tables.get("lease", [])]}


def seconds_of(moment: object) -> int:
    """How many seconds a need of the file lies after that moment: a number, or a date."""
    if isinstance(moment, str):
        moment = datetime.fromisoformat(moment)
    return (int(moment.timestamp()) if isinstance(moment, datetime) else int(str(moment))) - DAY


class Agent:
    """`leasekeep serve` in a folder, over a broker that is not there, so that it has nothing to do but changes."""

    def __init__(self, program: Path, folder: Path, more: dict[str, str], *, is_logged: bool = False) -> None:
        self._socket, self._log = folder / SOCKET, folder / "log"
        self._socket.unlink(missing_ok=True)
        with (self._log if is_logged else Path(os.devnull)).open("wb") as log:
            self._process = subprocess.Popen(
                [program, "serve", FILE_NAME, "./none.sock", "--state", "./state", "--runtime", "./run", "--control", f"./{SOCKET}"],
                cwd=folder, stdout=log, stderr=subprocess.STDOUT, env=more)

    def __enter__(self) -> Agent:
        return self

    def __exit__(self, _type: type[BaseException] | None, _error: BaseException | None, _trace: TracebackType | None) -> None:
        self.kill()

    def kill(self) -> None:
        self._process.kill()
        self._process.wait()

    @property
    def status(self) -> int | None:
        """How it has ended."""
        return self._process.poll()

    def ended(self) -> int | None:
        """How it has ended, where that is at once."""
        try:
            return self._process.wait(0.5)
        except subprocess.TimeoutExpired:
            return None

    def _connected(self) -> socket.socket | None:
        """A connection, as soon as it takes one; none where it has ended."""
        by = time.monotonic() + SECONDS
        while self.status is None and time.monotonic() < by:
            client = socket.socket(socket.AF_UNIX)
            try:
                client.connect(str(self._socket))
                return client
            except OSError:
                client.close()
                time.sleep(0.002)
        return None

    def ask(self, *words: str) -> list[str]:
        """The lines of its answer, those that came whole."""
        client, answer = self._connected(), b""
        if client is None:
            return []
        with client:
            client.settimeout(SECONDS)
            try:
                client.sendall(json.dumps(words).encode() + b"\n")
                while some := client.recv(65536):
                    answer += some
            except OSError:
                pass
        return answer[: answer.rfind(b"\n") + 1].decode().splitlines()

    def log(self) -> list[str]:
        """The lines of its log up to now, where it has one."""
        return self._log.read_text().splitlines()
