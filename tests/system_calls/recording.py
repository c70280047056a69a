"""The calls of a program, as record_calls.c writes them."""

from __future__ import annotations

import os
import subprocess
from dataclasses import dataclass
from pathlib import Path

CREATE, EXCLUSIVE = 0o100, 0o200
"""Flags of an open (fcntl.h)."""
EXCLUSIVE_LOCK_AT_ONCE = 2 | 4
"""How flock is asked for a lock of one holder, without waiting for it (sys/file.h)."""
CAN_READ, CAN_WRITE = 1, 4
"""What an epoll tells of (sys/epoll.h)."""
ADD = 1
"""How epoll_ctl is told to begin with a socket."""
BY_NUMBER = ("read", "write", "pwrite", "sync", "cut", "fchmod", "flock", "bind", "listen", "accept", "connect", "epoll_ctl",
             "longest-read", "longest-write", "close")
"""Calls whose first word is the number of what they are made of."""


def build(folder: Path) -> Path:
    """The built library."""
    library = folder / "record-calls.so"
    source = Path(__file__).with_name("record_calls.c")
    subprocess.run(["cc", "-shared", "-fPIC", "-O1", "-o", library, source], check=True)
    return library


@dataclass(frozen=True)
class Call:
    """A call of the system: its words, its result (below 0 an error; of a wait, which is written before it begins, none), and, of one
    that is made of a number, what that stood for: the path that was opened, the address of a socket, or `guest of` one."""

    name: str
    words: tuple[str, ...]
    result: int
    of: str

    @property
    def waits(self) -> bool:
        """Whether a read, a write, an accept or a connect could have waited for somebody."""
        return self.words[1].endswith("B")

    @property
    def kind(self) -> str:
        """Of what kind that is which was read or written."""
        return self.words[1][0]


def read_calls(text: str) -> list[Call]:
    """The calls of whole lines."""
    standing: dict[str, str] = {}
    calls = []
    for line in text[: text.rfind("\n") + 1].splitlines():
        said, _, result = line.partition(" = ")
        name, *words = said.split(" ")
        of = standing.get(words[2] if name == "epoll_ctl" else words[0], "") if name in BY_NUMBER else ""
        of = words[2] if name == "connect" else of
        calls.append(Call(name, tuple(words), int(result or 0), of))
        if not line.endswith(f"= {result}") or int(result or 0) < 0 and name != "connect":
            continue
        if name == "open":
            standing[result] = words[0]
        elif name in ("socket", "epoll_create"):
            standing[result] = ""
        elif name == "dup":
            standing[result] = standing.get(words[0], "")
        elif name in ("bind", "connect"):
            standing[words[0]] = words[-1]
        elif name == "accept":
            standing[result] = f"guest of {of}"
        elif name == "close":
            standing.pop(words[0], None)
    return calls


class Recording:
    """The calls of one program."""

    def __init__(self, path: Path, library: Path) -> None:
        self._path, self._library = path, library

    def environment(self, told: dict[str, str]) -> dict[str, str]:
        """What the program is to find in its environment, with what record_calls.c is told besides. What else is preloaded comes first."""
        loaded = " ".join(filter(None, (os.environ.get("LD_PRELOAD", ""), str(self._library))))
        return {**os.environ, "LD_PRELOAD": loaded, "CALLS": str(self._path), **told}

    def calls(self, *names: str) -> list[Call]:
        """Those that were made up to now, of these names where some are given."""
        text = self._path.read_text(errors="replace") if self._path.exists() else ""
        return [call for call in read_calls(text) if not names or call.name in names]

    def count(self, *names: str) -> int:
        return len(self.calls(*names))
