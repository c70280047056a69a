"""A machine of a trial: an agent in a namespace, with folders of its own, and what its FILE says."""

from __future__ import annotations

import asyncio
import json
import signal
from collections.abc import Iterable
from dataclasses import dataclass
from pathlib import Path

from .broker import Proxy
from .namespaces import PORT, Namespace, Wire


@dataclass(frozen=True)
class Token:
    """A token: its name, the increment of its renewals, and whether its credential stands in a file."""

    name: str
    step: int
    is_in_file: bool

    def secret(self, number: int) -> str:
        """Its credential of that number."""
        return f"s.{self.name}.{number}"


def file_text(margin: int, tokens: Iterable[Token]) -> str:
    """What FILE says of them."""
    rows = [f"margin = {margin}"]
    for token in tokens:
        held = f'secret_file = "{token.name}.token"' if token.is_in_file else f'secret = "{token.secret(0)}"'
        rows += ["[[token]]", f'name = "{token.name}"', held, f"increment = {token.step}", "max_ttl = 864000", 'need = "always"']
    return "\n".join([*rows, ""])


class Machine:
    """A machine; its agent stands behind another where `is_behind`."""

    def __init__(self, name: str, folder: Path, space: Namespace, wire: Wire, program: str, timeout: int, is_behind: bool) -> None:
        self.name, self.folder, self.space, self.wire, self.is_behind = name, folder, space, wire, is_behind
        self._proxy = Proxy(space, wire)
        self._process: asyncio.subprocess.Process | None = None
        options = ["--behind", "--name", name] if is_behind else []
        self._words = ["ip", "netns", "exec", space.name, program, "serve", "fleet.toml", str(PORT), "--timeout", str(timeout),
                       "--state", "./state", "--control", "./control.sock", *options]
        folder.mkdir()

    def write(self, name: str, text: str) -> None:
        """A file of its folder, moved to its place."""
        path = self.folder / f"{name}.new"
        path.touch(0o600)
        path.write_text(text)
        path.rename(self.folder / name)

    async def start(self) -> None:
        """Starts its proxy, and the agent."""
        await self._proxy.start()
        await self.start_agent()

    async def start_agent(self) -> None:
        with open(self.folder / "log", "ab") as log, open(self.folder / "errors", "ab") as errors:
            self._process = await asyncio.create_subprocess_exec(
                *self._words, cwd=self.folder, stdin=asyncio.subprocess.DEVNULL, stdout=log, stderr=errors)

    def signal(self, number: signal.Signals) -> None:
        if self._process is not None and self._process.returncode is None:
            self._process.send_signal(number)

    async def kill(self) -> None:
        self.signal(signal.SIGKILL)
        if self._process is not None:
            await self._process.wait()

    async def stop(self) -> None:
        await self.kill()
        self._proxy.stop()

    async def reload(self) -> str:
        """Has FILE read; the answer."""
        reader, writer = await asyncio.open_unix_connection(str(self.folder / "control.sock"))
        writer.write(json.dumps(["reload"]).encode() + b"\n")
        answer = await reader.read()
        writer.close()
        return answer.decode()

    def said(self, event: str) -> int:
        """How many lines of its log have that event."""
        return sum(event in line.split()[1:3] for line in (self.folder / "log").read_text().splitlines())
