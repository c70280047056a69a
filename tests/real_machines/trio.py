"""Three machines and a broker, which live for the whole trial."""

from __future__ import annotations

import asyncio
import os
import time
from pathlib import Path

from .broker import Asked, Broker
from .machine import Machine, Token, file_text
from .namespaces import Namespace, Wire

NAMES = ("front", "second", "third")
SPARES = 40
"""Credentials of each token of which the credential stands in a file."""


class Trio:
    """A fleet of twelve tokens on three machines. Moments are those of the monotonic clock."""

    def __init__(self, number: int, folder: Path, leasekeep: str, minibroker: str, margin: int, timeout: int) -> None:
        self.number, self.margin, self.timeout, self.folder = number, margin, timeout, folder / f"fleet{number}"
        self.folder.mkdir()
        self._events = folder / "events"
        self.tokens = [Token(f"e{place}", 2 * margin + 4 * place, place % 4 == 0) for place in range(12)]
        self.held = {token.name: 0 for token in self.tokens}
        """The number of the credential that is to be kept."""
        self.longest = self.tokens[-1].step
        self.calm, self.wrong, self.rests = self.longest - margin + 10, self.longest - margin // 2 + 10, margin
        """How long nothing happens first, then something is wrong, and then nothing is said: a time in which each entry is renewed in
        front; one in which it has to be renewed behind; and a margin."""
        rows = self.folder / "rows.toml"
        rows.write_text(self._rows())
        self._spaces = [Namespace(f"lk{os.getpid()}-{number}-{name}") for name in ("broker", *NAMES)]
        self.broker = Broker(minibroker, rows, self.folder / "minibroker.sock", self._spaces[0])
        self.machines = list[Machine]()
        for place, name in enumerate(NAMES):
            space = self._spaces[place + 1]
            wire = self.broker.wires[name] = Wire(self._spaces[0], space, 4 * number + place + 1)
            machine = Machine(name, self.folder / name, space, wire, leasekeep, timeout, place > 0)
            machine.write("fleet.toml", file_text(margin, self.tokens))
            for token in self.tokens:
                if token.is_in_file:
                    machine.write(f"{token.name}.token", token.secret(0))
            self.machines.append(machine)

    def _rows(self) -> str:
        """What the broker has: the tokens, and spare credentials of some, which live for a day."""
        now, rows = int(time.time()), list[str]()
        for token in self.tokens:
            for number in range(SPARES if token.is_in_file else 1):
                left = 86400 if number else token.step
                rows += ["[[token]]", f'name = "{token.name}-{number}"', f'secret = "{token.secret(number)}"', f"issued = {now}",
                         f"end = {now + left}", f"increment = {token.step}", "max_ttl = 864000", f"need = {now + 80000}"]
        return "\n".join([*rows, ""])

    @property
    def front(self) -> Machine:
        return self.machines[0]

    @property
    def lasts(self) -> float:
        """How long a scenario takes."""
        return self.calm + self.wrong + self.rests + 10

    async def start(self) -> None:
        await self.broker.start()
        for machine in self.machines:
            await machine.start()

    async def stop(self) -> None:
        for machine in self.machines:
            await machine.stop()
        await self.broker.stop()
        for space in self._spaces:
            space.close()

    def note(self, text: str) -> None:
        with open(self._events, "a", encoding="ascii") as file:
            file.write(f"{time.strftime('%Y-%m-%dT%H:%M:%SZ', time.gmtime())} fleet{self.number} {text}\n")

    # ---- what is seen

    def secrets(self) -> list[str]:
        """The credentials that are to be kept."""
        return [token.secret(self.held[token.name]) for token in self.tokens]

    async def lost(self) -> list[str]:
        """Those of them that the broker does not know any more."""
        return await self.broker.dead(self.secrets())

    def asked(self, since: float, until: float) -> list[Asked]:
        return [one for one in self.broker.asked if since <= one.moment < until]

    # ---- what an operator does

    async def rotate(self, names: list[str]) -> None:
        """These tokens get other credentials, in the files of the machines behind alone, and the old ones are revoked ten seconds later."""
        old = list[str]()
        for token in self.tokens:
            if token.name in names:
                old.append(token.secret(self.held[token.name]))
                self.held[token.name] += 1
                new = token.secret(self.held[token.name])
                await self.broker.ask(new, "renew-self", b'{"increment":%d}' % token.step)
                for machine in self.machines[1:]:
                    machine.write(f"{token.name}.token", new)
        await asyncio.sleep(10)
        self.broker.revoked |= set(old)

    def bring(self, names: list[str]) -> None:
        """The machine in front gets the files of these tokens, too."""
        for token in self.tokens:
            if token.name in names:
                self.front.write(f"{token.name}.token", token.secret(self.held[token.name]))

    async def push(self, tokens: list[Token]) -> None:
        """FILE of the machine in front says that, and is read."""
        self.front.write("fleet.toml", file_text(self.margin, tokens))
        answer = await self.front.reload()
        if not answer.startswith("ok"):
            raise RuntimeError(f"reload is refused: {answer}")
