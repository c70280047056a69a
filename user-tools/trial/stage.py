"""A trial: minibroker behind the relay, an inventory with short leases, and `leasekeep serve` on it."""

from __future__ import annotations

import asyncio
import itertools
import time
from dataclasses import replace
from pathlib import Path

from leasekeep_inventory.broker import Broker, Heard, Verdict
from leasekeep_inventory.http_client import Address, HttpTransport
from leasekeep_inventory.inventory import Entry, Inventory, Kind, inventory_text

from .relay import LiveBroker, Relay


def short_leases(now: int, seconds: int) -> Inventory:
    """An inventory in which everything ends within seconds unless it is renewed. The first ends leave some more for a busy machine,
    on which broker and agent take long to start."""
    until, first = now + seconds, now + 6
    return Inventory((
        Entry("app", Kind.TOKEN, None, now, first + 9, increment=12, max_ttl=86400, need=until, credential="s.app"),
        Entry("pay", Kind.TOKEN, None, now, first + 8, period=10, need=until, credential="s.pay"),
        Entry("job", Kind.TOKEN, "app", now, first + 8, increment=9, max_ttl=86400, need=until, credential="s.job"),
        Entry("app-db", Kind.LEASE, "app", now, first + 7, increment=8, max_ttl=86400, need=until,
              credential="database/creds/app/1"),
        Entry("pay-db", Kind.LEASE, "pay", now, first + 8, increment=11, max_ttl=86400, need=until,
              credential="database/creds/pay/1"),
    ), 4)


class Trial:
    """The parts of a trial, in one folder; the broker's socket may be elsewhere."""

    def __init__(self, folder: Path, leasekeep: str, minibroker: str, inventory: Inventory, timeout: int = 1,
                 socket: Path | None = None) -> None:
        self.folder, self.inventory = folder, inventory
        self.spare: tuple[Entry, ...] = ()
        """What the broker has besides, and the agent is not told of."""
        self.control = folder / "run" / "control.sock"
        self._leasekeep, self._minibroker, self._timeout = leasekeep, minibroker, timeout
        self.file = folder / "inventory.toml"
        self.socket = socket or folder / "broker.sock"
        self.relay = Relay(self.socket)
        self._own = Relay(folder / "own.sock")
        self.agent: asyncio.subprocess.Process | None = None

    async def start_broker(self, inventory: Inventory) -> None:
        """Starts the broker on these rows, and the relay in front of it."""
        await self._serve(inventory)
        await self._own.start()
        await self.relay.start()

    async def change_rows(self, inventory: Inventory) -> None:
        """The broker has these rows from now on. The relay's gate is held meanwhile, so that no renewal is forgotten."""
        before = self.relay.broker
        await self._serve(inventory)
        if before is not None:
            await before.stop()

    async def _serve(self, inventory: Inventory) -> None:
        rows = self.folder / "rows.toml"
        rows.write_text(inventory_text(inventory))
        broker = LiveBroker(self._minibroker, rows)
        await broker.start()
        self.relay.broker = self._own.broker = broker

    async def stop_broker(self) -> None:
        await self.relay.stop()
        await self._own.stop()
        if self.relay.broker is not None:
            await self.relay.broker.stop()
            self.relay.broker = self._own.broker = None

    async def start_agent(self, log: Path, address: str = "") -> None:
        """Starts the agent on the inventory; its log is added to the file."""
        state = self.folder / "state"
        self.control.parent.mkdir(exist_ok=True)
        state.mkdir(mode=0o700, exist_ok=True)
        if not self.file.exists():
            self.file.touch(mode=0o600)
            self.file.write_text(inventory_text(self.inventory, is_served=True))
        with open(log, "ab") as output:
            self.agent = await asyncio.create_subprocess_exec(
                self._leasekeep, "serve", str(self.file), address or str(self.socket), "--timeout", str(self._timeout),
                "--control", str(self.control), "--state", str(state), stdout=output, stderr=output)

    async def stop_agent(self, kill: bool = False) -> int:
        """Ends the agent, as a crash would where `kill` is true; its exit."""
        if self.agent is None or self.agent.returncode is not None:
            return -1
        self.agent.kill() if kill else self.agent.terminate()
        return await self.agent.wait()

    async def look_up_all(self) -> dict[str, Heard]:
        """What the broker says of each entry, past the relay that the agent uses. A row that has ended is never
        listed again: so one that is alive now was so throughout."""
        return await self._look_up(self.inventory)

    async def _look_up(self, inventory: Inventory) -> dict[str, Heard]:
        broker = Broker(HttpTransport(Address(str(self.folder / "own.sock"))), 5.0)
        return {entry.name: await broker.look_up(inventory, entry) for entry in inventory.entries}

    async def dead(self) -> list[str]:
        """The entries that the broker no longer knows."""
        return [name for name, heard in (await self.look_up_all()).items() if heard.verdict is not Verdict.GOOD]

    @property
    def rows(self) -> Inventory:
        """What the broker has: the entries, and the spare ones, all tokens first, each after the one that it stands under."""
        every = replace(self.inventory, entries=(*self.inventory.entries, *self.spare))
        return replace(every, entries=tuple(sorted(every.entries, key=lambda entry: (
            entry.kind is Kind.LEASE, sum(1 for _ in every.over(entry.name))))))

    def exchange(self, entry: Entry, spare: Entry) -> None:
        """From now on the agent is to keep the credential of the spare one in the place of the entry's own."""
        self.inventory = self.inventory.mapped(lambda one: replace(one, credential=spare.credential) if one is entry else one)
        self.spare = tuple(replace(one, credential=entry.credential) if one is spare else one for one in self.spare)

    def issue(self, new: dict[str, Entry], rows: Inventory) -> None:
        """From now on the entries of these names are the new ones. What the broker's rows have of the old ones are spare, under each
        other as before."""
        names = {entry.name for entry in rows.entries} | {entry.name for entry in self.inventory.entries}
        free = (name for number in itertools.count(1) if (name := f"old/{number}") not in names)
        old = {entry.name: next(free) for entry in rows.entries if entry.name in new}

        def renamed(entry: Entry) -> Entry:
            return replace(entry, name=old.get(entry.name, entry.name), parent=old.get(entry.parent or "", entry.parent))
        own = {entry.name for entry in self.inventory.entries}
        self.spare = tuple(renamed(entry) for entry in rows.entries if entry.name in new or entry.name not in own)
        self.inventory = self.inventory.mapped(lambda entry: new.get(entry.name) or rows.find(entry.name) or entry)

    async def rows_now(self) -> Inventory:
        """The rows with the ends that the broker tells now, so that a broker can be started on them again."""
        rows = self.rows
        heard = await self._look_up(rows)
        now = int(time.time())

        def told(entry: Entry) -> Entry | None:
            facts = heard[entry.name].facts
            return None if facts is None else replace(entry, end=now + facts.ttl)
        return rows.mapped(told)
