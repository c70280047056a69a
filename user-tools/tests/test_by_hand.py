"""`user-tools/broker`: a broker in real time that obeys lines of its standard input."""

from __future__ import annotations

import asyncio
import os
import re
import shutil
import sys
import tempfile
import unittest
from dataclasses import replace
from pathlib import Path

from leasekeep_inventory.broker import Broker, Heard, Verdict
from leasekeep_inventory.discover import read_list
from leasekeep_inventory.http_client import Address, HttpTransport
from leasekeep_inventory.inventory import Inventory
from trial.by_hand import filled
from trial.programs import SLOWER

from .test_trial import program

BROKER = Path(__file__).resolve().parents[1] / "broker"
LONGEST = 30.0 * SLOWER
LIST = """margin = "20s"

[[token]]
name = "app"
secret_file = "app.token"
increment = "1h"
need = "always"

[[token]]
name = "pay"
secret = "s.pay"
period = "30m"

[[lease]]
name = "db"
token = "app"
lease_id = "db/creds/1"
increment = "2h"
max_ttl = "90m"

[[lease]]
name = "db2"
token = "pay"
lease_id = "db/creds/11"
issued = 1000
end = 4000000000
increment = "1h"
max_ttl = 4000000000
"""


def listed(folder: Path) -> Inventory:
    """The list in that folder, with its file of a secret."""
    (folder / "app.token").write_text("s.app\n")
    return read_list(LIST.encode(), 0o600, folder).inventory


class Filling(unittest.TestCase):
    def test_what_is_left_open_is_issued_now_and_the_rest_stays(self) -> None:
        with tempfile.TemporaryDirectory() as folder:
            rows = filled(listed(Path(folder)), 5000)
        self.assertEqual([(entry.name, entry.issued, entry.end, entry.secret, entry.need) for entry in rows.entries], [
            ("app", 5000, 8600, "s.app", 0), ("pay", 5000, 6800, "s.pay", 0),
            ("db", 5000, 10400, "db/creds/1", 0), ("db2", 1000, 4000000000, "db/creds/11", 0)])


class ByHand(unittest.IsolatedAsyncioTestCase):
    async def asyncSetUp(self) -> None:
        asyncio.get_running_loop().set_debug(False)
        self.folder = Path(tempfile.mkdtemp())
        self.addCleanup(shutil.rmtree, self.folder, True)
        self.inventory = listed(self.folder)
        self.file, self.socket = self.folder / "inventory.toml", self.folder / "vault.sock"
        self.file.touch(mode=0o600)
        self.file.write_text(LIST)

    async def begun(self) -> asyncio.subprocess.Process:
        environment = {**os.environ, "MINIBROKER": program("minibroker")}
        began = await asyncio.create_subprocess_exec(
            sys.executable, str(BROKER), str(self.file), str(self.socket), env=environment, stdin=asyncio.subprocess.PIPE,
            stdout=asyncio.subprocess.PIPE, stderr=asyncio.subprocess.PIPE)
        self.addAsyncCleanup(self.ended, began)
        return began

    async def ended(self, process: asyncio.subprocess.Process) -> int:
        if process.returncode is None:
            process.terminate()
        async with asyncio.timeout(LONGEST):
            await process.communicate()
        assert process.returncode is not None
        return process.returncode

    async def said(self, process: asyncio.subprocess.Process) -> str:
        """The next line, without its date."""
        assert process.stdout is not None
        async with asyncio.timeout(LONGEST):
            line = (await process.stdout.readline()).decode()
        found = re.fullmatch(r"\d{4}-\d\d-\d\dT\d\d:\d\d:\d\dZ (.*)\n", line)
        self.assertIsNotNone(found, line)
        assert found is not None
        return found[1]

    async def order(self, process: asyncio.subprocess.Process, line: str) -> str:
        assert process.stdin is not None
        process.stdin.write(f"{line}\n".encode())
        return await self.said(process)

    async def heard(self, inventory: Inventory | None = None) -> dict[str, Heard]:
        broker, inventory = Broker(HttpTransport(Address(str(self.socket))), LONGEST), inventory or self.inventory
        return {entry.name: await broker.look_up(inventory, entry) for entry in inventory.entries}

    def given(self, **credentials: str) -> Inventory:
        """The inventory in which these entries have these credentials."""
        return self.inventory.mapped(lambda entry: replace(entry, credential=credentials.get(entry.name, entry.credential)))

    async def statuses(self, **credentials: str) -> list[int | None]:
        """What lookups of the four entries are answered, where these have these credentials."""
        return [heard.status for heard in (await self.heard(self.given(**credentials))).values()]

    async def test_the_orders(self) -> None:
        broker = await self.begun()
        self.assertTrue((await self.said(broker)).startswith(f"4 entries are served at {self.socket}; "))
        self.assertEqual({heard.verdict for heard in (await self.heard()).values()}, {Verdict.GOOD})

        self.assertEqual(await self.order(broker, "revoke nobody"), "no entry is named nobody")
        self.assertEqual(await self.order(broker, "revoke \xe9"), "no entry is named \\xc3\\xa9")
        for word in ("stop", "stop 0", "stop -1", "stop 86401", "stop 1 2", "revoke", "status db", "off"):
            self.assertTrue((await self.order(broker, word)).startswith("the orders are: stop SECONDS, "), word)

        self.assertEqual(await self.order(broker, "revoke db"), "revoked: db")
        heard = await self.heard()
        self.assertEqual({name: one.status for name, one in heard.items()}, {"app": 200, "pay": 200, "db": 400, "db2": 200})
        self.assertEqual(await self.order(broker, "revoke pay"), "revoked: pay db2")
        heard = await self.heard()
        self.assertEqual({name: one.status for name, one in heard.items()}, {"app": 200, "pay": 403, "db": 400, "db2": 403})

        self.assertRegex(await self.order(broker, "status"), r"^app alive until \d{4}-.*Z$")
        self.assertEqual([await self.said(broker) for _ in range(3)], ["pay revoked", "db revoked", "db2 revoked"])

    async def test_a_new_credential_stands_beside_the_old_one(self) -> None:
        broker = await self.begun()
        await self.said(broker)
        self.assertEqual(await self.order(broker, "issue nobody"), "no entry is named nobody")
        self.assertTrue((await self.order(broker, "issue")).startswith("the orders are: "))

        self.assertEqual(await self.order(broker, "issue db"), "issued db db/creds/1.1")
        for lease in ("db/creds/1", "db/creds/1.1"):
            self.assertEqual(await self.statuses(db=lease), [200, 200, 200, 200], lease)

        # A token with its lease: each token may look up its own leases alone.
        self.assertEqual(await self.order(broker, "issue app"), "issued app s.app.2")
        self.assertEqual(await self.said(broker), "issued db db/creds/1.3")
        self.assertEqual(await self.statuses(app="s.app.2", db="db/creds/1.3"), [200, 200, 200, 200])
        for lease in ("db/creds/1", "db/creds/1.1"):
            self.assertEqual(await self.statuses(db=lease), [200, 200, 200, 200], lease)
        self.assertEqual(await self.statuses(app="s.app.2"), [200, 200, 403, 200])

        # What is revoked is the newest one, and a lease of it needs a token that lives.
        self.assertEqual(await self.order(broker, "revoke app"), "revoked: app db")
        self.assertEqual(await self.statuses(app="s.app.2", db="db/creds/1.3"), [403, 200, 403, 200])
        self.assertEqual(await self.statuses(), [200, 200, 200, 200])
        self.assertEqual(await self.order(broker, "issue db"), "db stands under app, which has ended or is revoked: issue that")
        self.assertEqual(await self.order(broker, "issue app"), "issued app s.app.4")
        self.assertEqual(await self.said(broker), "issued db db/creds/1.5")
        self.assertEqual(await self.statuses(app="s.app.4", db="db/creds/1.5"), [200, 200, 200, 200])

    async def test_it_is_away_for_a_while_and_stays_after_its_last_line(self) -> None:
        broker = await self.begun()
        await self.said(broker)
        self.assertEqual(await self.order(broker, "stop 2"), "the broker is away for 2 s")
        self.assertEqual({heard.verdict for heard in (await self.heard()).values()}, {Verdict.FAILED})
        self.assertEqual(await self.order(broker, "stop 1"), "the broker is away already")
        self.assertTrue((await self.order(broker, "status")).startswith("app alive until "))
        for _ in range(3):
            await self.said(broker)
        assert broker.stdin is not None
        broker.stdin.close()
        self.assertEqual(await self.said(broker), "the broker is back")
        self.assertEqual((await self.heard())["app"].verdict, Verdict.GOOD)
        self.assertEqual(await self.ended(broker), 0)
        self.assertFalse(self.socket.exists())

    async def test_what_it_does_not_serve(self) -> None:
        self.socket.write_text("mine")
        broker = await self.begun()
        _, error = await broker.communicate()
        self.assertEqual((broker.returncode, self.socket.read_text()), (2, "mine"))
        self.assertIn("something else is there", error.decode())
        self.socket.unlink()
        for text, expected in ((LIST.replace("1h", "1 hour"), 'did you mean "1h"?'), (LIST.replace("app.token", "nothing"), "cannot be read")):
            self.file.write_text(text)
            broker = await self.begun()
            _, error = await broker.communicate()
            self.assertEqual(broker.returncode, 1)
            self.assertIn(expected, error.decode())
