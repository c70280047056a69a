"""The configurations of docs/beside-vault-agent.md: `leasekeep serve` keeps what others write into files. The sink is replaced as Vault
Agent replaces it, and the application reads by the script of the document; Vault Agent itself does not run here."""

from __future__ import annotations

import asyncio
import json
import os
import re
import shutil
import tempfile
import time
import unittest
from pathlib import Path

from leasekeep_inventory.inventory import Entry, Inventory, Kind
from trial.programs import SLOWER, TOP, find_program
from trial.rotation import move
from trial.stage import Trial

from .test_trial import program

LONGEST = 40.0 * SLOWER
HOUR, WEEK = 3600, 7 * 86_400
SPARE = 15 * SLOWER
"""Seconds from the start until everything is due, by the margin of the example."""
NAMES = ("app", "job", "app-db", "app-queue")
VAULT = """#!/bin/sh
# `vault read -format=json database/creds/app`: what Vault answers to a request with that token.
[ "$*" = "read -format=json database/creds/app" ] && exec cat "$ANSWERS/$VAULT_TOKEN"
"""


def rows(now: int) -> Inventory:
    """What the broker has: the tokens of two logins of the Agent with their leases, and the token of `job`."""
    def row(name: str, credential: str, parent: str | None = None, period: int = 0) -> Entry:
        return Entry(name, Kind.TOKEN if parent is None else Kind.LEASE, parent, now, now + 600 + SPARE, increment=HOUR, period=period,
                     max_ttl=WEEK, credential=credential)
    tokens = (row("app-1", "hvs.app-1", period=HOUR), row("app-2", "hvs.app-2", period=HOUR), row("job", "hvs.job"))
    leases = (row(f"{kind}-{login}", f"{path}/creds/app/{login}", f"app-{login}")
              for login in (1, 2) for kind, path in (("db", "database"), ("queue", "rabbitmq")))
    return Inventory((*tokens, *leases), 600)


def written(page: str, first: str) -> str:
    """The block of a page that begins so."""
    found = re.search(rf"^```\w*\n({re.escape(first)}.*?)^```$", (TOP / "docs" / page).read_text(), re.M | re.S)
    assert found is not None, first
    return found[1]


@unittest.skipIf(shutil.which("jq") is None, "jq is not installed")
class BesideVaultAgent(unittest.IsolatedAsyncioTestCase):
    async def asyncSetUp(self) -> None:
        asyncio.get_running_loop().set_debug(False)
        self.folder = Path(tempfile.mkdtemp())
        self.addCleanup(shutil.rmtree, self.folder, True)
        for name in ("run/vault-agent", "run/app", "run/job", "answers", "bin"):
            (self.folder / name).mkdir(parents=True)
        for login in (1, 2):
            (self.folder / "answers" / f"hvs.app-{login}").write_text(json.dumps({"lease_id": f"database/creds/app/{login}", "data": {}}))
        self.script("vault", VAULT)
        self.read_app_db = self.script("read-app-db", self.here(written("beside-vault-agent.md", "#!/bin/sh\n# Reads the database")))
        self.trial = Trial(self.folder, program("leasekeep"), program("minibroker"), rows(int(time.time())))
        self.trial.file.touch(mode=0o600)
        self.trial.file.write_text(self.here((TOP / "examples" / "beside-vault-agent.toml").read_text()))
        self.log = self.folder / "log"

    def here(self, text: str) -> str:
        """The text with its files below this folder."""
        return text.replace("/run/", f"{self.folder}/run/")

    def script(self, name: str, text: str) -> Path:
        file = self.folder / "bin" / name
        file.write_text(text)
        file.chmod(0o700)
        return file

    async def reads(self) -> asyncio.subprocess.Process:
        """The application's script, under way."""
        words = {"PATH": f"{self.folder / 'bin'}:{os.environ['PATH']}", "ANSWERS": str(self.folder / "answers")}
        return await asyncio.create_subprocess_exec(self.read_app_db, env={**os.environ, **words})

    def hand_over(self, login: int) -> None:
        """What Vault Agent writes after a login: the sink, and by its template the lease id."""
        move(self.folder / "run/vault-agent/token", f"hvs.app-{login}")
        move(self.folder / "run/vault-agent/queue.lease", f"rabbitmq/creds/app/{login}")

    async def said(self, words: str, count: int = 1) -> None:
        """Waits until the log has so many lines that say this."""
        end = time.monotonic() + LONGEST
        while (log := self.log.read_text()).count(f" {words}") < count:
            self.assertLess(time.monotonic(), end, f"{words}\n{log}")
            await asyncio.sleep(0.2)

    async def asked(self, *words: str) -> str:
        """What a command of the running agent says."""
        ran = await asyncio.create_subprocess_exec(program("leasekeep"), *words, "--control", str(self.trial.control),
                                                   stdout=asyncio.subprocess.PIPE)
        return (await ran.communicate())[0].decode()

    @unittest.skipIf(find_program("leasekeep") is None or find_program("minibroker") is None, "no built leasekeep and minibroker")
    async def test_what_others_write_is_kept(self) -> None:
        await self.trial.start_broker(self.trial.inventory)
        try:
            await self.trial.start_agent(self.log)
            await self.played()
        finally:
            await self.trial.stop_agent(kill=True)
            await self.trial.stop_broker()

    async def played(self) -> None:
        reading = await self.reads()
        for name in NAMES:
            await self.said(f"alert: secret-file {name} ")
        self.assertIsNone(reading.returncode)  # It waits for the sink.
        move(self.folder / "run/job/token", "hvs.job")
        self.hand_over(1)
        for name in NAMES:
            await self.said(f"replace {name} by its file")
        self.assertEqual(await reading.wait(), 0)
        for name in NAMES:
            await self.said(f"told {name} {HOUR}")
        self.assertEqual(await self.asked("health"), "every needed entry is kept\n")
        self.hand_over(2)
        self.assertEqual(await (await self.reads()).wait(), 0)
        for name in ("app", "app-db", "app-queue"):
            await self.said(f"replace {name} by its file", count=2)
            await self.said(f"told {name} {HOUR}", count=2)
        self.assertEqual(await self.asked("health"), "every needed entry is kept\n")
        self.assertEqual([line.split(" ")[:2] for line in (await self.asked("status")).splitlines()[1:]], [[name, "kept"] for name in NAMES])
        self.assertEqual(await self.trial.dead(), [])


if __name__ == "__main__":
    unittest.main()
