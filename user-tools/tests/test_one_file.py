"""One file, as a person writes it from docs/inventory.md, goes through every command, and means the same in each."""

from __future__ import annotations

import subprocess
import sys
import tempfile
import unittest
from dataclasses import replace
from pathlib import Path

from leasekeep_inventory.inventory import ALWAYS
from leasekeep_inventory.inventory_file import read_inventory
from leasekeep_inventory.rfc3339 import date_text
from trial.programs import SLOWER, TOP, find_program

ISSUED = 1795338000
START = str(ISSUED + 60)
WRITTEN = """# The application's token, and the database that it uses.
margin = "1m"

[[token]]
name = "app"
issued = "2026-11-22T09:00:00Z"
end = "2026-11-22T10:00:00Z"
increment = "1h"
max_ttl = "3d"
need = "always"
secret_file = "app.token"

[[lease]]
name = "db"
token = "app"
issued = "2026-11-22T10:00:00+01:00"
end = "2026-11-22T10:30:00Z"
increment = "1h30m"
max_ttl = "1d"
need = "2026-11-23T06:00:00Z"
lease_id = "db/creds/1"
"""
IN_SECONDS = f"""margin = 60

[[token]]
name = "app"
issued = {ISSUED}
end = {ISSUED + 3600}
increment = 3600
max_ttl = 259200
need = {ISSUED + 259200}
secret = "hvs.app"

[[lease]]
name = "db"
token = "app"
issued = {ISSUED}
end = {ISSUED + 5400}
increment = 5400
max_ttl = 86400
need = {ISSUED + 75600}
lease_id = "db/creds/1"
"""
"""The same, where `always` from the start on is until the token's ceiling."""


class OneFile(unittest.TestCase):
    def setUp(self) -> None:
        program = find_program("leasekeep")
        if program is None:
            self.skipTest("no leasekeep is built")
        self.program: str = program
        folder = tempfile.TemporaryDirectory()
        self.addCleanup(folder.cleanup)
        self.room = Path(folder.name)
        (self.room / "written.toml").write_text(WRITTEN)
        (self.room / "seconds.toml").write_text(IN_SECONDS)

    def said(self, *words: str, given: str = "") -> tuple[int, str, str]:
        ran = subprocess.run([self.program, *words], cwd=self.room, input=given, capture_output=True, text=True, timeout=60 * SLOWER, check=False)
        return ran.returncode, ran.stdout, ran.stderr

    def both(self, command: str, *words: str, given: str = "") -> str:
        """What a command says of the one file, which has to be what it says of the other."""
        written = self.said(command, "written.toml", *words, given=given)
        self.assertEqual(written, self.said(command, "seconds.toml", *words, given=given), command)
        self.assertEqual((written[0], written[2]), (0, ""), command)
        return written[1]

    def test_the_commands(self) -> None:
        plan = self.both("plan", START)
        (self.room / "plan").write_text(plan)
        self.assertEqual(self.both("check", "plan", START), "yes\n")
        self.assertIn("keeps yes", self.both("reach", START))
        self.both("ends", START, str(ISSUED + 3000), str(ISSUED + 5000))
        self.both("margin", START)
        wakes = [line for line in self.both("rehearse", START).splitlines() if line.startswith("wake ")]
        self.assertEqual(len(wakes), int(plan.splitlines()[-1].removeprefix("end ")))

    def test_the_tools(self) -> None:
        mine, other = read_inventory(WRITTEN.encode()).inventory, read_inventory(IN_SECONDS.encode()).inventory
        assert mine is not None and other is not None
        self.assertEqual(mine.margin, other.margin)
        for entry, plain in zip(mine.entries, other.entries, strict=True):
            need = ALWAYS if plain.name == "app" else plain.need
            self.assertEqual(replace(entry, credential="", credential_file=""), replace(plain, need=need, credential="", credential_file=""))

    def test_the_picture(self) -> None:
        lines = self.both("rehearse", START)
        tables = []
        for name in ("written.toml", "seconds.toml"):
            ran = subprocess.run([sys.executable, str(TOP / "user-tools" / "leasekeep-draw"), "--table", "--start", START, str(self.room / name)], input=lines,
                                 capture_output=True, text=True, timeout=60 * SLOWER, check=False)
            self.assertEqual((ran.returncode, ran.stderr), (0, ""))
            tables.append([row.split() for row in ran.stdout.splitlines()])
        self.assertEqual(tables[0][0], tables[1][0])
        for mine, other in zip(tables[0][3:], tables[1][3:], strict=True):
            until, need, ceiling = (date_text(int(moment)) for moment in other[2:5])
            self.assertEqual(mine, [*other[:2], until, "always" if mine[0] == "app" else need, ceiling, *other[5:]])
            self.assertEqual(mine[-1], "yes")


if __name__ == "__main__":
    unittest.main()
