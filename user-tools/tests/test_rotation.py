"""The ways in which a trial replaces a credential in a file, and when."""

from __future__ import annotations

import asyncio
import random
import tempfile
import time
import unittest
from dataclasses import replace
from pathlib import Path

from leasekeep_inventory.inventory import Inventory
from trial.rotation import EVERY, LIFE, Rotation, cut, entries_in_files, link, move, turns
from trial.stage import Trial


class Ways(unittest.TestCase):
    def setUp(self) -> None:
        room = tempfile.TemporaryDirectory()
        self.addCleanup(room.cleanup)
        self.folder = Path(room.name)

    def test_a_file_is_moved_to_the_name(self) -> None:
        path = self.folder / "token"
        move(path, "one")
        before = path.stat().st_ino
        move(path, "two")
        self.assertEqual((path.read_text(), path.stat().st_ino != before), ("two", True))
        self.assertEqual([each.name for each in self.folder.iterdir()], ["token"])

    def test_a_file_is_empty_before_it_is_written(self) -> None:
        path = self.folder / "token"
        path.write_text("one")
        before, seen = path.stat().st_ino, list[str]()

        async def look() -> None:
            await asyncio.sleep(0.05)
            seen.append(path.read_text())

        async def both() -> None:
            await asyncio.gather(cut(path, "two", 0.2), look())
        asyncio.run(both())
        self.assertEqual((seen, path.read_text(), path.stat().st_ino), ([""], "two", before))

    def test_a_link_leads_to_another_folder(self) -> None:
        path = self.folder / "mounted" / "token"
        link(path, "one")
        first = path.resolve()
        link(path, "two")
        self.assertEqual((path.read_text(), path.is_symlink(), (path.parent / "..data").is_symlink()), ("two", True, True))
        self.assertNotEqual(path.resolve(), first)
        self.assertFalse(first.exists())


class Plans(unittest.TestCase):
    def test_each_credential_serves_for_longer_than_it_lives(self) -> None:
        rotating = entries_in_files(1000, 9000, "base")
        self.assertGreater(EVERY * len(rotating), LIFE)
        plan = turns(rotating, 1000, 1000)
        self.assertEqual([turn.name for turn in plan[:5]], ["moved", "cut", "linked", "leased", "moved"])
        self.assertEqual([turn.spare.end - turn.moment for turn in plan], [LIFE] * len(plan))
        credentials = [entry.credential for entry in (*rotating, *(turn.spare for turn in plan))]
        self.assertEqual(len(set(credentials)), len(plan) + len(rotating))

    def test_what_is_replaced_stays_with_the_broker(self) -> None:
        with tempfile.TemporaryDirectory() as room:
            rotating = entries_in_files(int(time.time()), 9000, "base")[:3]
            trial = Trial(Path(room), "leasekeep", "minibroker", Inventory(rotating, 60))
            due = [replace(turn, moment=0) for turn in turns(rotating, 1000, 1000)[:4]]
            looks, notes = list[str](), list[str]()

            async def look() -> None:
                looks.append((Path(room) / "moved.token").read_text())
            rotation = Rotation(trial, due, random.Random(1), look, notes.append)
            rotation.begin()
            before = {entry.credential for entry in trial.rows.entries}
            self.assertEqual((Path(room) / "mounted" / "token").read_text(), "s.linked\n")
            asyncio.run(rotation.serve())
            held = [(Path(room) / str(entry.credential_file)).read_text().strip() for entry in trial.inventory.entries]
            self.assertEqual(held, ["s.moved-3", "s.cut-1", "s.linked-2"])
            self.assertEqual(held, [entry.credential for entry in trial.inventory.entries])
            self.assertEqual({entry.credential for entry in trial.rows.entries}, before)
            self.assertEqual((rotation.done, looks[0], len(notes)), (4, "s.moved\n", 4))


if __name__ == "__main__":
    unittest.main()
