"""Secrets that stand in files: how they are written in an inventory, and read."""

from __future__ import annotations

import os
import shutil
import tempfile
import unittest
from pathlib import Path

from leasekeep_inventory.inventory import Inventory
from leasekeep_inventory.inventory_file import read_inventory
from leasekeep_inventory.secret_files import SecretFault, read_secret

LIST = """margin = 20
[[token]]
name = "app"
increment = "15m"
need = "always"
secret_file = "app.token"

[[token]]
name = "job"
increment = "15m"
secret = "hvs.job"

[[lease]]
name = "db"
token = "app"
increment = "15m"
need = "always"
lease_id_file = "db.lease"
"""


class InFolder(unittest.TestCase):
    def setUp(self) -> None:
        self.folder = Path(tempfile.mkdtemp())
        self.addCleanup(shutil.rmtree, self.folder, True)

    def write(self, name: str, text: str | bytes) -> None:
        """As Vault Agent does: a new file that is moved to the name."""
        new = self.folder / f"{name}.new"
        new.write_bytes(text if isinstance(text, bytes) else text.encode())
        new.chmod(0o600)
        new.rename(self.folder / name)

    def inventory(self, text: str = LIST) -> Inventory:
        reading = read_inventory(text.encode())
        assert reading.inventory is not None, [fault.text("f") for fault in reading.faults]
        return reading.inventory


class Read(InFolder):
    def test_a_secret(self) -> None:
        for text in ("hvs.a", "hvs.a\n", "  hvs.a\r\n\n"):
            self.write("app.token", text)
            self.assertEqual(read_secret(self.folder / "app.token"), "hvs.a")

    def test_no_secret(self) -> None:
        texts: tuple[str | bytes, ...] = ("", "\n", "two words", "x" * 257, "hvs.\u00e9", b"\xff", "a\nb")
        for text in texts:
            self.write("app.token", text)
            with self.subTest(text), self.assertRaises(SecretFault) as caught:
                read_secret(self.folder / "app.token")
            self.assertEqual(str(caught.exception), "holds no secret of 1 to 256 printable ASCII characters")
        os.mkfifo(self.folder / "pipe")
        for name, why in (("none", "cannot be read: No such file or directory"), ("pipe", "is not a regular file"), (".", "is not a regular file"),
                          ("a\0b", "cannot be read: no such name")):
            with self.subTest(name), self.assertRaisesRegex(SecretFault, why):
                read_secret(self.folder / name)


class InTheInventory(InFolder):
    def test_faults(self) -> None:
        for text, expected in (
            (LIST.replace('"app.token"', '"app.token"\nsecret = "s"'), "f:6: fault: app secret_file: stands beside secret; write one"),
            (LIST.replace('"app.token"', "5"), "f:6: fault: app secret_file: is not the path of a file; write a text in quotes"),
            (LIST.replace('"app.token"', '""'), "f:6: fault: app secret_file: is not the path of a file; it is empty"),
            (LIST.replace("secret_file", "secretfile"), "f:6: fault: app secretfile: is not a key of this table; the keys are"),
            (LIST.replace("secret_file", "lease_id_file"), "f:6: fault: app lease_id_file: is not a key of this table; the keys are"),
            (LIST.replace('"app.token"', f'"{"é" * 2049}"'), "f:6: fault: app secret_file: is not the path of a file; it has 4098 bytes:"
             " write 4096 or less"),
            (LIST.replace("hvs.job", "app"), "f:11: fault: job secret: occurs twice: line 3 (app) has it too"),
            (LIST.replace("hvs.job", "web") + '\n[[token]]\nname = "web"\nincrement = "15m"\nsecret_file = "web.token"\n',
             "f:23: fault: web secret_file: occurs twice: line 11 (job) has it too"),
        ):
            with self.subTest(expected):
                faults = [fault.text("f") for fault in read_inventory(text.encode()).faults]
                self.assertEqual(len(faults), 1, faults)
                self.assertTrue(faults[0].startswith(expected), faults)

    def test_a_path_of_as_many_bytes_as_there_may_be(self) -> None:
        entry = self.inventory(LIST.replace('"app.token"', f'"{"é" * 2048}"')).find("app")
        self.assertEqual(entry and entry.credential_file, "é" * 2048)


if __name__ == "__main__":
    unittest.main()
