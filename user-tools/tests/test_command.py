"""The command line of leasekeep-inventory."""

from __future__ import annotations

import io
import subprocess
import unittest
from contextlib import redirect_stderr
from pathlib import Path

from leasekeep_inventory import command
from trial.programs import SLOWER

PROGRAM = Path(__file__).resolve().parents[1] / "leasekeep-inventory"


class Words(unittest.TestCase):
    def refused(self, *words: str) -> str:
        said = io.StringIO()
        with redirect_stderr(said), self.assertRaises(SystemExit):
            command.main([*words])
        return said.getvalue().splitlines()[-1]

    def test_a_number_that_is_none(self) -> None:
        for words, expected in (
            (("draft", "f", "1", "--timeout", "6s"), "argument --timeout: that is not a number of seconds from 1 to 60, such as 5: 6s"),
            (("draft", "f", "1", "--timeout", "0"), "argument --timeout: that is not a number of seconds from 1 to 60, such as 5: 0"),
            (("draft", "f", "8200x"), "argument PORT|SOCKET: that is neither a port from 1 to 65535 nor a path with a / in it: 8200x"),
        ):
            self.assertTrue(self.refused(*words).endswith(expected), self.refused(*words))


class Files(unittest.TestCase):
    def test_a_list_that_is_not_there(self) -> None:
        ran = subprocess.run([str(PROGRAM), "draft", "/nowhere/f", "1"], capture_output=True, text=True, timeout=60 * SLOWER)
        said = "leasekeep-inventory: draft: /nowhere/f: No such file or directory\n"
        self.assertEqual((ran.returncode, ran.stdout, ran.stderr), (2, "", said))


if __name__ == "__main__":
    unittest.main()
