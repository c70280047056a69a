"""Time-outs grow on a slow or busy machine: how the yardstick measures, and what reads it."""

from __future__ import annotations

import os
import runpy
import subprocess
import sys
import unittest
from pathlib import Path

TOP = Path(__file__).resolve().parents[2]
YARDSTICK = TOP / "tools" / "yardstick"


def with_slower(word: str) -> dict[str, str]:
    """The environment with SLOWER as that word; without it where the word is empty."""
    others = {name: value for name, value in os.environ.items() if name != "SLOWER"}
    return {**others, "SLOWER": word} if word else others


class Yardstick(unittest.TestCase):
    def test_it_is_a_whole_number_from_1_to_20(self) -> None:
        slower = runpy.run_path(str(YARDSTICK))["slower"]
        self.assertEqual([slower(seconds) for seconds in (0.0, 0.1, 0.25, 0.26, 0.5, 1.01, 4.9, 5.0, 5.1, 1e9)], [1, 1, 1, 2, 2, 5, 20, 20, 20, 20])
        ran = subprocess.run([str(YARDSTICK)], capture_output=True, text=True, timeout=120)
        self.assertIn(ran.stdout, [f"{number}\n" for number in range(1, 21)])

    def test_what_reads_it(self) -> None:
        for folder, read, usual in (("tests", "trying.SECONDS", 60), ("user-tools", "trial.programs.BUILD_SECONDS", 600)):
            for slower, times in (("", 1), ("7", 7)):
                environment = with_slower(slower)
                module = read.rpartition(".")[0]
                ran = subprocess.run([sys.executable, "-c", f"import {module}; print({read})"], cwd=TOP / folder, env=environment,
                                     capture_output=True, text=True, timeout=120)
                self.assertEqual(ran.stdout, f"{times * usual}\n", ran.stderr)

    def test_a_script_of_bash_waits_longer_too(self) -> None:
        text = (TOP / "tests" / "end-to-end").read_text()
        head = text[:text.index("top=$(cd")]
        for slower, most in (("", "20"), ("3", "60")):
            environment = with_slower(slower)
            ran = subprocess.run(["bash", "-c", f"{head}\necho $most"], env=environment, capture_output=True, text=True, timeout=120)
            self.assertEqual(ran.stdout, f"{most}\n", ran.stderr)


if __name__ == "__main__":
    unittest.main()
