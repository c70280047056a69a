"""Where the programs for a trial are: given, installed, built, or built now without a proof."""

from __future__ import annotations

import os
import shutil
import subprocess
import sys
from pathlib import Path

TOP = Path(__file__).resolve().parents[2]
SLOWER = int(os.environ.get("SLOWER", "1"))
"""How much longer than usual everything may take (tools/yardstick)."""
BUILD_SECONDS = 600 * SLOWER


def _has(program: str, words: list[str], shown: str) -> bool:
    try:
        helped = subprocess.run([program, *words], capture_output=True, text=True, timeout=10 * SLOWER)
    except (OSError, subprocess.SubprocessError):
        return False
    return helped.returncode == 0 and shown in helped.stdout


def is_live(name: str, program: str) -> bool:
    """Whether the program has what a trial needs: `leasekeep serve`, and `minibroker` with moments from its input."""
    if name == "leasekeep":
        return _has(program, ["serve", "--help"], "PORT")
    return _has(program, ["--help"], "standard input")


def find_or_end(name: str) -> str:
    """A live program, built where there is none yet; SystemExit where none can be."""
    program = find_program(name, may_build=True)
    if program is None:
        print(f"no {name} that can serve a trial is built, installed or named by {name.upper()}", file=sys.stderr)
        raise SystemExit(2)
    return program


def find_program(name: str, may_build: bool = False, may_be_slow: bool = True) -> str | None:
    """A `leasekeep` or `minibroker` that is live: that of the environment (LEASEKEEP, MINIBROKER), the proved build,
    the installed one, and where it may be slow a build without a proof, which is made now where asked for; None where
    there is none."""
    given = os.environ.get(name.upper())
    if given:
        return given if is_live(name, given) else None
    for program in (str(TOP / "crates" / name / "out" / name), shutil.which(name)):
        if program and is_live(name, program):
            return program
    if not may_be_slow:
        return None
    for build in sorted((TOP / "out" / "unproved").glob(f"{name}-*/{name}")):
        if is_live(name, str(build)):
            return str(build)
    if may_build and shutil.which("rt"):
        built = subprocess.run([str(TOP / "tools" / "build-unproved"), name], stdout=subprocess.PIPE, text=True,
                               timeout=BUILD_SECONDS)
        program = built.stdout.strip()
        if built.returncode == 0 and is_live(name, program):
            return program
    return None
