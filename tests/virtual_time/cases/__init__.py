"""Scripted worlds. Each case is a function of the program that gives what went wrong, a line each. KEPT has those that must pass; NOT_YET
those that lose something today, or say what does not hold: they are played where they are named, and move once they are mended."""

from __future__ import annotations

from collections.abc import Callable
from pathlib import Path

Case = Callable[[Path], list[str]]
