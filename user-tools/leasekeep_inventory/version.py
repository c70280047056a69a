"""The version of the whole project: the one line of the file VERSION."""

from __future__ import annotations

from pathlib import Path


def version() -> str:
    """As the file has it: beside the installed library, else at the root of the clone."""
    here = Path(__file__).resolve()
    for folder in (here.parents[1], here.parents[2]):
        try:
            return (folder / "VERSION").read_text("ascii").strip()
        except OSError:
            continue
    return "unknown"
