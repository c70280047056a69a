"""The command line: which files are read, and what is written."""

from __future__ import annotations

import argparse
import shutil
import sys
from collections.abc import Iterator
from pathlib import Path

from leasekeep_draw import entries, history, picture, table, terminal
from leasekeep_draw.chart import LOOKS, MANY, Chart, chart_of, start_of
from leasekeep_inventory.rfc3339 import LAST
from leasekeep_inventory.version import version

_EXAMPLE = """
example:
  leasekeep rehearse fleet.toml 1000 >fleet.run
  leasekeep-draw fleet.toml fleet.run --start 1000
  leasekeep-draw fleet.toml fleet.run --start 1000 --svg >fleet.svg

exit status: 0 done, 1 an inventory or lines that can't be drawn, 2 the command line, 6 a failed read or write
"""


def main(words: list[str]) -> int:
    """Runs the command, and gives its exit."""
    asked = _parser().parse_args(words)
    try:
        chart = _chart(asked)
        sys.stdout.write(_drawn(chart, asked))
        sys.stdout.flush()
    except (entries.InventoryFault, history.LineFault) as fault:
        print(f"leasekeep-draw: {fault}", file=sys.stderr)
        return 1
    except (OSError, UnicodeError) as fault:
        print(f"leasekeep-draw: {fault}", file=sys.stderr)
        _close_quietly()
        return 6
    return 0


def _parser() -> argparse.ArgumentParser:
    parser = argparse.ArgumentParser(
        prog="leasekeep-draw",
        description="Draws the lives and renewals of an inventory's entries, from the lines that `leasekeep rehearse`, "
        "`leasekeep run` or `leasekeep serve` printed.",
        epilog=_EXAMPLE,
        formatter_class=argparse.RawDescriptionHelpFormatter,
    )
    parser.add_argument("--version", action="version", version=f"leasekeep-draw {version()}")
    parser.add_argument("inventory", metavar="FILE", help="the inventory")
    parser.add_argument("lines", metavar="LINES", nargs="?", default="-", help="the lines; by default, and with `-`, standard input")
    parser.add_argument("--start", type=_moment, metavar="START", help="the start that the run was given, in whole seconds since 1970"
                        " (default: a moment near it, or the first moment of a log)")
    shape = parser.add_mutually_exclusive_group()
    shape.add_argument("--svg", action="store_true", help="an SVG picture")
    shape.add_argument("--table", action="store_true", help="a table, for readers who cannot see a picture")
    which = parser.add_mutually_exclusive_group()
    which.add_argument("--only-unkept", action="store_true", help="only the entries that are not kept")
    which.add_argument("--all", action="store_true", help=f"every entry, those that are not kept first (from {MANY} entries on, only their"
                       f" numbers and the {LOOKS} that need a look are shown otherwise)")
    parser.add_argument("--width", type=int, help="columns of the terminal (default: as many as it has, or 80)")
    parser.add_argument("--ascii", action="store_true", help="ASCII characters only")
    return parser


def _moment(word: str) -> int:
    """The moment that a word writes as `leasekeep` reads START: whole seconds since 1970."""
    if not (word.isascii() and word.isdigit() and len(word) <= 30 and int(word) <= LAST):
        raise argparse.ArgumentTypeError("a moment is whole seconds since 1970: $(date +%s) is now")
    return int(word)


def _chart(asked: argparse.Namespace) -> Chart:
    inventory = entries.read(Path(asked.inventory).read_text(encoding="utf-8-sig"), asked.inventory)
    near = start_of(inventory) if asked.start is None else asked.start
    told = history.read(_lines(asked.lines), {entry.name: index for index, entry in enumerate(inventory.entries)}, near)
    return chart_of(inventory, told, _start(asked.start, told, near)).arranged(asked.only_unkept, asked.all)


def _start(asked: int | None, told: history.History, near: int) -> int:
    """The start that was asked for; else the first moment of a log, what is near to it by the inventory, or the first wake-up."""
    if asked is not None:
        return asked
    return told.begun or near or min(told.wakes, default=0)


def _lines(name: str) -> Iterator[str]:
    """The lines of that file, or of standard input."""
    if name != "-":
        with open(name, encoding="utf-8") as lines:
            yield from lines
        return
    if sys.stdin.isatty():
        print("leasekeep-draw: the lines are read from standard input; end them with Ctrl-D", file=sys.stderr)
    yield from sys.stdin


def _drawn(chart: Chart, asked: argparse.Namespace) -> str:
    if asked.svg:
        return picture.svg(chart)
    if asked.table:
        return table.text(chart)
    width = asked.width or shutil.get_terminal_size((80, 24)).columns
    is_plain = asked.ascii or (sys.stdout.encoding or "").lower() not in ("utf-8", "utf8")
    return terminal.text(chart, max(width, terminal.NARROWEST), terminal.ASCII if is_plain else terminal.UNICODE)


def _close_quietly() -> None:
    """Standard output may be closed: what is left in its buffer must not fail again at the end."""
    try:
        sys.stdout.close()
    except OSError:
        pass
