"""The command line of leasekeep-inventory."""

from __future__ import annotations

import argparse
import asyncio
import os
import stat
import sys
import time
from pathlib import Path

from .broker import Broker
from .discover import DiscoverFault, Filled, discover, read_list
from .http_client import Address, HttpTransport
from .inventory_file import LIMIT
from .version import version

EXIT_FAULT, EXIT_COMMAND_LINE = 1, 2


def main(words: list[str]) -> int:
    """Runs one command; its exit."""
    asked = _parser().parse_args(words)
    try:
        with open(asked.file, "rb") as file:
            data, mode = file.read(LIMIT + 1), stat.S_IMODE(os.fstat(file.fileno()).st_mode)
    except OSError as error:
        print(f"leasekeep-inventory: {asked.command}: {asked.file}: {error.strerror}", file=sys.stderr)
        return EXIT_COMMAND_LINE
    return _draft(asked, data, mode)


def _parser() -> argparse.ArgumentParser:
    parser = argparse.ArgumentParser(
        prog="leasekeep-inventory", description="Drafts an inventory by asking the broker.",
        epilog="Exit status: 0 done, 1 a faulty inventory or a lookup that failed, 2 the command line.")
    parser.add_argument("--version", action="version", version=f"leasekeep-inventory {version()}")
    commands = parser.add_subparsers(dest="command", required=True, metavar="COMMAND")
    _add_draft(commands)
    return parser


def _add_draft(commands: "argparse._SubParsersAction[argparse.ArgumentParser]") -> None:
    drafted = commands.add_parser(
        "draft", help="print an inventory with what lookups at the broker tell",
        description="Looks up each entry of LIST, and prints LIST with what the broker tells of it: issued, end, renewable, period and"
        " explicit_max_ttl, and an increment where none is written. Everything else stays as it is written: secret_file, always,"
        " durations, comments.",
        epilog="Faults and doubts go to standard error, each with its line. Exit status: 0 done, 1 a faulty LIST, one that others may"
        " read, or a lookup that failed, 2 the command line.")
    drafted.add_argument("file", type=Path, metavar="LIST", help="an inventory, without what a lookup tells or with it")
    drafted.add_argument("address", type=_address, metavar="PORT|SOCKET",
                         help="the broker: a port of 127.0.0.1, or the path of a UNIX socket")
    drafted.add_argument("--timeout", type=_timeout, default=5, metavar="SECONDS",
                         help="the longest that a lookup may take (1 to 60, default: 5)")


def _timeout(word: str) -> int:
    if not (word.isascii() and word.isdigit() and len(word) < 10 and 1 <= int(word) <= 60):
        raise argparse.ArgumentTypeError(f"that is not a number of seconds from 1 to 60, such as 5: {word}")
    return int(word)


def _address(word: str) -> Address:
    if "/" not in word and not (word.isascii() and word.isdigit() and len(word) < 6 and 1 <= int(word) <= 65535):
        raise argparse.ArgumentTypeError(f"that is neither a port from 1 to 65535 nor a path with a / in it: {word}")
    return Address(word)


def _draft(asked: argparse.Namespace, data: bytes, mode: int) -> int:
    async def discovered() -> Filled:
        broker = Broker(HttpTransport(asked.address), asked.timeout)
        return await discover(broker, time.time, read_list(data, mode, asked.file.parent))
    try:
        filled = asyncio.run(discovered())
    except DiscoverFault as fault:
        for finding in fault.findings:
            print(finding.text(str(asked.file)), file=sys.stderr)
        return EXIT_FAULT
    for finding in filled.doubts:
        print(finding.text(str(asked.file)), file=sys.stderr)
    sys.stdout.buffer.write(filled.data)
    sys.stdout.flush()
    return 0
