"""What a stranger may send or write: nothing of it raises anything but the fault that says so."""

from __future__ import annotations

import asyncio
import random
import tempfile
import time
import unittest
from pathlib import Path
from typing import Callable, Iterator

from leasekeep_inventory.broker import read_lease_lookup, read_token_lookup
from leasekeep_inventory.discover import DiscoverFault, read_list
from leasekeep_inventory.http_client import MOST, Response, read_response
from leasekeep_inventory.inventory_file import read_inventory
from trial.programs import SLOWER

CASES = 1500
DIGITS = b"9" * 5000
"""Python reads no number of so many digits, and says so by a ValueError of its own."""
BODIES = (
    b'{"data":{"creation_time":1000,"ttl":"60s","renewable":true,"orphan":true,"expire_time":null}}',
    b'{"data":{"id":"db/1","issue_time":"1970-01-01T00:16:40.5Z","ttl":60,"renewable":true}}',
)
SHORT = b"""margin = 60
[[token]]
name = "app"
secret = "s.app"
need = "1970-01-01T00:20:00Z"
[[lease]]
name = "db"
token = "app"
lease_id_file = "id"
max_ttl = 9000
"""
INVENTORY = b"""system_max = 40000
[[token]]
name = "app"
issued = 1000
end = "1970-01-01T00:18:20Z"
increment = 100
secret = "s.app"
[[lease]]
name = "db"
token = "app"
issued = 1000
end = 1060
increment = 60
lease_id = "db/1"
"""
PIECES = (
    b"\n", b"\r\n", b'"', b"[", b"{", b"}", b"null", b"true", b"-1", b"1.5", b"1e999", b"nan", b'"1h"', b'""',
    b"[[token]]\n", b"\xff", b"\x00", "²".encode("latin-1"), DIGITS, b'"' + DIGITS + b'"', b'"' + DIGITS + b'h"',
    b"[" * 60_000, b"{a=" * 20_000, b"0x" + b"f" * 9000, b"1979-05-27T07:32:00Z", b"token = 5\n", b"lease = [1]\n",
    b'margin = "x"\n', b'lease_id_file = "\\u0000"\n', b"Date: Mon, 23 Nov 99999999999 03:00:00 GMT\r\n",
    b"Content-Length: " + DIGITS + b"\r\n",
)


def mutated(text: bytes, chance: random.Random) -> bytes:
    """The text with a few changes."""
    for _ in range(chance.choice((1, 1, 2, 4))):
        first, last = sorted(chance.randint(0, len(text)) for _ in range(2))
        changes: tuple[Callable[[], bytes], ...] = (
            lambda: text[:first] + chance.choice(PIECES) + text[first:],
            lambda: text[:first] + chance.choice(PIECES) + text[min(last, first + 8):],
            lambda: text[:first] + text[min(last, first + 30):],
            lambda: text[:first],
            lambda: text[:first] + bytes([chance.randrange(256)]) + text[first + 1:],
        )
        text = chance.choice(changes)()
    return text


def cases(texts: tuple[bytes, ...], seed: int) -> Iterator[bytes]:
    chance = random.Random(seed)
    return (mutated(chance.choice(texts), chance) for _ in range(CASES))


def response(text: bytes) -> Response | None:
    """The reply that the bytes are; None where they are none."""
    async def go() -> Response:
        reader = asyncio.StreamReader(limit=MOST)
        reader.feed_data(text)
        reader.feed_eof()
        return await read_response(reader)
    try:
        return asyncio.run(go())
    except (OSError, ValueError, asyncio.IncompleteReadError, asyncio.LimitOverrunError):
        return None  # These the transport takes for a reply that is none.


class Hostile(unittest.TestCase):
    def test_bodies(self) -> None:
        readers: tuple[Callable[[bytes], object], ...] = (
            lambda body: read_token_lookup(body, ""), lambda body: read_lease_lookup(body, "db/1"))
        for body in cases(BODIES, 1):
            for read in readers:
                read(body)

    def test_a_duration_of_many_digits(self) -> None:
        body = b'{"data":{"creation_time":1000,"ttl":"%s"}}'
        self.assertIsNone(read_token_lookup(body % (DIGITS + b"s"), ""))
        facts = read_token_lookup(body % (b"0" * 5000 + b"60s"), "")
        self.assertEqual(None if facts is None else facts.ttl, 60)

    def test_replies(self) -> None:
        replies = tuple(head + body for body in BODIES for head in (
            b"HTTP/1.1 200 OK\r\nContent-Length: %d\r\n\r\n" % len(body),
            b"HTTP/1.1 200 OK\r\nDate: Mon, 23 Nov 2026 03:00:00 GMT\r\n\r\n",
            b"HTTP/1.1 200 OK\r\nTransfer-Encoding: chunked\r\n\r\n%x\r\n" % len(body)))
        for text in cases(replies, 2):
            response(text)

    def test_inventories(self) -> None:
        for text in cases((INVENTORY,), 3):
            reading = read_inventory(text)
            self.assertTrue(reading.faults or reading.inventory is not None)
            for finding in reading.findings:
                self.assertNotIn("s.app", finding.text("file"))

    def test_inventories_that_python_cannot_read(self) -> None:
        for text in (b"x = " + b"[" * 60_000, b"margin = " + DIGITS, b"x = " + b"{a=" * 20_000):
            (fault,) = read_inventory(text).faults
            self.assertTrue(fault.problem.startswith("the file is not a TOML document: "), fault.problem)

    def test_keys_of_thousands_of_parts(self) -> None:
        """Python's own reader takes twenty seconds over each: so long nobody would be handed the time."""
        for part, text in (("a.", "%sa = 1\n"), ("a.", "[%sa]\n"), ("a . ", "x = {%sa = 1}\n"), ('"a".', "%sa = 1\n"), ("'é.'.", "%sa = 1\n")):
            began = time.process_time()
            (fault,) = read_inventory(("\n" + text % (part * 30_000)).encode()).faults
            self.assertEqual((fault.line, fault.problem), (2, "a key has hundreds of parts"))
            self.assertLess(time.process_time() - began, 2.0 * SLOWER)
        secret = INVENTORY.replace(b"s.app", b"a." * 127 + b"a")
        self.assertEqual(read_inventory(secret).faults, [])

    def test_short_lists(self) -> None:
        with tempfile.TemporaryDirectory() as folder:
            (Path(folder) / "id").write_text("db/1\n")
            for text in cases((SHORT, SHORT.partition(b"[[")[0]), 4):
                try:
                    read_list(text, 0o600, Path(folder))
                except DiscoverFault as fault:
                    self.assertNotIn("s.app", str(fault))


if __name__ == "__main__":
    unittest.main()
