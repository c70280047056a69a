"""The parts by themselves: HTTP replies however they are framed, what a lookup tells, dates, the inventory's text."""

from __future__ import annotations

import asyncio
import json
import os
import tempfile
import time
import unittest
from typing import Any
from unittest import mock

from leasekeep_inventory.broker import Broker, Verdict, read_lease_lookup, read_token_lookup
from leasekeep_inventory.http_client import (
    Address, HttpTransport, Request, Response, TransportFault, read_response, request_bytes,
)
from leasekeep_inventory.inventory import Entry, Inventory, Kind, inventory_text
from leasekeep_inventory.inventory_file import read_inventory
from leasekeep_inventory.rfc3339 import read_rfc3339

BODY = b'{"auth":{"lease_duration":60,"renewable":true}}'
TOKEN = Entry("web", Kind.TOKEN, None, 1000, 1060, increment=60, credential="hvs.secret")
LEASE = Entry("db", Kind.LEASE, "web", 1000, 1060, increment=60, credential="db/creds/app/1")


class Http(unittest.TestCase):
    def read(self, data: bytes) -> tuple[int, bytes] | None:
        async def go() -> tuple[int, bytes] | None:
            reader = asyncio.StreamReader()
            reader.feed_data(data)
            reader.feed_eof()
            try:
                reply = await read_response(reader)
            except (ValueError, asyncio.IncompleteReadError, asyncio.LimitOverrunError):
                return None
            return reply.status, reply.body
        return asyncio.run(go())

    def test_framings_of_one_reply(self) -> None:
        head = b"HTTP/1.1 200 OK\r\n"
        for framed in (b"Content-Length: 47\r\n\r\n" + BODY, b"Transfer-Encoding: chunked\r\n\r\n2f\r\n" + BODY
                       + b"\r\n0\r\n\r\n", b"\r\n" + BODY, b"content-length: 47\r\nX-Other: 1\r\n\r\n" + BODY + b"more"):
            self.assertEqual(self.read(head + framed), (200, BODY))
        for framed in (b"Content-Length: 48\r\n\r\n" + BODY, b"Content-Length: 4x\r\n\r\n" + BODY,
                       b"Transfer-Encoding: chunked\r\n\r\nzz\r\n", b"Transfer-Encoding: gzip\r\n\r\n" + BODY,
                       b"Transfer-Encoding: chunked\r\nContent-Length: 47\r\n\r\n" + BODY,
                       b"Content-Length: 47\r\nContent-Length: 47\r\n\r\n" + BODY,
                       b"Content-Length: 9999999\r\n\r\n", b"Transfer-Encoding: chunked\r\n\r\n-1\r\n", b"no colon\r\n\r\n"):
            self.assertIsNone(self.read(head + framed), framed)
        for garbage in (b"", b"hello\r\n\r\n", b"HTTP/1.1 2000 OK\r\n\r\n", b"SSH-2.0\r\n\r\n", b"x" * 200_000):
            self.assertIsNone(self.read(garbage), garbage[:20])

    def test_requests_as_written(self) -> None:
        request = Request("POST", "/v1/auth/token/renew-self", "s.web1", b'{"increment":60}')
        self.assertEqual(request_bytes(request, "127.0.0.1:8200"), (
            b"POST /v1/auth/token/renew-self HTTP/1.1\r\nHost: 127.0.0.1:8200\r\nX-Vault-Token: s.web1\r\n"
            b"Content-Type: application/json\r\nContent-Length: 16\r\nConnection: close\r\n\r\n"
            b'{"increment":60}'))
        self.assertNotIn("s.web1", repr(request))

    def test_a_time_out_holds_for_a_request_as_a_whole(self) -> None:
        hung_up = asyncio.Event()

        async def drip(reader: asyncio.StreamReader, writer: asyncio.StreamWriter) -> None:
            try:
                for letter in b"HTTP/1.1 200 OK\r\nContent-Length: 40\r\n\r\n" + b"x" * 40:
                    writer.write(bytes((letter,)))
                    await writer.drain()
                    await asyncio.sleep(0.02)
            except ConnectionError:
                hung_up.set()
            finally:
                writer.close()

        async def go() -> None:
            with tempfile.TemporaryDirectory() as folder:
                path = f"{folder}/sock"
                server = await asyncio.start_unix_server(drip, path)
                broker = Broker(HttpTransport(Address(path)), 0.3)
                began = time.monotonic()
                heard = await broker.look_up(Inventory((TOKEN,)), TOKEN)
                self.assertLess(time.monotonic() - began, 1.3)  # The reply drips for 1.6 seconds.
                self.assertEqual((heard.verdict, heard.why), (Verdict.FAILED, "no reply within 0.3 s"))
                await asyncio.wait_for(hung_up.wait(), 2)
                server.close()
                os.unlink(path)
                with self.assertRaises(TransportFault) as caught:
                    await HttpTransport(Address(path)).request(Request("GET", "/", "hvs.secret", b""))
                self.assertEqual(str(caught.exception), "connect: No such file or directory")
        asyncio.run(go())


class Bodies(unittest.TestCase):
    def test_durations(self) -> None:
        for ttl, seconds in ((b"60", 60), (b'"60s"', 60), (b'"0060"', 60), (b"-1", None), (b"60.0", None), (b'"s"', None),
                             (b"true", None), (b"null", None), (b"4294967296", None)):
            facts = read_token_lookup(b'{"data":{"creation_time":900,"ttl":%s}}' % ttl, "")
            self.assertEqual(None if facts is None else facts.ttl, seconds, ttl)
        for body in (b'{"data":null}', b"[]", b"{", b'{"data":{"creation_time":9,"ttl":60},"wrap_info":{}}', b"[" * 100_000,
                     b'{"data":{"creation_time":9,"ttl":60,"renewable":1}}'):
            self.assertIsNone(read_token_lookup(body, ""), body[:60])

    def test_lookups(self) -> None:
        facts: dict[str, Any] = {"creation_time": 900, "explicit_max_ttl": 200, "orphan": True, "period": 60, "renewable": True,
                 "ttl": 60}
        read = read_token_lookup(json.dumps({"data": facts}).encode(), "")
        assert read is not None
        self.assertEqual((read.ttl, read.issued, read.explicit_max, read.orphan, read.period, read.never_ends),
                         (60, 900, 200, True, 60, False))
        root: dict[str, Any] = {**facts, "ttl": 0, "creation_ttl": 0, "expire_time": None}
        for body, never_ends in ((root, True), ({**facts, "ttl": 0}, False), ({**root, "creation_ttl": 60}, False),
                                 ({**root, "expire_time": "2026-11-22T09:00:00Z"}, False)):
            read = read_token_lookup(json.dumps({"data": body}).encode(), "")
            self.assertEqual(None if read is None else read.never_ends, never_ends)
        lease: dict[str, Any] = {"id": "db/creds/app/1", "issue_time": "1970-01-01T00:15:00.5Z", "renewable": True, "ttl": 60}
        for body in ({"data": lease}, lease, {**lease, "data": None}):
            found = read_lease_lookup(json.dumps(body).encode(), LEASE.secret)
            self.assertEqual(None if found is None else (found.ttl, found.issued), (60, 900))
        self.assertIsNone(read_lease_lookup(json.dumps({"data": {**lease, "id": "x"}}).encode(), LEASE.secret))


class Verdicts(unittest.TestCase):
    def heard(self, status: int, entry: Entry) -> Verdict:
        async def go() -> Verdict:
            transport = mock.Mock()
            transport.request = mock.AsyncMock(return_value=Response(status, b"{}"))
            return (await Broker(transport, 5.0).look_up(Inventory((TOKEN, LEASE)), entry)).verdict
        return asyncio.run(go())

    def test_what_a_status_means(self) -> None:
        refused, failed = Verdict.REFUSED, Verdict.FAILED
        for status, of_token, of_lease in (
            (200, failed, failed), (400, failed, refused), (403, refused, refused), (404, refused, refused), (405, failed, failed),
            (429, failed, failed), (500, failed, failed), (503, failed, failed), (204, failed, failed),
        ):
            with self.subTest(status=status):
                self.assertIs(self.heard(status, TOKEN), of_token)
                self.assertIs(self.heard(status, LEASE), of_lease)


class Texts(unittest.TestCase):
    def test_dates(self) -> None:
        for text, moment in (
            ("2017-04-30T10:18:11.228946471-04:00", 1493561891), ("2018-04-17T11:35:54-04:00", 1523979354),
            ("1969-12-31T23:59:59.5Z", None), ("2023-02-29T00:00:00Z", None), ("9999-12-31T23:59:59Z", 253402300799),
            ("9999-12-31T23:59:59-00:01", None), ("2026-11-22 09:00:00Z", None), ("2026-11-22T09:00:60Z", None),
            ("2026-11-22T09:00:00", None), ("2026-11-22T09:00:00+24:00", None),
        ):
            self.assertEqual(read_rfc3339(text), moment, text)

    def test_an_inventory_is_read_back_from_its_text(self) -> None:
        inventory = Inventory((
            TOKEN, Entry("pay", Kind.TOKEN, "web", 900, 1060, False, None, 60, None, 200, 1100, 'a"\\b', reissued=True),
            Entry("db", Kind.LEASE, "pay", 1000, 1060, True, 60, 0, 9000, 0, 1200, "db/creds/app/1"),
        ), 10, 5000)
        self.assertEqual(read_inventory(inventory_text(inventory).encode()).inventory, inventory)
        self.assertNotIn("hvs.secret", repr(inventory))


if __name__ == "__main__":
    unittest.main()
