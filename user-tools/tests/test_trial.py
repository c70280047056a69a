"""The agent in real time against minibroker: plain, and behind a TLS proxy."""

from __future__ import annotations

import asyncio
import logging
import shutil
import signal
import tempfile
import time
import unittest
from pathlib import Path

from leasekeep_inventory.http_client import Address, HttpTransport, Request, TransportFault
from trial.programs import SLOWER, find_program
from trial.proxy import Proxy, make_authority, make_certificate
from trial.relay import Relay
from trial.stage import Trial, short_leases

LONGEST = 30.0 * SLOWER


def program(name: str) -> str:
    """The built program; SkipTest where there is none."""
    found = find_program(name)
    if found is None:
        raise unittest.SkipTest(f"no built {name}")
    return found


class BuiltPrograms(unittest.TestCase):
    """Tells whether these tests run with the built programs."""

    def test_leasekeep(self) -> None:
        if find_program("leasekeep") is None:
            self.skipTest("no built leasekeep: no trial is played")

    def test_minibroker(self) -> None:
        if find_program("minibroker") is None:
            self.skipTest("no built minibroker with moments from its input: no broker is tried")


class Trials(unittest.IsolatedAsyncioTestCase):
    """Those of one test all at the same time, since real time is what they take."""

    async def asyncSetUp(self) -> None:
        asyncio.get_running_loop().set_debug(False)
        logging.getLogger("asyncio").setLevel(logging.CRITICAL)  # It tells of each certificate that is refused.

    async def test_plain(self) -> None:
        await self.played("")

    async def test_behind_haproxy_with_and_without_a_namespace(self) -> None:
        await self.behind_proxy("haproxy")

    async def test_behind_nginx_with_and_without_a_namespace(self) -> None:
        await self.behind_proxy("nginx")

    async def behind_proxy(self, name: str) -> None:
        if not Proxy.is_installed(name):
            self.skipTest(f"{name} or openssl is not installed")
        await asyncio.gather(self.played(name, "team-a"), self.played(name))

    async def played(self, proxy: str, namespace: str = "") -> None:
        folder = Path(tempfile.mkdtemp())
        self.addCleanup(shutil.rmtree, folder, True)
        trial = Trial(folder, program("leasekeep"), program("minibroker"), short_leases(int(time.time()), 3600))
        try:
            await (self.behind(trial, proxy, namespace) if proxy else self.plain(trial))
        finally:
            await trial.stop_agent(kill=True)
            await trial.stop_broker()

    async def begin(self, trial: Trial) -> None:
        """The broker with its short leases begins last, since a proxy may take seconds to start."""
        trial.inventory = short_leases(int(time.time()), 3600)
        await trial.start_broker(trial.inventory)

    async def plain(self, trial: Trial) -> None:
        await self.begin(trial)
        await trial.start_agent(trial.folder / "log")
        await self.assert_kept(trial, wakes=2)
        self.assertEqual((trial.folder / "log").read_text().count(" begin "), 1)

    async def assert_kept(self, trial: Trial, wakes: int) -> None:
        """Waits for so many wake-ups; every entry is alive then."""
        end = time.monotonic() + LONGEST
        while (log := (trial.folder / "log").read_text()).count(" next ") < wakes:
            self.assertLess(time.monotonic(), end, log)
            await asyncio.sleep(0.2)
        self.assertEqual(await trial.dead(), [], log)
        self.assertEqual(await trial.stop_agent(), -signal.SIGTERM)

    async def behind(self, trial: Trial, name: str, namespace: str) -> None:
        make_authority(trial.folder)
        certified = Relay(Path("unused"), make_certificate(trial.folder))
        await certified.start()
        proxy = Proxy(name, trial.folder, certified.port, namespace)
        await proxy.start()
        try:
            await self.begin(trial)
            certified.broker = trial.relay.broker
            await trial.start_agent(trial.folder / "log", str(proxy.socket))
            await self.assert_kept(trial, wakes=1)
            head = certified.last_head.decode().lower()
            self.assertRegex(head, r"\r\nhost: vault\.example\.com(\r\n|$)")
            if namespace:
                self.assertRegex(head, rf"\r\nx-vault-namespace: {namespace}(\r\n|$)")
            else:
                self.assertNotIn("x-vault-namespace", head)
            await self.refuses_another_certificate(trial, certified, proxy)
        finally:
            await proxy.stop()
            await certified.stop()

    async def refuses_another_certificate(self, trial: Trial, certified: Relay, proxy: Proxy) -> None:
        """Behind a broker with the certificate of another host, nothing is served."""
        await certified.stop()
        stranger = Relay(Path("unused"), make_certificate(trial.folder, "stranger.example.com"))
        stranger.port, stranger.broker = certified.port, certified.broker
        await stranger.start()
        try:
            transport = HttpTransport(Address(str(proxy.socket)))
            reply = await transport.request(Request("GET", "/v1/auth/token/lookup-self", "s.app", b""))
            self.assertIn(reply.status, (502, 503))
        except TransportFault:
            pass
        finally:
            await stranger.stop()
        self.assertEqual((stranger.served, stranger.last_head), (0, b""))


if __name__ == "__main__":
    unittest.main()
