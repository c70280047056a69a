"""Network namespaces: one for a broker, and one for each machine, with a wire of its own to the broker. It takes root and iproute2."""

from __future__ import annotations

import ctypes
import os
import socket
import subprocess
from collections.abc import Iterator
from contextlib import contextmanager

CLONE_NEWNET = 0x40000000
PORT = 8200
_LIBC = ctypes.CDLL(None, use_errno=True)


def ip(*words: str) -> None:
    subprocess.run(["ip", *words], check=True, capture_output=True)


class Namespace:
    """A namespace that lives until it is closed."""

    def __init__(self, name: str) -> None:
        self.name = name
        ip("netns", "add", name)
        ip("-n", name, "link", "set", "lo", "up")

    def close(self) -> None:
        subprocess.run(["ip", "netns", "del", self.name], capture_output=True)

    @contextmanager
    def inside(self) -> Iterator[None]:
        """What is opened meanwhile by this thread is opened there."""
        here = os.open("/proc/thread-self/ns/net", os.O_RDONLY)
        there = os.open(f"/run/netns/{self.name}", os.O_RDONLY)
        try:
            _enter(there)
            try:
                yield
            finally:
                _enter(here)
        finally:
            os.close(here)
            os.close(there)

    def listener(self, address: str) -> socket.socket:
        """A socket there that listens at the port."""
        with self.inside():
            stream = socket.socket()
        stream.setsockopt(socket.SOL_SOCKET, socket.SO_REUSEADDR, 1)
        stream.bind((address, PORT))
        stream.listen(64)
        stream.setblocking(False)
        return stream

    def stream(self) -> socket.socket:
        """A socket there that is to be connected."""
        with self.inside():
            stream = socket.socket()
        stream.setblocking(False)
        return stream


def _enter(namespace: int) -> None:
    if _LIBC.setns(namespace, CLONE_NEWNET) != 0:
        raise OSError(ctypes.get_errno(), "setns")


class Wire:
    """The wire between a broker's namespace and a machine's: two addresses of a net of its own, 10.98.NUMBER.1 and .2."""

    def __init__(self, broker: Namespace, machine: Namespace, number: int) -> None:
        self._broker = broker
        self.at_broker, self.at_machine = f"10.98.{number}.1", f"10.98.{number}.2"
        near, far = f"b{number}", f"m{number}"
        ip("-n", broker.name, "link", "add", near, "type", "veth", "peer", "name", far, "netns", machine.name)
        for space, device, address in ((broker, near, self.at_broker), (machine, far, self.at_machine)):
            ip("-n", space.name, "address", "add", f"{address}/24", "dev", device)
            ip("-n", space.name, "link", "set", device, "up")

    def cut(self) -> None:
        """Nothing comes back to the machine from now on: what it sends has no answer."""
        ip("-n", self._broker.name, "route", "add", "blackhole", f"{self.at_machine}/32")

    def mend(self) -> None:
        ip("-n", self._broker.name, "route", "del", "blackhole", f"{self.at_machine}/32")
