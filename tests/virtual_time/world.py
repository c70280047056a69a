"""A world: virtual time, what happens in it, and the programs that live there in lock-step with the test."""

from __future__ import annotations

import heapq
import selectors
import socket
from collections.abc import Callable
from typing import Protocol

from .clock import NEVER

Happens = Callable[[], None]


class Living(Protocol):
    """A program in the world. It stands still unless it is let go on."""

    @property
    def wakes(self) -> int:
        """When it goes on, by itself or since it was given something to hear."""

    def go_on(self, horizon: int) -> None:
        """Lets it go on until it waits for something that only others can give it, or until a wait of it ends at `horizon` or later.
        Time passes while its own waits are over before that."""

    def was_poked(self) -> None:
        """Something was sent to it."""


class World:
    """Everything happens here, one after another. `now` is real time: the clocks of a machine may show less, or be set."""

    def __init__(self) -> None:
        self.now = 0
        self._happenings: list[tuple[int, int, Happens]] = []
        self._made = 0
        self._selector = selectors.DefaultSelector()
        self.living: list[Living] = []
        self.watchers: list[Happens] = []
        """Called wherever all that was said has been taken in."""

    def close(self) -> None:
        self._selector.close()

    # ---- what happens

    def at(self, moment: int, happens: Happens) -> None:
        """Something happens at that moment, or now where that is past."""
        self._made += 1
        heapq.heappush(self._happenings, (max(moment, self.now), self._made, happens))

    def later(self, after: int, happens: Happens) -> None:
        self.at(self.now + after, happens)

    def run(self, until: int, is_over: Callable[[], bool] = lambda: False) -> bool:
        """Goes on to that moment, or until something holds; whether it does."""
        while True:
            self._hear()
            for watch in self.watchers:
                watch()
            if is_over():
                return True
            happens = self._happenings[0][0] if self._happenings else NEVER
            first = min(self.living, key=lambda one: one.wakes, default=None)
            wakes = NEVER if first is None else first.wakes
            if min(happens, wakes) > until:
                self.now = max(self.now, until)
                return False
            if happens <= wakes or first is None:
                self.now = happens
                heapq.heappop(self._happenings)[2]()
            else:
                self.now = max(self.now, wakes)
                self._let_go_on(first, min(until + 1, happens))

    def _let_go_on(self, one: Living, horizon: int) -> None:
        others = min((other.wakes for other in self.living if other is not one), default=NEVER)
        one.go_on(min(horizon, others))

    # ---- sockets of the test

    def _hear(self) -> None:
        """Takes in all that has been said to the test."""
        while found := self._selector.select(0):
            for key, _ in found:
                key.data()

    def listen(self, stream: socket.socket, hears: Happens) -> None:
        """Calls that where there is something to take from the stream."""
        self._selector.register(stream, selectors.EVENT_READ, hears)

    def ignore(self, stream: socket.socket) -> None:
        self._selector.unregister(stream)

    def send(self, stream: socket.socket, text: bytes) -> None:
        """Sends that to whoever lives here; no matter if it is gone."""
        try:
            stream.sendall(text)
        except OSError:
            pass
        self.poke()

    def poke(self) -> None:
        """Those who live here may have something to hear."""
        for one in self.living:
            one.was_poked()
