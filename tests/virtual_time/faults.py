"""What goes wrong with requests, and for how long."""

from __future__ import annotations

from collections.abc import Callable
from dataclasses import dataclass
from enum import Enum

from .clock import NEVER, ns
from .vault import Request


class Act(Enum):
    """What becomes of a request."""

    STATUS = "a status, and nothing is done"
    SILENT = "never an answer"
    CLOSED = "the connection is closed without a reply"
    DRIPS = "a reply that comes byte by byte, and never whole"
    GARBLED = "a reply that says nothing of what was asked"
    DROPPED = "all is done, and no reply is sent"
    SLOW = "a good answer, late"


Picks = Callable[[Request, str], bool]
"""Whether a fault is about a request, with the name of its entry."""


def everything(_request: Request, _name: str) -> bool:
    return True


def renewals(request: Request, _name: str) -> bool:
    return request.renews


def lookups(request: Request, _name: str) -> bool:
    return not request.renews


def about(*names: str) -> Picks:
    return lambda request, name: name in names


def both(*tests: Picks) -> Picks:
    return lambda request, name: all(test(request, name) for test in tests)


@dataclass(frozen=True)
class Fault:
    """A fault in [since, until), for the requests that `picks`. `seconds`: by how much later a SLOW one is answered."""

    since: int
    until: int
    act: Act
    status: int = 503
    picks: Picks = everything
    seconds: float = 0.0

    def holds(self, moment: int, request: Request, name: str) -> bool:
        return self.since <= moment < self.until and self.picks(request, name)


def fault(since: float, until: float, act: Act = Act.STATUS, status: int = 500, picks: Picks = everything, seconds: float = 0.0) -> Fault:
    """A fault between two moments in seconds of the world."""
    return Fault(ns(since), ns(until) if until < NEVER // ns(1) else NEVER, act, status, picks, seconds)


DRIPS = b"HTTP/1.1 200 OK\r\nContent-Length: 9\r\nServer: a slow one\r\n\r\n"
DRIP_EVERY = ns(0.2)
"""Between two bytes of a reply that drips."""
