"""What judges a long trial: a change that was acknowledged and is not there is found, and nothing else is."""

from __future__ import annotations

import asyncio
import random
import unittest
from pathlib import Path
from unittest import mock

from leasekeep_inventory.inventory import Entry, Kind
from trial.control import ControlFault
from trial.orders import Orders

KEPT = Entry("db", Kind.LEASE, "app", 1000, 2000, increment=60, need=9000, credential="db/1")
SPARE = Entry("spare", Kind.LEASE, "app", 1000, 2000, increment=60, need=9000, credential="db/2")


class Agent:
    """An agent that keeps needs as a trial's changes make them, or forgets them."""

    def __init__(self) -> None:
        self.needs = {"db": "1970-01-01T02:30:00Z"}
        self.answers = self.keeps = True
        self.processes = iter([1] * 1000)

    def served(self) -> tuple[Path, int] | None:
        return Path("control.sock"), next(self.processes)

    def command(self, _socket: Path, words: list[str]) -> list[str]:
        if words == ["status"]:
            return ["standby first next-wake - beginnings 1 margin 60", *(f"{name} kept end - need {need} in-force - last-success - wrong -" for name, need in self.needs.items())]
        if self.keeps:
            self.change(words)
        if not self.answers:
            raise ControlFault("no answer")
        return []

    def change(self, words: list[str]) -> None:
        if words[0] == "drop":
            del self.needs[words[1]]
        elif words[0] == "need":
            seconds = int(words[2])
            self.needs[words[1]] = f"1970-01-01T{seconds // 3600:02}:{seconds // 60 % 60:02}:{seconds % 60:02}Z"
        else:
            need = next(int(line.split(" = ")[1]) for line in words[1].splitlines() if line.startswith("need = "))
            self.change(["need", "spare", str(need)])


class Judged(unittest.TestCase):
    def orders(self, agent: Agent) -> Orders:
        return Orders(agent.served, [KEPT], [SPARE], random.Random(1), late=0.0)

    def play(self, agent: Agent, changes: int) -> Orders:
        orders = self.orders(agent)

        async def go() -> None:
            for _ in range(changes):
                await orders.give()
                await orders.look()
        with mock.patch("trial.orders.send_command", agent.command):
            asyncio.run(go())
        return orders

    def test_all_is_there(self) -> None:
        orders = self.play(Agent(), 60)
        self.assertEqual((orders.acknowledged, orders.refused, orders.looks, orders.lost), (60, 0, 60, []))

    def test_what_was_acknowledged_and_is_not_there(self) -> None:
        agent = Agent()
        agent.keeps = False
        orders = self.play(agent, 1)
        (lost,) = orders.lost
        self.assertIn(lost, ("db: 1970-01-01T02:30:00Z, and 1970-01-01T02:30:01Z was acknowledged",
                             "spare: absent, and 1970-01-01T02:30:01Z was acknowledged"))

    def test_what_was_not_acknowledged_may_be_there_or_not(self) -> None:
        for keeps in (True, False):
            agent = Agent()
            agent.answers, agent.keeps = False, keeps
            orders = self.play(agent, 10)
            self.assertEqual((orders.acknowledged, orders.refused, orders.lost), (0, 10, []))

    def test_where_it_was_killed_amid_the_look_nothing_is_compared(self) -> None:
        agent = Agent()
        agent.processes = iter([1, 1, 2])
        agent.keeps = False
        orders = self.play(agent, 1)
        self.assertEqual((orders.looks, orders.lost), (0, []))


if __name__ == "__main__":
    unittest.main()
