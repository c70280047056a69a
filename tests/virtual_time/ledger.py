"""What an agent has acknowledged, and so has to serve after a restart."""

from __future__ import annotations

from collections.abc import Callable, Iterator
from dataclasses import dataclass
from itertools import product

from .agent import Client
from .fleet import Entry, Fleet
from .machine import INVENTORY, Machine
from .vault import Row

Change = Callable[[Fleet], Fleet]
Standing = dict[str, int]
"""The needs of all that are served, by their names."""


@dataclass
class Asked:
    """A change that a client has asked for. `undone`: what is to be done where it is refused; `unsure`: where nobody knows."""

    client: Client
    change: Change
    undone: Callable[[], None]
    unsure: Callable[[], None]


def nothing() -> None:
    """Nothing is to be done."""


class Ledger:
    """The fleet that is served by all that was acknowledged, and what FILE says."""

    def __init__(self, stage: Machine) -> None:
        self._stage = stage
        self.file = stage.fleet
        self._asked: list[Asked] = []
        self._unsure: list[Change] = []
        self._edits: list[Change] = []
        """Of FILE, since it was last read."""
        self.replaced: list[tuple[Entry, int]] = []
        """Entries as they were before another credential was acknowledged, and in which run."""
        stage.world.watchers.append(self._watch)

    @property
    def fleet(self) -> Fleet:
        return self._stage.fleet

    def ask(self, change: Change, *words: str, undone: Callable[[], None] = nothing, unsure: Callable[[], None] = nothing) -> Client:
        """A client asks for a change."""
        client = self._stage.client(*words)
        self._asked.append(Asked(client, change, undone, unsure))
        return client

    def add(self, entry: Entry) -> Client:
        """A client adds a token, which the broker has from now on; it has not, where it is refused."""
        rows = self._stage.broker.vault.rows
        rows[entry.secret] = entry.row(None)

        def forget() -> None:
            rows.pop(entry.secret, None)
        return self.ask(lambda fleet: fleet.with_entry(entry), "add", entry.table(), undone=forget)

    def drop(self, name: str) -> Client:
        return self.ask(lambda fleet: fleet.without(name), "drop", name)

    def replace(self, name: str, given: Row, unsure: Callable[[], None] = nothing) -> Client:
        """A client gives an entry another credential, which the broker has spare."""
        def change(fleet: Fleet) -> Fleet:
            given.is_spare = False
            self.replaced.append((fleet.get(name), self._stage.agent.run))
            return fleet.changed(name, credential=given.credential)
        return self.ask(change, "replace", name, given.credential, unsure=unsure)

    def edit(self, change: Change) -> None:
        """An operator writes FILE anew; it counts once it is read."""
        self.file = change(self.file)
        self._edits.append(change)
        self._stage.write(INVENTORY, self.file.text())

    def reload(self) -> Client:
        """FILE is read, where it has been changed too."""
        edits, self._edits = self._edits, []

        def change(fleet: Fleet) -> Fleet:
            for edit in edits:
                fleet = edit(fleet)
            return fleet
        return self.ask(change, "reload", unsure=lambda: self._take(change))

    def settle(self) -> bool:
        """FILE and the changes become one; whether they did."""
        self._stage.world.run(self._stage.world.now + 40 * 10**9, lambda: not self._asked)
        is_done = self._stage.ask("settle")[:1] == ["ok"]
        if is_done:
            self.file = self.fleet
        return is_done

    def _take(self, change: Change) -> None:
        self._stage.fleet = change(self._stage.fleet)

    def _watch(self) -> None:
        """Takes the answers that have come."""
        for asked in [asked for asked in self._asked if asked.client.is_done]:
            self._asked.remove(asked)
            if asked.client.is_ok:
                self._take(asked.change)
            elif asked.client.lines:
                asked.undone()
            else:
                self._unsure.append(asked.change)
                asked.unsure()

    def restarted(self) -> list[str]:
        """It has been started again: what of the acknowledged is not there. A change that was under way is there whole, or not at all."""
        shown = {name: row["need"] for name, row in self._stage.shown().items()}
        for change in self._edits:
            self._take(change)
        self._edits = []
        unsure, self._unsure = self._unsure, []
        for fleet in possible(self.fleet, unsure):
            if standing(fleet) == shown:
                self._stage.fleet = fleet
                return []
        wanted = standing(self.fleet)
        differs = sorted(name for name in wanted | shown if wanted.get(name) != shown.get(name))
        return [f"at {self._stage.now:.3f}: after a restart {name} has the need {shown.get(name)}, and {wanted.get(name)} was acknowledged"
                for name in differs]


def possible(fleet: Fleet, unsure: list[Change]) -> Iterator[Fleet]:
    """What may be served where each of these changes was made, or was not."""
    for made in product((False, True), repeat=len(unsure)):
        found = fleet
        for change, is_made in zip(unsure, made):
            found = change(found) if is_made else found
        yield found


def standing(fleet: Fleet) -> Standing:
    return {entry.name: entry.need for entry in fleet.entries}
