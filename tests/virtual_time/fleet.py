"""What an agent is to keep: entries, the text of their inventory, and the rows that a broker has of them."""

from __future__ import annotations

from collections.abc import Callable, Iterable
from dataclasses import dataclass, replace
from typing import Any

from .clock import BEGAN, ns
from .vault import Kind, Row, Vault

ALWAYS = 253402300799
"""The last moment, which stands for `always`."""
FAR = BEGAN + 90_000_000
"""A need that no world comes to."""
ISSUED = BEGAN - 500
MOST_TTL = 100_000_000


@dataclass(frozen=True)
class Entry:
    """An entry as the inventory has it. `left`: the seconds to its end as the world begins; `need`: a moment in seconds since 1970, 0 where
    there is none."""

    name: str
    kind: Kind = Kind.TOKEN
    parent: str | None = None
    left: float = 600.0
    step: int = 600
    need: int = FAR
    credential: str = ""
    file: str | None = None
    """The path of a file that holds the credential, in place of it."""
    max_ttl: int = MOST_TTL

    @property
    def secret(self) -> str:
        return self.credential or f"s.{self.name}"

    def table(self) -> str:
        """Its table in the inventory."""
        above = {Kind.TOKEN: "parent", Kind.LEASE: "token"}[self.kind]
        held = {Kind.TOKEN: "secret", Kind.LEASE: "lease_id"}[self.kind]
        lines = [f"[[{self.kind.value}]]", f'name = "{self.name}"']
        lines += [f'{above} = "{self.parent}"'] if self.parent else []
        lines += [f'{held}_file = "{self.file}"' if self.file else f'{held} = "{self.secret}"']
        lines += [f"increment = {self.step}", f"max_ttl = {self.max_ttl}"]
        lines += ['need = "always"' if self.need == ALWAYS else f"need = {self.need}"]
        return "\n".join([*lines, ""])

    def row(self, above: Row | None, **real: Any) -> Row:
        """Its row at the broker; `real`: what is otherwise there."""
        plain: dict[str, Any] = {"end": ns(self.left), "parent": above, "ceiling": ns(ISSUED - BEGAN + self.max_ttl)}
        return Row(self.name, self.kind, self.secret, **{**plain, **real})


@dataclass(frozen=True)
class Fleet:
    """The entries of an agent, parents first, and its margin."""

    entries: tuple[Entry, ...]
    margin: int

    def text(self) -> str:
        """The inventory: all tokens, then all leases."""
        kinds = (Kind.TOKEN, Kind.LEASE)
        return f"margin = {self.margin}\n" + "".join(entry.table() for kind in kinds for entry in self.entries if entry.kind is kind)

    def get(self, name: str) -> Entry:
        return next(entry for entry in self.entries if entry.name == name)

    @property
    def names(self) -> list[str]:
        return [entry.name for entry in self.entries]

    def mapped(self, change: Callable[[Entry], Entry]) -> Fleet:
        return replace(self, entries=tuple(change(entry) for entry in self.entries))

    def changed(self, name: str, **fields: Any) -> Fleet:
        """The fleet with another word of that entry."""
        return self.mapped(lambda entry: replace(entry, **fields) if entry.name == name else entry)

    def with_entry(self, entry: Entry) -> Fleet:
        return replace(self, entries=(*self.entries, entry))

    def without(self, name: str) -> Fleet:
        return replace(self, entries=tuple(entry for entry in self.entries if entry.name != name))

    def under(self, name: str) -> list[str]:
        """Those whose parent it is."""
        return [entry.name for entry in self.entries if entry.parent == name]

    def load(self, vault: Vault, **real: dict[str, Any]) -> None:
        """Lets the broker have them. `real` says of some, by name, what is otherwise there."""
        for entry in self.entries:
            above = None if entry.parent is None else vault.named(entry.parent)
            vault.add(entry.row(above, **real.get(entry.name, {})))


def tokens(letter: str, count: int, left: float | Callable[[int], float], step: int = 3600, **more: Any) -> tuple[Entry, ...]:
    """So many tokens, which end that many seconds after the beginning."""
    return tuple(
        Entry(f"{letter}{place}", left=left(place) if callable(left) else left, step=step, **more) for place in range(count))


def fleet(count: int, step: int, margin: int, left: float | Callable[[int], float], root: bool = False, need: int = FAR) -> Fleet:
    """So many tokens; or a root token, which nobody needs for itself, and leases of it."""
    if not root:
        return Fleet(tokens("e", count, left, step, need=need), margin)
    over = Entry("root", left=step, step=step, need=0)
    return Fleet((over, *tokens("e", count - 1, left, step, need=need, kind=Kind.LEASE, parent="root")), margin)


def of(margin: int, *groups: Iterable[Entry]) -> Fleet:
    """A fleet of these."""
    return Fleet(tuple(entry for group in groups for entry in group), margin)
