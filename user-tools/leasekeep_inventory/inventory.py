"""The inventory as data: entries, their tree, and the text that `leasekeep` reads."""

from __future__ import annotations

from dataclasses import dataclass
from enum import Enum
from functools import cached_property, lru_cache
from typing import Callable, Iterable, Iterator

SYSTEM_MAX = 2764800
MARGIN_MAX = 3600
MAX_ENTRIES = 4096
MAX_DEPTH = 64
DURATION_MAX = 4294967295
END_MAX = 257697268094
ALWAYS = 253402300799
"""The last moment, as the need of an entry that is to be kept as long as its ceiling allows."""


class Kind(Enum):
    TOKEN = "token"
    LEASE = "lease"


@dataclass(frozen=True)
class Entry:
    """One token or lease as the inventory writes it. `parent` is a lease's token or a token's parent, `credential`
    the secret or lease id that is written, or what `credential_file` was last taken to hold; None where there is none (the
    name stands for it then)."""

    name: str
    kind: Kind
    parent: str | None
    issued: int
    end: int
    renewable: bool = True
    increment: int | None = None
    period: int = 0
    max_ttl: int | None = None
    explicit_max_ttl: int = 0
    need: int = 0
    credential: str | None = None
    credential_file: str | None = None
    reissued: bool = False

    def __repr__(self) -> str:
        """Names alone: a credential never shows."""
        return f"Entry({self.kind.value} {self.name})"

    @property
    def secret(self) -> str:
        return self.name if self.credential is None else self.credential

    @property
    def lacks_terms(self) -> bool:
        """Whether issue and end are not written, so that a lookup has to tell them."""
        return self.issued == self.end == 0

    @property
    def step(self) -> int:
        """What a renewal asks for: the period where there is one, else the increment."""
        return self.period or self.increment or 0


@dataclass(frozen=True)
class Inventory:
    """Entries, all tokens first, each after the one that it stands under."""

    entries: tuple[Entry, ...] = ()
    margin: int = 1
    system_max: int = SYSTEM_MAX

    @cached_property
    def _places(self) -> dict[str, int]:
        return {entry.name: place for place, entry in enumerate(self.entries)}

    def find(self, name: str) -> Entry | None:
        place = self._places.get(name)
        return None if place is None else self.entries[place]

    def over(self, name: str) -> Iterator[Entry]:
        """The entry of that name and all over it, from itself to its root."""
        entry = self.find(name)
        while entry is not None:
            yield entry
            entry = None if entry.parent is None else self.find(entry.parent)

    def root_token(self, entry: Entry) -> str:
        """The credential that requests about the entry are sent with: its own, or of a lease its token's."""
        if entry.kind is Kind.TOKEN:
            return entry.secret
        token = self.find(entry.parent or "")
        return entry.secret if token is None else token.secret

    def with_all_under(self, names: Iterable[str]) -> set[str]:
        """These names and every entry under one of them."""
        found = set(names)
        for entry in self.entries:
            if entry.parent in found:
                found.add(entry.name)
        return found

    @cached_property
    def carried(self) -> dict[str, int]:
        """For each entry the greatest need of an entry that it is over."""
        needs = {entry.name: entry.need for entry in self.entries}
        for entry in reversed(self.entries):
            if entry.parent in needs:
                needs[entry.parent] = max(needs[entry.parent], needs[entry.name])
        return needs

    def ceiling(self, entry: Entry, issued: int, period: int, explicit_max: int) -> int | None:
        """The moment past which no renewal leads; None where there is none."""
        if entry.kind is Kind.TOKEN and explicit_max and (period or explicit_max < self.max_ttl_of(entry)):
            return issued + explicit_max
        if period:
            return None
        return issued + self.max_ttl_of(entry)

    def reach(self, entry: Entry, most: int) -> int:
        """The moment up to which the entry can be kept, by the ceilings and ends over it, at most that one."""
        for over in self.over(entry.name):
            ceiling = self.ceiling(over, over.issued, over.period, over.explicit_max_ttl) if over.renewable else over.end
            most = min(most, most if ceiling is None else max(ceiling, over.end))
        return most

    def max_ttl_of(self, entry: Entry) -> int:
        return entry.max_ttl or self.system_max

    def mapped(self, change: Callable[[Entry], Entry | None], margin: int | None = None) -> Inventory:
        """The inventory with each entry changed, or left out where the change gives None."""
        changed = (change(entry) for entry in self.entries)
        kept = tuple(entry for entry in changed if entry is not None)
        return Inventory(kept, self.margin if margin is None else margin, self.system_max)


def toml_string(text: str) -> str:
    """A basic string of TOML."""
    out = []
    for letter in text:
        if letter in '"\\':
            out.append("\\" + letter)
        elif " " <= letter <= "~":
            out.append(letter)
        else:
            out.append(f"\\U{ord(letter):08X}")
    return '"' + "".join(out) + '"'


@lru_cache(2 * MAX_ENTRIES)
def entry_text(entry: Entry, is_served: bool = False) -> str:
    """The entry's table, with every end, or as `leasekeep serve` alone takes it."""
    lines = [f"[[{entry.kind.value}]]", f"name = {toml_string(entry.name)}"]
    if entry.parent is not None:
        lines.append(f"{'token' if entry.kind is Kind.LEASE else 'parent'} = {toml_string(entry.parent)}")
    if not (is_served and entry.lacks_terms):
        lines += [f"issued = {entry.issued}", f"end = {entry.end}"]
    if not entry.renewable:
        lines.append("renewable = false")
    if entry.increment is not None:
        lines.append(f"increment = {entry.increment}")
    if entry.period:
        lines.append(f"period = {entry.period}")
    if entry.max_ttl is not None:
        lines.append(f"max_ttl = {entry.max_ttl}")
    if entry.explicit_max_ttl:
        lines.append(f"explicit_max_ttl = {entry.explicit_max_ttl}")
    if entry.reissued:
        lines.append("reissued = true")
    if entry.need:
        lines.append('need = "always"' if is_served and entry.need == ALWAYS else f"need = {entry.need}")
    key = "lease_id" if entry.kind is Kind.LEASE else "secret"
    if is_served and entry.credential_file is not None:
        lines.append(f"{key}_file = {toml_string(entry.credential_file)}")
    elif entry.credential is not None:
        lines.append(f"{key} = {toml_string(entry.credential)}")
    return "\n".join(lines) + "\n"


def inventory_text(inventory: Inventory, is_served: bool = False) -> str:
    """The whole inventory with every end, or as `leasekeep serve` alone takes it."""
    head = f"system_max = {inventory.system_max}\nmargin = {inventory.margin}\n"
    return "\n".join([head, *(entry_text(entry, is_served) for entry in inventory.entries)])
