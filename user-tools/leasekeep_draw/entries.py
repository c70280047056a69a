"""The entries of an inventory, as far as a drawing shows them. What a lookup tells may be left out of it, and a need may be `always`."""

from __future__ import annotations

import tomllib
from dataclasses import dataclass
from typing import Any

from leasekeep_inventory.inventory import ALWAYS, Kind
from leasekeep_inventory.inventory import Entry as Written
from leasekeep_inventory.inventory import Inventory as WrittenInventory
from leasekeep_inventory.inventory_file import read_inventory
from leasekeep_inventory.toml_1_0 import older

__all__ = ["Entry", "Inventory", "InventoryFault", "Kind", "read"]


class InventoryFault(Exception):
    """The text is no inventory: the first fault, with its line."""


@dataclass(frozen=True)
class Entry:
    """A token or a lease. Moments are seconds since 1970-01-01T00:00:00Z; `issued` and `end` are None where a lookup is to tell them.
    A need that is `always` has no moment (None), and `reach` is the moment past which no renewal leads it; None where that is not
    known, or where there is none."""

    name: str
    kind: Kind
    parent: int | None
    issued: int | None
    end: int | None
    need: int | None
    ceiling: int | None
    reach: int | None = None


@dataclass(frozen=True)
class Inventory:
    """The entries by index, tokens first, whether the moments were written as dates, and the margin in seconds."""

    entries: tuple[Entry, ...]
    is_dated: bool
    margin: int = 1


def read(text: str, path: str = "FILE") -> Inventory:
    """The entries of an inventory's text, which stands in that file. Raises InventoryFault."""
    reading = read_inventory(text.encode())
    if reading.inventory is None:
        raise InventoryFault(min(reading.faults, key=lambda fault: fault.line).text(path))
    written = reading.inventory
    places = {entry.name: place for place, entry in enumerate(written.entries)}
    entries = tuple(_entry(written, entry, places) for entry in written.entries)
    return Inventory(entries, _is_dated(tomllib.loads(older(text).text)), written.margin)


def _entry(inventory: WrittenInventory, entry: Written, places: dict[str, int]) -> Entry:
    is_told, is_always = not entry.lacks_terms, entry.need == ALWAYS
    return Entry(
        name=entry.name,
        kind=entry.kind,
        parent=None if entry.parent is None else places[entry.parent],
        issued=entry.issued if is_told else None,
        end=entry.end if is_told else None,
        need=None if is_always else entry.need,
        ceiling=_ceiling(inventory, entry),
        reach=_reach(inventory, entry) if is_always else None,
    )


def _ceiling(inventory: WrittenInventory, entry: Written) -> int | None:
    """The moment that no renewal goes past; None where there is none, or where it is not known when the entry was issued."""
    return None if entry.lacks_terms else inventory.ceiling(entry, entry.issued, entry.period, entry.explicit_max_ttl)


def _reach(inventory: WrittenInventory, entry: Written) -> int | None:
    """The least moment past which no renewal leads the entry or one that it stands under, as far as these are known."""
    limits = []
    for over in inventory.over(entry.name):
        limit = _ceiling(inventory, over) if over.renewable else over.end
        if limit is not None and not over.lacks_terms:
            limits.append(max(limit, over.end))
    return min(limits, default=None)


def _is_dated(document: dict[str, Any]) -> bool:
    """Whether a moment is written as a date."""
    tables = [table for kind in Kind for table in document.get(kind.value, [])]
    return any(isinstance(table.get(key), str) and table[key] != "always" for table in tables for key in ("issued", "end", "need"))
