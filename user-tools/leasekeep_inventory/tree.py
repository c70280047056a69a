"""What is wrong with the entries of an inventory beside each other: names, who stands under whom, credentials."""

from __future__ import annotations

import re
from dataclasses import dataclass
from typing import Iterator

from .findings import Finding, Severity
from .inventory import END_MAX, MAX_DEPTH, MAX_ENTRIES, Entry, Inventory, Kind
from .toml_text import Lines

TOKEN_VALUE = re.compile(r"(hvs|hvb|hvr|s|b)\.[A-Za-z0-9_\-]{8,}", re.ASCII)
"""What the values of Vault's tokens look like."""


def shown(name: str) -> str:
    """The name, unless it might be a token's value."""
    return "(a name like a token's value)" if TOKEN_VALUE.fullmatch(name) else name


@dataclass(frozen=True)
class Row:
    """One table as far as it could be read, None for what could not: the word of its head and its place among those,
    what it is called in messages, its name, the name that it stands under, its secret or lease id where one is written, the
    file where it stands in one, what a renewal asks for, and the entry where the table by itself has no fault."""

    kind: Kind
    head: str
    place: int
    label: str
    name: str | None
    above: str | None
    credential: str | None
    has_credential: bool
    file: str | None
    step: int | None
    entry: Entry | None

    @staticmethod
    def of(entry: Entry) -> Row:
        return Row(entry.kind, entry.kind.value, 0, shown(entry.name), entry.name, entry.parent, entry.credential,
                   entry.credential is not None, None, entry.step, entry)

    @property
    def is_written(self) -> bool:
        """Whether its credential is written, and not the name of a file."""
        return self.has_credential and self.file is None

    @property
    def secret(self) -> str | None:
        """What stands for its credential: the name, where none is written or where it stands in a file; None where that is not
        known."""
        return self.credential if self.is_written else self.name


def judge_rows(rows: list[Row], whole: Inventory, margin: int | None, lines: Lines) -> list[Finding]:
    """The faults of rows beside each other. `whole` has the system's maximum; a margin of None could not be read."""
    return list(_Judge(rows, whole, margin, lines).findings())


def sound_entries(rows: list[Row]) -> tuple[Entry, ...]:
    """The entries without a fault of their own that stand, where under anything, under such an earlier token."""
    found: dict[str, Entry] = {}
    for row in rows:
        entry = row.entry
        if entry is None or entry.name in found:
            continue
        above = found.get(entry.parent or "")
        if entry.parent is None or (above is not None and above.kind is Kind.TOKEN):
            found[entry.name] = entry
    return tuple(found.values())


class _Judge:
    """Goes over the rows in their order, with those before each."""

    def __init__(self, rows: list[Row], whole: Inventory, margin: int | None, lines: Lines) -> None:
        self._rows, self._whole, self._margin, self._lines = rows, whole, margin, lines
        self._first: dict[str, tuple[int, Row]] = {}
        for at, row in enumerate(rows):
            if row.name is not None:
                self._first.setdefault(row.name, (at, row))
        self._depths: dict[str, int] = {}

    def findings(self) -> Iterator[Finding]:
        credentials: dict[tuple[Kind, str], Row] = {}
        for at, row in enumerate(self._rows):
            for key, problem, mend in (*self._alone(at, row), *self._twice(at, row, credentials), *self._above(at, row)):
                line = self._lines.of_key(row.head, row.place, key)
                yield Finding(Severity.FAULT, line, row.label, key, problem, mend)

    def _on(self, row: Row, key: str) -> str:
        """Another row by the line of that key, in words."""
        line = self._lines.of_key(row.head, row.place, key)
        return f"line {line} ({row.label})" if line else row.label

    def _alone(self, at: int, row: Row) -> Iterator[tuple[str, str, str]]:
        step, entry = row.step, row.entry
        if at == MAX_ENTRIES:
            yield "", f"is one more than the {MAX_ENTRIES} entries allowed", "split the inventory"
        if self._margin is not None and step is not None and step <= self._margin:
            key = "period" if entry is not None and entry.period else "increment"
            yield key, f"is not greater than the margin of {self._margin} s", "ask for more, or lower the margin"
        if entry is not None:
            ceiling = self._whole.ceiling(entry, entry.issued, entry.period, entry.explicit_max_ttl)
            if ceiling is not None and ceiling > END_MAX:
                yield "max_ttl", "leads past the last moment", f"write {END_MAX - entry.issued} or less"

    def _twice(self, at: int, row: Row, credentials: dict[tuple[Kind, str], Row]) -> Iterator[tuple[str, str, str]]:
        if row.name is not None and self._first[row.name][0] != at:
            other = self._first[row.name][1]
            yield "name", f"occurs twice: {self._on(other, 'name')} has it too", "rename one of them"
        if row.secret is None:
            return
        other = credentials.setdefault((row.kind, row.secret), row)
        if other is not row and (row.is_written or other.is_written):
            key = "secret" if row.kind is Kind.TOKEN else "lease_id"
            where = self._on(other, key if other.is_written else "name")
            yield key if row.file is None else f"{key}_file", f"occurs twice: {where} has it too", "write each entry once"

    def _above(self, at: int, row: Row) -> Iterator[tuple[str, str, str]]:
        depth = 1
        if row.above is not None:
            key = "token" if row.kind is Kind.LEASE else "parent"
            above = self._first.get(row.above)
            if above is None or above[0] >= at:
                yield key, "names no token above this table", "write that token's table before this one"
            elif above[1].kind is Kind.LEASE:
                yield key, "names a lease", "name the lease's token"
            depth = self._depths.get(row.above, 0) + 1
            if depth == MAX_DEPTH + 1:
                yield key, f"is the {depth}th of its chain", "flatten the tree"
        if row.name is not None:
            self._depths.setdefault(row.name, depth)
