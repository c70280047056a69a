"""Reads the text of an inventory, and tells every fault in it with its line."""

from __future__ import annotations

import re
from dataclasses import dataclass, field
from functools import cached_property
from typing import Any, Iterator

from .durations import DURATION_TEXT, INCREMENT_TEXT, MARGIN_TEXT, NEED, SYSTEM_MAX_TEXT
from .findings import Finding, Severity
from .inventory import END_MAX, SYSTEM_MAX, Entry, Inventory, Kind
from .rfc3339 import LAST
from .toml_text import Lines, SyntaxFault, decoded, parsed
from .tree import Row, judge_rows, shown, sound_entries
from .values import ABOVE, CREDENTIAL_FORM, FILE_FORM, FLAG, NAME, NAME_FORM, Form, moment, tables

LIMIT = 1 << 20
_COMMON = ("name", "issued", "end", "renewable", "increment", "max_ttl", "reissued", "need")
KEYS = {
    Kind.TOKEN: (*_COMMON, "parent", "period", "explicit_max_ttl", "secret", "secret_file"),
    Kind.LEASE: (*_COMMON, "token", "lease_id", "lease_id_file"),
}
TOP = ("system_max", "margin", "token", "lease")
ABSENT_INCREMENT = 3600
"""What is asked for where neither an increment nor a period is written."""
ABSENT_MARGIN = 1
"""The margin of the commands that plan, where none is written. Nothing is served without one."""


@dataclass
class Reading:
    """An inventory as far as it could be read, and every fault on the way.

    `inventory` is there where nothing is at fault; `rows` are its tables as far as each could be read, `sound` the
    entries that are good by themselves and under good ones, `margin` is None where it could not be read; `has_margin` is whether
    one is written.
    """

    inventory: Inventory | None = None
    sound: Inventory = field(default_factory=Inventory)
    rows: list[Row] = field(default_factory=list)
    margin: int | None = None
    has_margin: bool = False
    lines: Lines = field(default_factory=Lines)
    findings: list[Finding] = field(default_factory=list)

    @property
    def faults(self) -> list[Finding]:
        return [finding for finding in self.findings if finding.severity is Severity.FAULT]

    @cached_property
    def _by_name(self) -> dict[str, Row]:
        return {row.name: row for row in reversed(self.rows) if row.name is not None}

    def line_of(self, name: str, key: str) -> int:
        """The line of the key of the entry of that name, of the top level where the name is empty."""
        row = self._by_name.get(name) if name else None
        return self.lines.of_key(row.head, row.place, key) if row else self.lines.of_key("", 0, key)

    def row(self, name: str) -> Row | None:
        """The first table of that name."""
        return self._by_name.get(name)

    def lacks(self, name: str, key: str) -> bool:
        """Whether the table of the entry of that name, with a head of its own, has no such key."""
        row = self._by_name.get(name)
        return (row is not None and (row.head, row.place) in self.lines.tables
                and (row.head, row.place, key) not in self.lines.keys)


class _Table:
    """One table of the file, its keys taken one by one."""

    def __init__(self, reading: Reading, head: str, place: int, kind: Kind | None, values: dict[str, Any]) -> None:
        self.reading, self.values = reading, values
        self.head, self.place = head, place
        named = values.get("name")
        if isinstance(named, str) and NAME.fullmatch(named):
            self.label = shown(named)
        else:
            self.label = f"{kind.value} {place + 1}" if kind else ""

    def fault(self, key: str, problem: str, mend: str) -> None:
        line = self.reading.lines.of_key(self.head, self.place, key)
        self.reading.findings.append(Finding(Severity.FAULT, line, self.label, key, problem, mend))

    def unknown(self, known: tuple[str, ...]) -> None:
        """A fault for each key that is none of these."""
        for key in self.values:
            if key not in known:
                shown_key = key if NAME.fullmatch(key) else "?"
                self.fault(shown_key, "is not a key of this table", f"the keys are {', '.join(known)}")

    def take(self, key: str, form: Form, absent: Any = None, must: bool = False) -> Any:
        """The key's value as the form reads it; a fault, and `absent`, where it is missing or no such value."""
        if key not in self.values:
            if must:
                self.fault(key, "is missing", f"add {key}: {form.expected}")
            return absent
        value = form.read(self.values[key])
        if value is None:
            self.fault(key, f"is not {form.expected}", form.mend(self.values[key]))
        return absent if value is None else value


def read_inventory(data: bytes) -> Reading:
    """The inventory that the bytes write as `leasekeep serve` takes it, with every fault."""
    reading = Reading()
    top = _document(data, reading)
    if top is None:
        return reading
    table = _Table(reading, "", 0, None, top)
    _unknown_tops(table)
    system_max = table.take("system_max", SYSTEM_MAX_TEXT)
    margin = table.take("margin", MARGIN_TEXT)
    reading.has_margin = "margin" in top
    reading.margin = margin if reading.has_margin else ABSENT_MARGIN
    reading.rows = list(_rows(table))
    whole = Inventory((), reading.margin or 1, system_max or SYSTEM_MAX)
    reading.findings += judge_rows(reading.rows, whole, reading.margin, reading.lines)
    reading.sound = Inventory(sound_entries(reading.rows), whole.margin, whole.system_max)
    reading.inventory = None if reading.faults else reading.sound
    return reading


def judge(inventory: Inventory) -> list[Finding]:
    """The faults of an inventory's tree."""
    rows = [Row.of(entry) for entry in inventory.entries]
    return judge_rows(rows, inventory, inventory.margin, Lines())


def _document(data: bytes, reading: Reading) -> dict[str, Any] | None:
    def fault(line: int, problem: str, mend: str) -> None:
        reading.findings.append(Finding(Severity.FAULT, line, "", "", problem, mend))
    if len(data) > LIMIT:
        fault(0, f"the file is over {LIMIT} bytes", "split the inventory")
        return None
    try:
        text = decoded(data)
    except UnicodeDecodeError as error:
        fault(data[:error.start].count(b"\n") + 1, "the file is not UTF-8", "save it as UTF-8")
        return None
    reading.lines = Lines.of(text)
    top = parsed(text, reading.lines)
    if isinstance(top, SyntaxFault):
        fault(top.line, top.problem, top.mend)
        return None
    return top


def _unknown_tops(table: _Table, known: tuple[str, ...] = TOP) -> None:
    for key, value in table.values.items():
        if key not in known:
            is_table = isinstance(value, (list, dict))
            label = (f"[[{key}]]" if is_table else key) if re.fullmatch(r"[A-Za-z0-9_-]{1,32}", key) else "?"
            line = table.reading.lines.of_top(key)
            problem = "is not a table of an inventory" if is_table else "is not a key of the top level"
            mend = "the tables are [[token]] and [[lease]]" if is_table else f"the keys are {', '.join(known)}"
            table.reading.findings.append(Finding(Severity.FAULT, line, "", label, problem, mend))


def _rows(table: _Table) -> Iterator[Row]:
    """All tokens, then all leases."""
    for kind in Kind:
        for place, values in enumerate(_tables_of(table, kind)):
            yield _row(_Table(table.reading, kind.value, place, kind, values), kind)


def _tables_of(table: _Table, kind: Kind) -> list[dict[str, Any]]:
    value = table.values.get(kind.value, [])
    form = tables(kind.value)
    found = form.read(value)
    if found is None:
        line = table.reading.lines.of_top(kind.value)
        table.reading.findings.append(
            Finding(Severity.FAULT, line, "", kind.value, f"is not {form.expected}", form.mend(value)))
    is_one = isinstance(value, dict) and not all(isinstance(item, dict) for item in value.values())
    return found or ([value] if is_one else [])


def _row(table: _Table, kind: Kind) -> Row:
    before = len(table.reading.findings)
    is_token = kind is Kind.TOKEN
    key = "secret" if is_token else "lease_id"
    file_key = f"{key}_file"
    table.unknown(KEYS[kind])
    name = table.take("name", NAME_FORM, must=True)
    above = table.take("parent" if is_token else "token", ABOVE, must=not is_token)
    issued = table.take("issued", moment(LAST), 0, must="end" in table.values)
    end = table.take("end", moment(END_MAX), 0, must="issued" in table.values)
    renewable = table.take("renewable", FLAG, True)
    period = table.take("period", DURATION_TEXT, 0) if is_token else 0
    increment = table.take("increment", INCREMENT_TEXT)
    if not period and "increment" not in table.values:
        increment = ABSENT_INCREMENT
    max_ttl = table.take("max_ttl", DURATION_TEXT)
    explicit = table.take("explicit_max_ttl", DURATION_TEXT, 0) if is_token else 0
    reissued = table.take("reissued", FLAG, False)
    need = table.take("need", NEED, 0)
    credential = table.take(key, CREDENTIAL_FORM)
    has_credential = key in table.values
    file = None
    if file_key in table.values:
        file = table.take(file_key, FILE_FORM)
        if has_credential:
            table.fault(file_key, f"stands beside {key}", "write one of the two")
        has_credential = True
    entry = None
    if len(table.reading.findings) == before:
        entry = Entry(name, kind, above, issued, end, renewable, increment, period, max_ttl, explicit, need, credential, file, reissued)
    step = period or increment
    return Row(kind, table.head, table.place, table.label, name, above, credential, has_credential, file, step, entry)
