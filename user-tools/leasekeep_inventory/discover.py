"""`leasekeep-inventory draft`: fills what lookups at the broker tell into a list of entries, and keeps everything else of its text.

The list is an inventory as it is served. A lookup tells `issued`, `end` and `renewable`, of a token also `period` and
`explicit_max_ttl` and whether it is an orphan; and an `increment` that is not written is what the entry was issued for.
"""

from __future__ import annotations

import codecs
import math
from dataclasses import dataclass, replace
from pathlib import Path
from typing import Any, Callable

from .broker import Broker, Facts, Verdict
from .filling import Moment, Page, Value
from .findings import Finding, Severity
from .inventory import Entry, Inventory, Kind
from .inventory_file import Reading, judge, read_inventory
from .refusals import NO_MARGIN, lacks_margin, open_to_others, without_credential
from .secret_files import SecretFault, read_secret
from .toml_text import decoded
from .tree import shown


class DiscoverFault(Exception):
    """A list that leads to no inventory: its findings say why, each with its line, and hold no secret."""

    def __init__(self, findings: list[Finding]) -> None:
        super().__init__("\n".join(finding.text("list") for finding in findings))
        self.findings = sorted(findings, key=lambda finding: finding.line)


@dataclass(frozen=True)
class Listed:
    """A list without a fault: its bytes, its reading, and its inventory with what its files of secrets hold."""

    data: bytes
    reading: Reading
    inventory: Inventory

    def finding(self, severity: Severity, name: str, key: str, problem: str, mend: str) -> Finding:
        return Finding(severity, self.reading.line_of(name, key), shown(name), key, problem, mend)


@dataclass(frozen=True)
class Filled:
    """The text of the list with what was told, and what is doubtful about it."""

    data: bytes
    doubts: list[Finding]


def read_list(data: bytes, mode: int, folder: Path) -> Listed:
    """The list that the bytes write; DiscoverFault where it is faulty, or where others may read or write it. Files of secrets are
    below the folder."""
    reading = read_inventory(data)
    faults = reading.faults + open_to_others(mode) + without_credential(reading)
    secrets = dict[str, str]()
    for entry in reading.sound.entries:
        if entry.credential_file is not None:
            try:
                secrets[entry.name] = read_secret(folder / entry.credential_file)
            except SecretFault as fault:
                key = "secret_file" if entry.kind is Kind.TOKEN else "lease_id_file"
                faults.append(Finding(Severity.FAULT, reading.line_of(entry.name, key), shown(entry.name), key, str(fault),
                                      "write the secret into it, or correct the path"))
    if faults or reading.inventory is None:
        raise DiscoverFault(faults)
    inventory = reading.inventory.mapped(lambda entry: replace(entry, credential=secrets.get(entry.name, entry.credential)))
    return Listed(data, reading, inventory)


async def discover(broker: Broker, wall: Callable[[], float], listed: Listed) -> Filled:
    """The list with what each lookup tells; DiscoverFault where one fails, or where what is told makes a faulty inventory. `wall`
    reads the wall clock."""
    faults, doubts = list[Finding](), list[Finding]()
    if lacks_margin(listed.reading):
        doubts.append(Finding(Severity.DOUBT, 0, "", "margin", *NO_MARGIN))
    told = dict[str, dict[str, Value]]()
    for entry in listed.inventory.entries:
        key = "secret" if entry.kind is Kind.TOKEN else "lease_id"
        heard = await broker.look_up(listed.inventory, entry)
        if heard.verdict is not Verdict.GOOD or heard.facts is None:
            mend = "issue it afresh, or take it out" if heard.verdict is Verdict.REFUSED else "look at the broker or the proxy"
            faults.append(listed.finding(Severity.FAULT, entry.name, key, f"its lookup: {heard.why}", mend))
        elif heard.facts.never_ends:
            faults.append(listed.finding(Severity.FAULT, entry.name, key, "never ends (ttl 0) and needs no keeping",
                                         "take it out, and write its children without a parent"))
        else:
            told[entry.name] = _told(listed, entry, heard.facts, wall())
            doubts += _doubts(listed, entry, heard.facts)
    if faults:
        raise DiscoverFault(faults)
    assert listed.reading.inventory is not None
    expected = listed.reading.inventory.mapped(lambda entry: _with(entry, told[entry.name], listed.reading))
    faults = [replace(fault, line=listed.reading.line_of(fault.entry, fault.key)) for fault in judge(expected)]
    if faults:
        raise DiscoverFault(faults)
    return Filled(_written(listed, told, expected), doubts)


def _told(listed: Listed, entry: Entry, facts: Facts, now: float) -> dict[str, Value]:
    """What is to be written anew: each key whose value is another one, or which is not written."""
    end = math.floor(now) + facts.ttl
    told: dict[str, Value] = {}
    if entry.lacks_terms or entry.issued != facts.issued:
        told["issued"] = Moment(facts.issued)
    if entry.lacks_terms or entry.end != end:
        told["end"] = Moment(end)
    if entry.renewable != facts.renewable:
        told["renewable"] = facts.renewable
    if not facts.period and listed.reading.lacks(entry.name, "increment"):
        told["increment"] = facts.whole_ttl(now, listed.inventory.max_ttl_of(entry))
    if entry.period != facts.period:
        told["period"] = facts.period
    if entry.explicit_max_ttl != facts.explicit_max:
        told["explicit_max_ttl"] = facts.explicit_max
    if facts.orphan and entry.kind is Kind.TOKEN and entry.parent is not None:
        told["parent"] = None
    return told


def _with(entry: Entry, told: dict[str, Value], reading: Reading) -> Entry:
    """The entry as it has to be read once that is written."""
    changes: dict[str, Any] = {key: value.seconds if isinstance(value, Moment) else value for key, value in told.items()}
    if "increment" not in changes and reading.lacks(entry.name, "increment"):
        changes["increment"] = None
    return replace(entry, **changes)


def _doubts(listed: Listed, entry: Entry, facts: Facts) -> list[Finding]:
    def doubt(key: str, problem: str, mend: str) -> Finding:
        return listed.finding(Severity.DOUBT, entry.name, key, problem, mend)
    doubts = []
    if facts.orphan and entry.parent is not None and entry.kind is Kind.TOKEN:
        doubts.append(doubt("parent", f"is {shown(entry.parent)}, and the broker says that it is an orphan", "the line is left out"))
    if entry.max_ttl is None and not facts.period:
        doubts.append(doubt("max_ttl", "is not written, and no lookup tells it", "write that of its role or its mount, unless it is system_max"))
    if not facts.renewable:
        doubts.append(doubt("renewable", "the broker says that it cannot be renewed", "issue it afresh before its end"))
    return doubts


def _written(listed: Listed, told: dict[str, dict[str, Value]], expected: Inventory) -> bytes:
    """The text with all of that; DiscoverFault where it would not be read as what is expected."""
    page, faults = Page(decoded(listed.data), listed.reading.lines), list[Finding]()
    for name, values in told.items():
        row = listed.reading.row(name)
        if row is None or not page.write(row.head, row.place, values):
            faults.append(_unwritable(listed, name))
    data = (codecs.BOM_UTF8 if listed.data.startswith(codecs.BOM_UTF8) else b"") + page.text.encode()
    if not faults:
        again = read_inventory(data)
        found = {entry.name: entry for entry in again.sound.entries}
        faults = [_unwritable(listed, entry.name) for entry in expected.entries if found.get(entry.name) != entry]
        faults = faults or again.faults
    if faults:
        raise DiscoverFault(faults)
    return data


def _unwritable(listed: Listed, name: str) -> Finding:
    return listed.finding(Severity.FAULT, name, "", "is written in a way that nothing can be filled into",
                          "write its table under a head of its own, and each key on a line of its own")
