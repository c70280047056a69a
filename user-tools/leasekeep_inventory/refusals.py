"""Why an inventory that can be read may still not be served."""

from __future__ import annotations

import stat

from .findings import Finding, Severity
from .inventory import Kind
from .inventory_file import Reading

NO_MARGIN = "is not written", "write one of at least 4 times the time-out"


def lacks_margin(reading: Reading) -> bool:
    """Whether the text could be read, and writes no margin, so that nobody has said which outages to survive."""
    return reading.margin is not None and not reading.has_margin


def open_to_others(mode: int) -> list[Finding]:
    """The fault of a file of that mode, if others may read or write it."""
    if mode & (stat.S_IROTH | stat.S_IWOTH):
        return [_fault(0, "", "", f"others may read or write this file (mode {mode:04o})", "chmod o-rwx it: it holds secrets")]
    return []


def without_credential(reading: Reading) -> list[Finding]:
    """The faults of tables without a credential."""
    found = []
    for row in reading.rows:
        if not row.has_credential:
            key = "secret" if row.kind is Kind.TOKEN else "lease_id"
            found.append(_fault(reading.lines.of_key(row.head, row.place, key), row.label, key,
                                "is missing; the entry's name would be sent to Vault as the credential", f"add {key}"))
    return found


def _fault(line: int, label: str, key: str, problem: str, mend: str) -> Finding:
    return Finding(Severity.FAULT, line, label, key, problem, mend)
