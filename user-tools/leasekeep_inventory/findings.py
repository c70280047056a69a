"""What is wrong, or doubtful, with an inventory: with its place, what is expected and how to mend it."""

from __future__ import annotations

from dataclasses import dataclass
from enum import Enum


class Severity(Enum):
    FAULT = "fault"
    DOUBT = "doubt"


@dataclass(frozen=True)
class Finding:
    """One fault (the inventory cannot be served) or doubt. `line` counts from 1, 0 where the file as a whole is
    meant. The words never hold a secret."""

    severity: Severity
    line: int
    entry: str
    key: str
    problem: str
    mend: str

    def text(self, path: str) -> str:
        """One line as compilers write it."""
        place = path if self.line == 0 else f"{path}:{self.line}"
        subject = " ".join(part for part in (self.entry, self.key) if part)
        return f"{place}: {self.severity.value}: {subject + ': ' if subject else ''}{self.problem}; {self.mend}"
