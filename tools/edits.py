"""What the tools share that try wrong bodies: edits, and the function that an edit changes.

An edit is a file of `crates/NAME/must-fail/` or `crates/NAME/also-fail/` with a line `file: src/what.rt` and then pairs
of lines `old: TEXT` and `new: TEXT`; each old text stands once in that file. One that changes anything outside functions, as a
constant, or a function of an impl for a type with types in it, says in a line `refuses: FUNCTION` which one cannot be proved with it.
"""

from __future__ import annotations

import re
from dataclasses import dataclass
from pathlib import Path

TOP = Path(__file__).resolve().parent.parent
FOLDERS = ("must-fail", "also-fail")
"""The gate's own command tries those of the first folder, each in a check of its own; tools/wrong-bodies tries many in one check."""

HEADER = re.compile(r"^( *)(?:pub(?:\([^)]*\))? )?(?:const )?fn (\w+)", re.M)
OWNER = re.compile(r"^(?:pub )?impl(?:<(?:[^<>]|<[^<>]*>)*>)? (?:(?:\w+::)*(\w+)(?:<(\w+).*?>)? for )?(?:\w+::)*(\w+)", re.M)


class BadEdit(Exception):
    """The edit cannot be made; the text says why."""


@dataclass(frozen=True)
class Change:
    """One text instead of another in a file, by its path in the crate."""

    file: str
    old: str
    new: str


@dataclass(frozen=True)
class Edit:
    """A wrong body of a crate."""

    path: Path
    changes: tuple[Change, ...]
    refuses: str | None

    @property
    def crate(self) -> Path:
        """The crate's folder."""
        return TOP / "crates" / self.path.relative_to(TOP / "crates").parts[0]

    def __str__(self) -> str:
        return str(self.path.relative_to(TOP / "crates").with_suffix(""))

    def made(self, texts: dict[str, str]) -> dict[str, str]:
        """These files, by their paths, with the edit made too; the crate's own text stands for one that is not among them."""
        texts = dict(texts)
        for change in self.changes:
            text = texts[change.file] if change.file in texts else text_of(self.crate / change.file)
            if text.count(change.old) != 1:
                raise BadEdit(f"{text.count(change.old)} times in {change.file}: {change.old}")
            texts[change.file] = text.replace(change.old, change.new)
        return texts

    def functions(self) -> set[str]:
        """The functions that it changes, by the ends of the names that the prover gives them; none where it changes something else too."""
        found = set()
        for change in self.changes:
            text = text_of(self.crate / change.file)
            name = function_at(text, text.find(change.old))
            if name is None:
                return set()
            # (a method has the path of its type, which may stand in another file)
            module = Path(change.file).stem
            found.add(name if "::" in name or module in ("lib", "main") else f"{module}::{name}")
        return found


def text_of(file: Path) -> str:
    try:
        return file.read_text(encoding="utf-8")
    except OSError as error:
        raise BadEdit(f"no file {file.name}") from error


def read_edit(path: Path) -> Edit:
    """The edit of that file."""
    changes: list[Change] = []
    file = old = refuses = None
    for line in path.read_text(encoding="utf-8").splitlines():
        word, _, text = line.partition(":")
        text = text.removeprefix(" ")
        if word == "file":
            file = text
        elif word == "old" and file is not None:
            old = text
        elif word == "new" and file is not None and old:
            changes.append(Change(file, old, text))
            old = None
        elif word == "refuses":
            refuses = text
        elif line.strip():
            raise BadEdit(f"unknown line: {line}")
    if old is not None or not changes:
        raise BadEdit("no pair of lines `old: ..` and `new: ..`")
    return Edit(path, tuple(changes), refuses)


def edits_of(crate: Path) -> list[Path]:
    """The files of a crate's edits, in order."""
    return [path for folder in FOLDERS for path in sorted((crate / folder).glob("*.edit"))]


def function_at(text: str, place: int) -> str | None:
    """The function in whose text that place of a formatted file stands: `name`, `Type::name`, or of an impl of a trait
    `TypeTrait::name`, with the trait's parameter after it; None where it stands in none."""
    found = None
    for header in HEADER.finditer(text, 0, text.find("\n", place)):
        end = text.find(f"\n{header[1]}}}\n", header.end())
        if header.start() <= place <= end:
            found = header
    if found is None:
        return None
    owners = OWNER.findall(text[: found.start()]) if found[1] else []
    if not owners:
        return found[2]
    trait, parameter, of = owners[-1]
    return f"{of}{trait}{parameter}::{found[2]}"
