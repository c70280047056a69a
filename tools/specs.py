"""Reads the comments and the citations of the crates: of a file of specs/ its definitions, of a file of src/ what contracts cite."""

from __future__ import annotations

import re
from dataclasses import dataclass
from pathlib import Path

TOP = Path(__file__).resolve().parent.parent
_GHOST = re.compile(r"ghost use Rattle\.(\w+)\.specs\.([\w.]+)\.\{([^}]*)\};")
_NO_BODY = re.compile(r" ?(?:Each(?: law)? is|The laws? (?:is|are)|The) (?:the )?contract of (?:a public function|public functions) without a body\.")
_PUBLIC = re.compile(r"(?:(?:abbrev|unfoldable|opaque|irreducible) pub|pub (?:record|data)) ([A-Za-z_◌]\S*)")

Name = tuple[str, str, str]
"""Crate, file of specs/ and word."""


@dataclass(frozen=True)
class Spec:
    """What the comments of a file of specs/ say: of the file (`about`), where that comes from (`source`), and of each public
    definition that has a comment."""

    name: str
    about: str
    source: str
    words: list[tuple[str, str]]


def crates() -> list[str]:
    """The crates in the order of crates.txt: each after those that it stands on."""
    return re.findall(r"^(\w+):", (TOP / "crates.txt").read_text(encoding="utf-8"), re.M)


def cited(text: str) -> dict[str, Name]:
    """Each word that a source has from some specs/, and where it comes from."""
    found: dict[str, Name] = {}
    for crate, module, words in _GHOST.findall(text):
        for word in words.split(","):
            name, _, other = word.strip().partition(" as ")
            found[other or name] = (crate, module, name)
    return found


def specs(crate: str) -> list[Spec]:
    """The files of a crate's specs/, without specs/code/, which no public contract needs."""
    files = sorted((TOP / "crates" / crate / "specs").glob("*.antt"))
    return [_read(file) for file in files if file.stem not in ("Lib", "code")]


def _read(file: Path) -> Spec:
    lines = file.read_text(encoding="utf-8").splitlines()
    count = next((number for number, line in enumerate(lines) if not line.startswith("--")), len(lines))
    about, _, source = _joined(lines[:count]).partition("Source: ")
    words: list[tuple[str, str]] = []
    comment: list[str] = []
    for line in lines[count:]:
        if line.lstrip().startswith("--"):
            comment.append(line)
            continue
        if (head := _PUBLIC.match(line.lstrip())) and comment:
            words.append((head[1], _joined(comment)))
        comment = []
    about = _NO_BODY.sub("", about.removeprefix(f"{file.stem}: ")).strip()
    return Spec(file.stem, about, source, words)


def _joined(comment: list[str]) -> str:
    """The words of a comment; a line of dashes with a heading is none of it."""
    return " ".join(word for line in comment if "-- ----" not in line for word in line.strip().removeprefix("--").split())
