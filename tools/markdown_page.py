"""Sets a page of docs/ as a man page: its headings, paragraphs, lists, tables and blocks."""

from __future__ import annotations

import re
from collections.abc import Iterator

from roff import roff

_FENCE = re.compile(r"^```")
_LINK = re.compile(r"\[([^\]]*)\]\([^)]*\)")
_MARKED = re.compile(r"\*\*(.+?)\*\*|`([^`]+)`|\*([^*\s][^*]*)\*")


def page(text: str, name: str, purpose: str, see: list[str], version: str) -> str:
    """The page NAME(5) of a document, whose first heading gives way to that name."""
    lines = text.split("\n")[1:]
    body = list(_body(lines))  # (it begins with .PP, as .SH does)
    return "\n".join([
        f'.TH {name.upper()} 5 "" "leasekeep {version}" "File Formats"', ".SH NAME", f"{roff(name)} \\- {roff(purpose)}",
        ".SH DESCRIPTION", *body[1:],
        ".SH SEE ALSO", ", ".join(f"\\fB{roff(other)}\\fR(1)" for other in see),
    ]) + "\n"


def _body(lines: list[str]) -> Iterator[str]:
    """Each line of the page; a paragraph, a list's item and a table's row are one line of the document."""
    header: list[str] | None = None
    is_block = False
    for number, line in enumerate(lines):
        if _FENCE.match(line):
            is_block = not is_block
            yield from [".PP", ".EX"] if is_block else [".EE"]
        elif is_block:
            yield roff(line)
        elif line.startswith("|"):
            cells = _cells(line)
            if header is None:
                header = cells
            elif not all(set(cell) <= set("-: ") for cell in cells):
                yield from _row(header, cells)
        elif line.startswith("#"):
            header = None
            yield f".SH {roff(_plain(line.lstrip('# '))).upper()}"
        elif re.match(r"(- |\d+\. )", line):
            mark, _, words = line.partition(" ")
            yield from [f".IP {roff(mark) if mark != '-' else chr(92) + '(bu'} 3", _set(words)]
        elif line:
            header = None
            yield from [".PP", _set(line)]
        elif number and lines[number - 1].startswith("|"):
            header = None


def _cells(row: str) -> list[str]:
    return [cell.strip().replace("\\|", "|") for cell in re.split(r"(?<!\\)\|", row)[1:-1]]


def _row(header: list[str], cells: list[str]) -> Iterator[str]:
    """A row as an item: its first cell, then the second, and each further one after its heading."""
    yield from [".TP", _set(cells[0]) or "\\&"]
    words = [cells[1], *(f"{head}: {cell}" for head, cell in zip(header[2:], cells[2:], strict=False) if cell)]
    yield _set(". ".join(word for word in words if word)) or "\\&"


def _set(words: str) -> str:
    """The words without links, marked ones in bold or italics."""
    found, at = "", 0
    words = _LINK.sub(lambda link: link[1], words)
    for mark in _MARKED.finditer(words):
        face = "I" if mark[3] else "B"
        inner = roff((mark[1] or mark[2] or mark[3]).replace("`", ""), is_start=False)
        found += roff(words[at : mark.start()], is_start=not found) + f"\\f{face}{inner}\\fR"
        at = mark.end()
    return found + roff(words[at:], is_start=not found)


def _plain(words: str) -> str:
    return _LINK.sub(lambda link: link[1], words).replace("`", "").replace("[[", "").replace("]]", "")
