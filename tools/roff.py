"""Texts as troff takes them."""

from __future__ import annotations


def roff(text: str, is_start: bool = True) -> str:
    """Lines as they are: nothing of them is a request. `is_start` says whether the text begins a line."""
    escaped = text.replace("\\", "\\e").replace("-", "\\-").replace("`", "\\(ga").replace("'", "\\(aq").replace("~", "\\(ti")
    lines = ["\\&" + line if line[:1] in (".", "'") else line for line in escaped.split("\n")]
    return "\n".join(lines) if is_start else escaped
