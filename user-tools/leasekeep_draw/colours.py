"""The colours of a picture, by day and by night, and styles that show outside browsers too.

A browser reads `fill: var(--ink)`. Most other programs that show an SVG (previews, mail, converters) know no variables and would
fill with black. So each such declaration comes after one with the literal colour of the light page.
"""

from __future__ import annotations

import re

LIGHT = {
    "page": "#ffffff", "ink": "#1b2733", "faint": "#4a5a68", "band": "#f3f6f8", "token": "#8fb8d8", "token-mark": "#1b4e79",
    "lease": "#b9d7b0", "lease-mark": "#2f6b25", "wake": "#7d8c99", "bad": "#a23b2a", "flag": "#e5a823",
}
DARK = {
    "page": "#0d1117", "ink": "#e3e9ee", "faint": "#9fb0bf", "band": "#161d26", "token": "#2f5f86", "token-mark": "#a9d4f5",
    "lease": "#3c6334", "lease-mark": "#b9e3ac", "wake": "#8b9aa8", "bad": "#ff8f7a", "flag": "#e5a823",
}
_USE = re.compile(r"([\w-]+): var\(--([\w-]+)\)")


def style(rules: str) -> str:
    """A style sheet of these rules: the variables, by day and by night, and a literal colour before each use of one."""
    with_literals = _USE.sub(lambda use: f"{use[1]}: {LIGHT[use[2]]}; {use[0]}", rules.strip("\n"))
    return f"\nsvg {{ {_variables(LIGHT)} }}\n@media (prefers-color-scheme: dark) {{\n  svg {{ {_variables(DARK)} }}\n}}\n{with_literals}\n"


def _variables(colours: dict[str, str]) -> str:
    return " ".join(f"--{name}: {colour};" for name, colour in colours.items())
