"""Pictures of boxes and lines as SVG, in the colours of leasekeep-draw: what tools/crates-picture and tools/why-picture share."""

from __future__ import annotations

import sys
from dataclasses import dataclass
from html import escape
from pathlib import Path

sys.path.insert(0, str(Path(__file__).resolve().parents[1] / "user-tools"))

from leasekeep_draw import colours  # noqa: E402 (the folder has to be known first)

_RULES = """
text { font-family: 'DejaVu Sans', 'Segoe UI', Helvetica, Arial, sans-serif; fill: var(--ink); }
.page { fill: var(--page); }
.title { font-size: 17px; font-weight: 600; }
.small { font-size: 11px; fill: var(--faint); }
.name { font-size: 13px; font-weight: 600; }
.inside { font-size: 11px; }
.proved { fill: var(--token); stroke: var(--token-mark); stroke-width: 1; }
.program { fill: var(--lease); stroke: var(--lease-mark); stroke-width: 2.4; }
.tested { fill: var(--band); stroke: var(--wake); stroke-width: 1.4; stroke-dasharray: 4 3; }
.trusted { fill: var(--page); stroke: var(--ink); stroke-width: 1.4; }
.line { stroke: var(--wake); stroke-width: 1.4; fill: none; }
.head { fill: var(--wake); }
.bad { stroke: var(--bad); stroke-width: 2; fill: none; }
.flag { fill: var(--flag); stroke: var(--ink); stroke-width: 1; }
.bar { stroke: var(--token-mark); stroke-width: 1.6; fill: none; }
.margin { fill: var(--flag); }
"""


@dataclass(frozen=True)
class Box:
    """A box about its middle: its kind is a class of the style, and tells it apart by the form of its border too."""

    kind: str
    x: float
    y: float
    width: float
    height: float

    def shape(self) -> str:
        return (
            f'<rect class="{self.kind}" x="{self.x - self.width / 2:.1f}" y="{self.y - self.height / 2:.1f}" '
            f'width="{self.width:.1f}" height="{self.height:.1f}" rx="6"/>'
        )

    def svg(self, name: str, lines: list[str], hint: str = "") -> str:
        """The box with its name, and smaller lines below it; the hint is what a reader is told who points at it."""
        top = self.y + 5 - 7.5 * len(lines)
        words = [text(self.x, top, name, "name", "middle")]
        words += [text(self.x, top + 15 * place, line, "inside", "middle") for place, line in enumerate(lines, 1)]
        return f"<g>{f'<title>{escape(hint)}</title>' if hint else ''}{self.shape()}{''.join(words)}</g>"


def text(x: float, y: float, words: str, kind: str = "small", anchor: str = "start") -> str:
    """A line of text; `anchor` is `start`, `middle` or `end`."""
    return f'<text class="{kind}" x="{x:.1f}" y="{y:.1f}" text-anchor="{anchor}">{escape(words)}</text>'


def page(title: str, description: str, width: float, height: float, parts: list[str]) -> str:
    """The whole picture, with its title and a description for readers who cannot see it."""
    return "\n".join([
        f'<svg xmlns="http://www.w3.org/2000/svg" viewBox="0 0 {width:.0f} {height:.0f}" width="{width:.0f}" height="{height:.0f}" '
        'role="img" aria-labelledby="title words">',
        f'<title id="title">{escape(title)}</title>',
        f'<desc id="words">{escape(description)}</desc>',
        f"<style>{colours.style(_RULES)}</style>",
        f'<rect class="page" width="{width:.0f}" height="{height:.0f}"/>',
        text(16, 28, title, "title"),
        *parts,
        "</svg>",
    ]) + "\n"
