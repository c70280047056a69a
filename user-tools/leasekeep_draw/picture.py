"""The chart as an SVG picture: a lane for each entry, wake-ups as lines through all lanes.

Everything is told apart by form, and not by colour alone: a token's life is a bar with round ends and its renewal an upright
stroke, a lease's life is a thinner bar that ends in points and its renewal a diamond; a cross is refused, a ring with a bar is a
lost answer, a triangle is a need that was shortened. Marks that would fall on the same place are drawn as one, with their number.
"""

from __future__ import annotations

from collections.abc import Iterator
from html import escape

from leasekeep_draw import colours, table
from leasekeep_draw.axis import Axis, moment_text
from leasekeep_draw.chart import Chart, Lane
from leasekeep_draw.entries import Kind
from leasekeep_draw.history import Sign

WIDTH = 1080
_MARGIN = 16
_HEAD = 96
_FOOT = 34
_FEW = 60
"""Up to so many lanes are drawn tall."""
_LANES_A_BLOCK = 50
"""Behind so many lanes the moments are written again, so that they are near each lane."""
_HEADING = 24
"""What a heading of a group of lanes takes."""
_FAINTEST = 0.12
_NARROWEST = 2.0
"""A margin that is narrower than this is not drawn."""
_NEAR = 3.2
"""Marks of a kind that are nearer to each other than this are drawn as one."""
_RULES = """
text { font-family: 'DejaVu Sans', 'Segoe UI', Helvetica, Arial, sans-serif; fill: var(--ink); }
.page { fill: var(--page); }
.title { font-size: 17px; font-weight: 600; }
.small { font-size: 11px; fill: var(--faint); }
.heading { font-size: 12px; font-weight: 600; }
.name { font-size: 12px; } .dense .name { font-size: 9.5px; }
.count { font-size: 9px; paint-order: stroke; stroke: var(--page); stroke-width: 2.4px; } .dense .count { font-size: 8px; }
.band { fill: var(--band); }
.life { fill: var(--token); } .lease .life { fill: var(--lease); }
.over { stroke: var(--bad); stroke-width: 1.4; stroke-dasharray: 3 3; fill: none; }
.wake { stroke: var(--wake); stroke-width: 1; fill: none; }
.told { fill: var(--token-mark); } .lease .told { fill: var(--lease-mark); }
.many { stroke: var(--token-mark); stroke-width: 1.2; fill: none; } .lease .many { stroke: var(--lease-mark); }
.bad { stroke: var(--bad); stroke-width: 1.8; fill: none; }
.flag { stroke: var(--ink); stroke-width: 1; fill: var(--flag); }
.margin { fill: var(--flag); }
.ceiling { stroke: var(--ink); stroke-width: 2.4; fill: none; }
"""


class _Layout:
    """Where things stand."""

    def __init__(self, chart: Chart) -> None:
        self.is_dense = len(chart.lanes) > _FEW
        self.lane = 13 if self.is_dense else 26
        size = 5.9 if self.is_dense else 7.4
        longest = max((len(lane.entry.name) + 2 * lane.depth for lane in chart.lanes), default=4)
        self.left = min(_MARGIN + 12 + longest * size, 380)
        self.letters = round((self.left - _MARGIN - 12) / size)
        self.axis = Axis(chart.start, chart.stop, WIDTH - self.left - _MARGIN - 8, chart.is_dated)
        blocks = max(-(-len(chart.lanes) // _LANES_A_BLOCK), 1)
        self._headings = [row for row in range(len(chart.lanes)) if chart.heading(row)]
        self.height = _HEAD + len(chart.lanes) * self.lane + blocks * _FOOT + len(self._headings) * _HEADING + 12

    def x(self, moment: int) -> float:
        return self.left + self.axis.place(moment)

    def y(self, row: int) -> float:
        headings = sum(1 for first in self._headings if first <= row) * _HEADING
        return _HEAD + row * self.lane + (row // _LANES_A_BLOCK) * _FOOT + headings


def svg(chart: Chart) -> str:
    """The whole picture."""
    layout = _Layout(chart)
    parts = [
        f'<svg xmlns="http://www.w3.org/2000/svg" viewBox="0 0 {WIDTH} {layout.height}" width="{WIDTH}" '
        f'height="{layout.height}" role="img" aria-labelledby="title table">',
        f'<title id="title">{escape(chart.title)}</title>',
        f'<desc id="table">{escape(table.text(chart))}</desc>',
        f"<style>{colours.style(_RULES)}</style>",
        f'<rect class="page" width="{WIDTH}" height="{layout.height}"/>',
        f'<text class="title" x="{_MARGIN}" y="28">{escape(chart.title)}</text>',
        f'<text class="small" x="{WIDTH - _MARGIN}" y="28" text-anchor="end">{escape(_span(chart))}</text>',
        *_legend(_margin(chart, layout) > 0),
        *_grid(chart, layout),
        f'<g class="{"dense" if layout.is_dense else "roomy"}">',
    ]
    for row, lane in enumerate(chart.lanes):
        heading = chart.heading(row)
        if heading:
            parts.append(f'<text class="heading" x="{_MARGIN}" y="{layout.y(row) - 8:.1f}">{escape(heading)}</text>')
        parts.extend(_lane(lane, layout, row, chart.is_dated))
    parts.append("</g></svg>")
    return "\n".join(parts) + "\n"


def _span(chart: Chart) -> str:
    return f"{moment_text(chart.start, chart.is_dated)} to {moment_text(chart.stop, chart.is_dated)}"


def _legend(has_margin: bool) -> Iterator[str]:
    """The signs with their words, in two lines."""
    lines = (
        (46, [
            (_life(Kind.TOKEN, 0, -4, 26, 10), 34, "token lives"),
            (_told(Kind.TOKEN, 4, -4, 10), 12, "token renewed"),
            ('<g class="lease">' + _life(Kind.LEASE, 0, -4, 26, 10) + "</g>", 34, "lease lives"),
            ('<g class="lease">' + _told(Kind.LEASE, 5, -4, 10) + "</g>", 14, "lease renewed"),
            ('<path class="wake" d="M3 -10V2"/>', 10, "wake-up"),
            *([('<rect class="margin" fill-opacity="0.5" x="0" y="-10" width="8" height="12"/>', 14, "margin")] if has_margin else []),
            ('<path class="ceiling" d="M3 -10V2"/>', 10, "ceiling"),
        ]),
        (65, [
            (_flag(3, 2, 12), 16, "need"),
            ('<path class="over" d="M0 -4H26"/>', 32, "needed, not alive"),
            (_cross(5, -4, 4), 14, "refused"),
            (_ring(5, -4, 4), 14, "answer lost"),
            (_triangle(5, -4, 4), 14, "need shortened"),
            ('<text class="count" x="0" y="0">×5</text>', 20, "so many in one place"),
        ]),
    )
    for y, signs in lines:
        x = float(_MARGIN)
        for shape, space, words in signs:
            yield f'<g transform="translate({x:.0f} {y})">{shape}<text class="small" x="{space}" y="0">{words}</text></g>'
            x += space + 6.4 * len(words) + 18


def _grid(chart: Chart, layout: _Layout) -> Iterator[str]:
    """The bands behind every second lane, the wake-ups, and the moments above the first and below each block of lanes."""
    count = len(chart.lanes)
    for row in range(0, count, 2):
        yield (
            f'<rect class="band" x="{_MARGIN}" y="{layout.y(row):.1f}" width="{WIDTH - 2 * _MARGIN}" '
            f'height="{layout.lane}"/>'
        )
    bottom = layout.y(count - 1) + layout.lane if count else _HEAD
    places = sorted({round(layout.x(wake) * 2) / 2 for wake in chart.wakes})
    wide = _margin(chart, layout)
    if wide:
        bands = "".join(f"M{place:g} {_HEAD}h{wide:.1f}V{bottom:.0f}h{-wide:.1f}z" for place in places)
        yield f'<path class="margin" fill-opacity="0.25" d="{bands}"/>'
    lines = "".join(f"M{place:g} {_HEAD}V{bottom:.0f}" for place in places)
    yield f'<path class="wake" stroke-opacity="{_faintness(len(places)):g}" d="{lines}"/>'
    ticks = layout.axis.ticks(9)
    rows = [_HEAD - 8.0]
    rows += [
        layout.y(last) + layout.lane + 16
        for last in range(_LANES_A_BLOCK - 1, count + _LANES_A_BLOCK - 1, _LANES_A_BLOCK)
        for last in (min(last, count - 1),)
        if count
    ]
    for y in rows:
        for moment, words in ticks:
            # (near the edge a moment's text is moved as far as it has to be)
            x = min(layout.x(moment), WIDTH - 4 - 3.4 * len(words))
            yield f'<text class="small" x="{x:.1f}" y="{y:.1f}" text-anchor="middle">{escape(words)}</text>'


def _margin(chart: Chart, layout: _Layout) -> float:
    """How wide the margin is that is drawn after each wake-up; 0 where it could not be told from the line."""
    wide = layout.axis.place(chart.start + chart.margin)
    return wide if wide >= _NARROWEST and len(chart.wakes) * wide < WIDTH / 2 else 0.0


def _faintness(lines: int) -> float:
    """How opaque so many lines are: the more there are, the fainter, so that lanes can be read through them."""
    return round(min(0.55, max(_FAINTEST, 14 / max(lines, 1))), 2)


def _lane(lane: Lane, layout: _Layout, row: int, is_dated: bool) -> Iterator[str]:
    top, entry = layout.y(row), lane.entry
    middle = top + layout.lane / 2
    bar = layout.lane * 0.42
    name = "  " * lane.depth + entry.name
    shown = name if len(name) <= layout.letters else name[: layout.letters - 1] + "…"
    yield f'<g class="{entry.kind.value}"><title>{escape(_words(lane, is_dated))}</title>'
    yield (
        f'<text class="name" xml:space="preserve" x="{_MARGIN + 4}" y="{middle + layout.lane * 0.16:.1f}">'
        f"{escape(shown)}</text>"
    )
    begin, end = layout.x(lane.begin), layout.x(lane.end)
    if lane.is_told:
        yield _life(entry.kind, begin, middle, max(end - begin, 0.5), bar)
    if lane.falls_short:
        yield f'<path class="over" d="M{end:.1f} {middle:.1f}H{layout.x(lane.needed):.1f}"/>'
    if entry.ceiling is not None and entry.ceiling <= layout.axis.stop:
        yield f'<path class="ceiling" d="M{layout.x(entry.ceiling):.1f} {top + 2:.1f}v{layout.lane - 4}"/>'
    if layout.axis.start < lane.need <= layout.axis.stop:
        yield _flag(layout.x(lane.need), top + layout.lane - 2, layout.lane - 3)
    yield from _marks(lane, layout, middle)
    yield "</g>"


def _marks(lane: Lane, layout: _Layout, middle: float) -> Iterator[str]:
    """Each mark; those of one sign that fall on one place, or run into each other, as one with their number."""
    size = max(layout.lane * 0.19, 3.6)
    for sign in Sign:
        # (a shortened need stands beside what shortened it, which mostly has the same moment)
        aside = 2.6 * size if sign is Sign.SHORT else 0
        places = sorted(layout.x(mark.moment) + aside for mark in lane.marks if mark.sign is sign)
        near = _NEAR if sign is Sign.RENEWED else 2 * size
        for cluster in _clusters(places, near):
            yield from _cluster(lane.entry.kind, sign, cluster, middle, layout.lane)


def _clusters(places: list[float], near: float) -> Iterator[list[float]]:
    """The places, in groups in which each is nearer than that to the one before it."""
    cluster: list[float] = []
    for place in places:
        if cluster and place - cluster[-1] >= near:
            yield cluster
            cluster = []
        cluster.append(place)
    if cluster:
        yield cluster


def _cluster(kind: Kind, sign: Sign, places: list[float], middle: float, lane: float) -> Iterator[str]:
    first, last = places[0], places[-1]
    yield _sign(kind, sign, first, middle, lane)
    if len(places) == 1:
        return
    if last - first >= 1:
        stroke = "many" if sign is Sign.RENEWED else "bad"
        yield f'<path class="{stroke}" d="M{first:.1f} {middle:.1f}H{last:.1f}"/>' + _sign(kind, sign, last, middle, lane)
    x, y = (first + last) / 2, middle - lane * 0.2
    yield f'<text class="count" x="{x:.1f}" y="{y:.1f}" text-anchor="middle">×{len(places):,}</text>'


def _sign(kind: Kind, sign: Sign, x: float, middle: float, lane: float) -> str:
    size = max(lane * 0.19, 3.6)
    match sign:
        case Sign.RENEWED:
            return _told(kind, x, middle, lane * 0.5)
        case Sign.REFUSED:
            return _cross(x, middle, size)
        case Sign.LOST:
            return _ring(x, middle, size)
        case Sign.SHORT:
            return _triangle(x, middle, size)


def _words(lane: Lane, is_dated: bool) -> str:
    """What the lane shows, in words."""
    entry = lane.entry
    need = ", needed always" if entry.need is None else f", needed until {moment_text(entry.need, is_dated)}" if entry.need else ""
    life = f"lives until {moment_text(lane.end, is_dated)}" if lane.is_told else "no end is told"
    return (
        f"{entry.name}: {life}{need}; "
        + ", ".join(f"{lane.count(sign)} × {sign.value}" for sign in Sign if lane.count(sign))
    ).rstrip("; ")


def _life(kind: Kind, x: float, y: float, width: float, height: float) -> str:
    """A token's life has round ends, a lease's is thinner and ends in points."""
    if kind is Kind.TOKEN:
        return f'<rect class="life" x="{x:.1f}" y="{y - height / 2:.1f}" width="{width:.1f}" height="{height:.1f}" rx="{height * 0.3:.1f}"/>'
    half = height * 0.3
    point = min(half * 1.6, width / 2)
    return (
        f'<path class="life" d="M{x:.1f} {y:.1f}l{point:.1f} {-half:.1f}H{x + width - point:.1f}l{point:.1f} {half:.1f}'
        f'l{-point:.1f} {half:.1f}H{x + point:.1f}z"/>'
    )


def _told(kind: Kind, x: float, y: float, height: float) -> str:
    """A token's renewal is an upright stroke, a lease's a diamond."""
    if kind is Kind.TOKEN:
        return f'<rect class="told" x="{x - 1.2:.1f}" y="{y - height / 2:.1f}" width="2.4" height="{height:.1f}"/>'
    half, wide = height / 2, min(height * 0.3, 3.4)
    return f'<path class="told" d="M{x:.1f} {y - half:.1f}l{wide:.1f} {half:.1f}l{-wide:.1f} {half:.1f}l{-wide:.1f} {-half:.1f}z"/>'


def _cross(x: float, y: float, r: float) -> str:
    return f'<path class="bad" d="M{x - r:.1f} {y - r:.1f}l{2 * r:.1f} {2 * r:.1f}m0 {-2 * r:.1f}l{-2 * r:.1f} {2 * r:.1f}"/>'


def _ring(x: float, y: float, r: float) -> str:
    return (
        f'<circle class="bad" cx="{x:.1f}" cy="{y:.1f}" r="{r:.1f}"/>'
        f'<path class="bad" d="M{x - r:.1f} {y:.1f}h{2 * r:.1f}"/>'
    )


def _triangle(x: float, y: float, r: float) -> str:
    return f'<path class="bad" d="M{x - r:.1f} {y - r * 0.8:.1f}h{2 * r:.1f}l{-r:.1f} {1.7 * r:.1f}z"/>'


def _flag(x: float, y: float, height: float) -> str:
    wide = height * 0.5
    return f'<path class="flag" d="M{x:.1f} {y:.1f}v{-height:.1f}l{wide:.1f} {height * 0.22:.1f}l{-wide:.1f} {height * 0.22:.1f}"/>'
