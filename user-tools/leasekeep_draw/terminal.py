"""The chart for a terminal: a row for each lane, as wide as asked for."""

from __future__ import annotations

import textwrap
from collections import Counter
from collections.abc import Iterator
from dataclasses import dataclass

from leasekeep_draw.axis import Axis
from leasekeep_draw.chart import Chart, Lane
from leasekeep_draw.entries import Kind
from leasekeep_draw.history import Mark, Sign

NARROWEST = 40
MORE = "+"
"""Stands for ten renewals and more in one place."""


@dataclass(frozen=True)
class Signs:
    """One character for each thing that is shown."""

    token: str
    lease: str
    wake: str
    missing: str
    need: str
    ceiling: str
    renewed: str
    refused: str
    lost: str
    short: str

    def of(self, sign: Sign) -> str:
        """The character of a mark."""
        return {
            Sign.RENEWED: self.renewed,
            Sign.REFUSED: self.refused,
            Sign.LOST: self.lost,
            Sign.SHORT: self.short,
        }[sign]

    def legend(self) -> str:
        """What each character means."""
        return (
            f"{self.token} token alive  {self.lease} lease alive  {self.missing} needed, not alive  {self.wake} wake-up  "
            f"{self.renewed} renewed  2 to 9, {MORE}: so many times, or more  "
            f"{self.refused} refused  {self.lost} answer lost  {self.short} need shortened  {self.need} need  "
            f"{self.ceiling} ceiling"
        )


UNICODE = Signs(
    token="━", lease="─", wake="┊", missing="╌", need="⚑", ceiling="┃", renewed="●", refused="✕", lost="?", short="▽"
)
ASCII = Signs(token="=", lease="-", wake=":", missing=".", need="F", ceiling="]", renewed="o", refused="x", lost="?", short="v")


def text(chart: Chart, width: int, signs: Signs) -> str:
    """The rows, with the title and the axis above and the legend below; `width` is at least NARROWEST."""
    sheet = _Sheet(chart, width, signs)
    lines = [*textwrap.wrap(chart.title, width), sheet.heads()]
    for row, lane in enumerate(chart.lanes):
        heading = chart.heading(row)
        lines += [*textwrap.wrap(heading, width), sheet.row(lane)] if heading else [sheet.row(lane)]
    return "\n".join([*lines, *_wrapped(signs.legend(), width)]) + "\n"


class _Sheet:
    """The columns of the rows: the names' on the left, a place for each moment, with the wake-ups that all rows share, and on the
    right the numbers of what falls on one place."""

    def __init__(self, chart: Chart, width: int, signs: Signs) -> None:
        self._chart, self._signs = chart, signs
        self._left = min(max((len(_name(lane)) for lane in chart.lanes), default=4), width // 3)
        self._axis = Axis(chart.start, chart.stop, width - self._left - 2, chart.is_dated)
        for _ in range(2):  # (a shorter axis may put more on one place)
            numbers = max((len(self._numbers(lane)) for lane in chart.lanes), default=0)
            self._axis = Axis(chart.start, chart.stop, width - self._left - 2 - numbers, chart.is_dated)
        self._ground = [" "] * (int(self._axis.length) + 1)
        for wake in chart.wakes:
            self._ground[self._place(wake)] = signs.wake

    def heads(self) -> str:
        """The moments, each above its column, as many as have room."""
        line = [" "] * len(self._ground)
        free = 0
        for moment, words in self._axis.ticks(max(int(self._axis.length) // 12, 2)):
            at = self._place(moment)
            if free <= at and at + len(words) <= len(line):
                line[at : at + len(words)] = words
                free = at + len(words) + 1
        return (" " * (self._left + 1) + "".join(line)).rstrip()

    def row(self, lane: Lane) -> str:
        """Later things stand over earlier ones: wake-ups, life, ceiling, renewals, need, and what went wrong."""
        cells, signs, entry = self._ground.copy(), self._signs, lane.entry
        begin, end = self._place(lane.begin), self._place(lane.end)
        if lane.is_told:
            _fill(cells, begin, max(end, begin + 1), signs.token if entry.kind is Kind.TOKEN else signs.lease)
        if lane.falls_short:
            _fill(cells, end, self._place(lane.needed), signs.missing)
        if entry.ceiling is not None and entry.ceiling <= self._chart.stop:
            cells[self._place(entry.ceiling)] = signs.ceiling
        self._mark(cells, [mark for mark in lane.marks if mark.sign is Sign.RENEWED])
        if self._chart.start < lane.need <= self._chart.stop:
            cells[self._place(lane.need)] = signs.need
        self._mark(cells, [mark for mark in lane.marks if mark.sign is not Sign.RENEWED])
        name = _name(lane)
        shown = name if len(name) <= self._left else name[: self._left - 1] + "~"
        return f"{shown.ljust(self._left)} {''.join(cells)}{self._numbers(lane)}".rstrip()

    def _place(self, moment: int) -> int:
        return int(self._axis.place(moment))

    def _at(self, mark: Mark) -> int:
        """The mark's place; a shortened need stands beside what shortened it, which mostly has the same moment."""
        return min(self._place(mark.moment) + (mark.sign is Sign.SHORT), int(self._axis.length))

    def _mark(self, cells: list[str], marks: list[Mark]) -> None:
        """Each mark at its place, later ones over earlier ones; several renewals on one place are told by their number."""
        renewals = Counter(self._at(mark) for mark in marks if mark.sign is Sign.RENEWED)
        for mark in marks:
            count = renewals[self._at(mark)] if mark.sign is Sign.RENEWED else 1
            cells[self._at(mark)] = self._signs.of(mark.sign) if count == 1 else str(count) if count < 10 else MORE

    def _numbers(self, lane: Lane) -> str:
        """How often what went wrong did, where several of a kind fall on one place; empty where each has its own."""
        words = []
        for sign in (Sign.REFUSED, Sign.LOST, Sign.SHORT):
            count = lane.count(sign)
            if count > len({self._at(mark) for mark in lane.marks if mark.sign is sign}):
                words.append(f" {self._signs.of(sign)}{count}")
        return "".join(words)


def _name(lane: Lane) -> str:
    return "  " * lane.depth + lane.entry.name


def _fill(cells: list[str], begin: int, end: int, sign: str) -> None:
    """The sign at each place from `begin` to before `end`."""
    for place in range(begin, end):
        cells[place] = sign


def _wrapped(words: str, width: int) -> Iterator[str]:
    """The words in lines of at most that width, parted where two spaces stand."""
    line = ""
    for piece in words.split("  "):
        if line and len(line) + 2 + len(piece) > width:
            yield line
            line = piece
        else:
            line = f"{line}  {piece}" if line else piece
    yield line
