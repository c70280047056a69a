"""The chart as rows of text: what a picture shows, for readers who cannot see it."""

from __future__ import annotations

from collections.abc import Iterator

from leasekeep_draw.axis import moment_text
from leasekeep_draw.chart import Chart, Lane
from leasekeep_draw.history import Sign

HEADS = ("entry", "under", "lives until", "need", "ceiling", "renewed", "refused", "lost", "short", "kept")


def rows(chart: Chart) -> Iterator[tuple[str, ...]]:
    """A row for each lane, in the order of the picture, under HEADS."""
    for lane in chart.lanes:
        yield _row(lane, chart)


def _row(lane: Lane, chart: Chart) -> tuple[str, ...]:
    entry, is_dated = lane.entry, chart.is_dated
    return (
        entry.name,
        lane.parent or "-",
        moment_text(lane.end, is_dated) if lane.is_told else "-",
        "always" if entry.need is None else moment_text(entry.need, is_dated) if entry.need else "-",
        "-" if entry.ceiling is None else moment_text(entry.ceiling, is_dated),
        *(str(lane.count(sign)) for sign in (Sign.RENEWED, Sign.REFUSED, Sign.LOST, Sign.SHORT)),
        chart.fate(lane),
    )


def text(chart: Chart) -> str:
    """The table with its columns at equal places, the title before it."""
    lines = [HEADS, *rows(chart)]
    widths = [max(len(line[column]) for line in lines) for column in range(len(HEADS))]
    written = ("  ".join(cell.ljust(width) for cell, width in zip(line, widths)).rstrip() for line in lines)
    return "\n".join([chart.title, *([chart.summary] if chart.summary else []), "", *written]) + "\n"
