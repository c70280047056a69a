"""What is drawn: a lane for each entry, under its parent, with its life and what happened to it."""

from __future__ import annotations

from collections import Counter
from dataclasses import dataclass, replace

from leasekeep_draw.entries import Entry, Inventory
from leasekeep_draw.history import History, Mark, Sign


MANY = 500
"""From so many entries on, only those that need a look are drawn, unless all are asked for."""
LOOKS = 40
"""So many of these."""
YEAR = 365 * 86_400
"""For so long from the start an entry is needed whose need is `always`, where no ceiling is known."""


@dataclass(frozen=True)
class Lane:
    """One entry: what it stands under, how deep it is set in, until when it lived, and what happened to it.

    `end` is the beginning where `is_told` says that neither the inventory nor a line tells an end. `need`: the moment until which it
    is needed, of one that is needed always too; `needed`: that moment, as far as the lines reach.
    """

    entry: Entry
    parent: str | None
    depth: int
    begin: int
    end: int
    is_told: bool
    need: int
    needed: int
    marks: tuple[Mark, ...]

    @property
    def shortfall(self) -> int:
        """For how long the entry was needed when it had ended."""
        return max(self.needed - self.end, 0) if self.is_told else 0

    @property
    def falls_short(self) -> bool:
        """Whether the entry was needed when it had ended."""
        return self.shortfall > 0

    def count(self, sign: Sign) -> int:
        """How often that happened."""
        return sum(1 for mark in self.marks if mark.sign is sign)


@dataclass(frozen=True)
class Chart:
    """The lanes from top to bottom, the wake-ups, and the moments from which and to which the picture goes.

    `entries`, `short`: how many entries there are, and how many of them are not kept, whichever lanes are shown. `margin`: that of the
    inventory, in seconds. `first`: so
    many lanes at the top are entries that are not kept, out of their place in the tree. `summary`: what is said of all entries
    where only some are shown; else empty.
    """

    lanes: tuple[Lane, ...]
    wakes: tuple[int, ...]
    requests: int
    start: int
    stop: int
    is_dated: bool
    is_over: bool
    entries: int
    short: int
    margin: int = 1
    first: int = 0
    summary: str = ""

    @property
    def title(self) -> str:
        """What the picture shows, in one line."""
        return (
            f"{_counted(self.entries, 'entry', 'entries')}, {_counted(len(self.wakes), 'wake-up', 'wake-ups')}, "
            f"{_counted(self.requests, 'request', 'requests')}{'' if self.is_over else ' so far'}: "
            f"{_counted(self.short, 'need', 'needs') + ' not kept' if self.short else 'every need is kept'}"
        )

    def heading(self, row: int) -> str | None:
        """What stands above the lane of that row, where a group of lanes begins with it."""
        if self.summary:
            return self.summary if row == 0 else None
        if self.first and row == 0:
            return f"not kept: {self.first:,}"
        if self.first and row == self.first:
            return f"the others: {len(self.lanes) - self.first:,}"
        return None

    def arranged(self, only_unkept: bool, has_all: bool = False) -> Chart:
        """With those that need a look alone, where there are MANY, or with all of them, those that are not kept first; or with these
        alone."""
        unkept = tuple(replace(lane, depth=0) for lane in self.lanes if lane.falls_short)
        if only_unkept:
            return replace(self, lanes=unkept, first=len(unkept))
        if len(self.lanes) >= MANY and not has_all:
            return self._summed_up()
        if len(self.lanes) < MANY or not unkept:
            return self
        others = tuple(lane for lane in self.lanes if not lane.falls_short)
        return replace(self, lanes=unkept + others, first=len(unkept))

    def _summed_up(self) -> Chart:
        """The lanes that need a look: those that are not kept, the longest without life first; those of which most went wrong; and
        those that end first."""
        def rank(lane: Lane) -> tuple[int, int, int]:
            wrong = sum(lane.count(sign) for sign in (Sign.REFUSED, Sign.LOST, Sign.SHORT))
            return -lane.shortfall, -wrong, lane.end
        lanes = tuple(replace(lane, depth=0) for lane in sorted(self.lanes, key=rank)[:LOOKS])
        fates = Counter(self.fate(lane) for lane in self.lanes)
        counts = [f"{fates[fate]:,} {words}" for fate, words in (("no", "not kept"), ("so far", "kept so far"), ("yes", "kept")) if fates[fate]]
        for sign, words in ((Sign.REFUSED, "refused"), (Sign.LOST, "without an answer"), (Sign.SHORT, "shortened")):
            count = sum(1 for lane in self.lanes if lane.count(sign))
            counts += [f"{count:,} {words}"] if count else []
        return replace(self, lanes=lanes, summary=f"{', '.join(counts)}; the {len(lanes)} that need a look (--all: every entry)")

    def fate(self, lane: Lane) -> str:
        """Whether the lane's need is kept, in a word or two."""
        if lane.falls_short:
            return "no"
        return "yes" if lane.need <= (lane.end if lane.is_told else 0) else "so far"


def _counted(count: int, one: str, more: str) -> str:
    return f"{count:,} {one if count == 1 else more}"


def start_of(inventory: Inventory) -> int:
    """Where no start is given: the latest issue that comes before every end, which a start mostly is near to; 0 where the inventory
    has no moment."""
    first_end = min((entry.end for entry in inventory.entries if entry.end is not None), default=0)
    return max((entry.issued for entry in inventory.entries if entry.issued is not None and entry.issued <= first_end), default=first_end)


def chart_of(inventory: Inventory, history: History, start: int) -> Chart:
    """The chart of an inventory and what happened from the start on; of a run that goes on, as far as it went."""
    ends = _ends(inventory, history)
    needs = [_need(entry, start) for entry in inventory.entries]
    latest = [start + 1, history.now, *history.wakes, *(end for end in ends if end is not None)]
    if history.is_over:
        latest += [need for need, entry in zip(needs, inventory.entries) if entry.need is not None or entry.reach is not None]
    stop = max(latest)
    reached = stop if history.is_over else history.now
    marks: list[list[Mark]] = [[] for _ in inventory.entries]
    for mark in history.marks:
        marks[mark.entry].append(mark)
    lanes = tuple(
        Lane(entry, _name_over(inventory, entry), depth, begin, begin if end is None else end, end is not None, needs[index],
             min(needs[index], reached), tuple(marks[index]))
        for index, depth in _in_tree_order(inventory.entries)
        for entry, end in ((inventory.entries[index], ends[index]),)
        for begin in (max(start, entry.issued or 0),)
    )
    is_dated = inventory.is_dated or history.begun is not None
    short = sum(1 for lane in lanes if lane.falls_short)
    return Chart(lanes, tuple(history.wakes), history.requests, start, stop, is_dated, history.is_over, len(lanes), short, inventory.margin)


def _name_over(inventory: Inventory, entry: Entry) -> str | None:
    return None if entry.parent is None else inventory.entries[entry.parent].name


def _need(entry: Entry, start: int) -> int:
    """The moment until which the entry is needed: of one that is needed always, as far as any renewal leads it, or for a year."""
    if entry.need is not None:
        return entry.need
    return start + YEAR if entry.reach is None else entry.reach


def _ends(inventory: Inventory, history: History) -> list[int | None]:
    """Until when each entry lived: no longer than its last told end, nor than the entry over it; None where none of that is told."""
    ends: list[int | None] = []
    for index, entry in enumerate(inventory.entries):
        above = None if entry.parent is None else ends[entry.parent]
        own = history.ends.get(index, entry.end)
        ends.append(own if own is None or above is None else min(own, above))
    return ends


def _in_tree_order(entries: tuple[Entry, ...]) -> list[tuple[int, int]]:
    """Index and depth of each entry, children right under their parent, in the order of the inventory."""
    children: dict[int | None, list[int]] = {}
    for index, entry in enumerate(entries):
        children.setdefault(entry.parent, []).append(index)
    ordered: list[tuple[int, int]] = []
    waiting = [(index, 0) for index in reversed(children.get(None, []))]
    while waiting:
        index, depth = waiting.pop()
        ordered.append((index, depth))
        waiting.extend((child, depth + 1) for child in reversed(children.get(index, [])))
    return ordered
