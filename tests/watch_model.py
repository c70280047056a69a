"""The machine of `watch_machine` in Python, for trials: its rules were read in the crate's code, so it is no second opinion on what they
should be. It knows no dates of replies, and of a lookup no terms."""

from __future__ import annotations

import math
from dataclasses import dataclass, field, replace

from bad_hours import SECOND

DAY = 86_400_000
LONGEST = 300_000
NEVER = math.inf


@dataclass(frozen=True)
class Entry:
    """An entry as the inventory has it; `need` in seconds of the wall's clock."""

    name: str
    step: int
    need: int
    parent: int | None = None


@dataclass(frozen=True)
class Try:
    """A request that is to go out no sooner than `at`, or that is out."""

    at: int
    renews: bool
    pressed: bool
    base: int | None = None
    fails: int = 0
    lost: bool = False
    alone: bool = False
    failed: bool = False

    @property
    def is_first(self) -> bool:
        return self.pressed and self.fails == 0


@dataclass
class Track:
    """What is known of an entry: `end` in seconds, None where it is unknown; `grant` are its seconds and the clock that they count from.
    `last_try`: at its top it may be asked once more."""

    end: float | None = None
    renewable: bool = True
    top: bool = False
    last_try: bool = True
    grant: tuple[int, int] | None = None
    owes: bool = False
    attempt: Try | None = None
    last: int | None = None
    out: bool = False

    @property
    def believed(self) -> float:
        return self.end or 0

    @property
    def rested(self) -> int:
        return 0 if self.last is None else self.last + SECOND

    @property
    def is_pressed(self) -> bool:
        return self.attempt is not None and self.attempt.pressed

    def is_alive(self, now: int) -> bool:
        return now < self.believed

    def is_open(self, now: int) -> bool:
        return self.end is None or self.is_alive(now)

    @property
    def has_last_try(self) -> bool:
        return self.top and self.last_try

    def leave_top(self) -> None:
        """It is at its top no more, and the last try of one that was is over."""
        self.last_try = self.last_try and not self.top
        self.top = False

    @property
    def is_fixed(self) -> bool:
        return self.end not in (None, NEVER) and (not self.renewable or self.top)


@dataclass(eq=False)
class Out:
    """A request that is out."""

    entry: int
    renews: bool
    since: int
    patience: int | None
    heard: bool = False


@dataclass(frozen=True)
class Reply:
    """What became of a request: `told` are seconds and whether it is renewable; `status` of a refusal; else it is busy or lost."""

    told: tuple[int, bool] | None = None
    status: int | None = None
    busy: bool = False
    endless: bool = False

    @property
    def is_real(self) -> bool:
        return self.told is not None or self.status is not None or self.busy


def said_of(entries: list[Entry], index: int) -> tuple[int, str | None]:
    """What the inventory says of an entry, but for its need."""
    parent = entries[index].parent
    return entries[index].step, None if parent is None else entries[parent].name


def doubled(times: int) -> int:
    return int(SECOND * 2 ** max(0, min(times, 20) - 1))


@dataclass
class Machine:
    """The watch of these entries."""

    entries: list[Entry]
    margin: int
    width: int
    at: int = 0
    out: list[Out] = field(default_factory=list)

    def __post_init__(self) -> None:
        self.tracks = [Track() for _ in self.entries]
        self._over = [self._chain(index) for index in range(len(self.entries))]
        self._below: list[list[int]] = [[] for _ in self.entries]
        for index, chain in enumerate(self._over):
            for above in chain:
                self._below[above].append(index)
        self._answers: list[tuple[Out, Reply]] = []
        self.phase = 0
        self._wall = (0, 0)
        self._begun: int | None = None
        self.away = False
        self._count = self._hold = self._pace = 0

    def _chain(self, index: int) -> list[int]:
        parent = self.entries[index].parent
        return [index] + ([] if parent is None else self._chain(parent))

    @property
    def now(self) -> int:
        return self.at // SECOND

    # ---- what is wanted

    def broker_moment(self, second: int) -> int:
        """What the broker's clock, which is taken to be the wall's, shows at a second of this one."""
        here, there = self._wall
        return second + there // SECOND - here // SECOND

    def _need_here(self, index: int) -> int:
        need = self.entries[index].need
        return need and need - self.broker_moment(0)

    def _limit(self, index: int) -> float:
        return min((self.tracks[above].believed for above in self._over[index] if self.tracks[above].is_fixed), default=NEVER)

    def _carried(self, index: int) -> float:
        needs = (min(self._need_here(below), self._limit(below)) for below in self._below[index])
        return max((need for need in needs if need > self.now), default=0)

    def _carried_unlimited(self, index: int) -> int:
        return max((need for need in map(self._need_here, self._below[index]) if need > self.now), default=0)

    def _wants(self, index: int, need: float) -> bool:
        track = self.tracks[index]
        may_be_led = (track.renewable or track.end is None) and (not track.top or track.last_try) and track.end != NEVER
        return may_be_led and track.believed < (self._carried_unlimited(index) if track.has_last_try else need)

    def _lead(self, index: int) -> int:
        grant = self.tracks[index].grant
        return min(self.entries[index].step, grant[0] if grant else self.entries[index].step)

    def _own_by(self, lead: int) -> int:
        return min(self.margin, 3 * lead // 4)

    def _own_margin(self, index: int) -> int:
        return self._own_by(self._lead(index))

    def _is_in_plan(self, index: int) -> bool:
        return self._own_margin(index) == self.margin

    def _time(self, index: int) -> float:
        track = self.tracks[index]
        own = self._own_margin(index)
        return 0 if track.end is None else max(0, track.end - (own // 2 if track.has_last_try else own))

    def _has_come(self, index: int) -> bool:
        return self._time(index) <= self.now

    # ---- events

    def changed(self, entries: list[Entry]) -> Machine:
        """The watch after a change of the inventory. What was keeps all that is known of it, its request that is out too; that of an entry
        that is no more is out of none, -1. What is new, or of which the inventory says something else but for its need, owes a lookup."""
        was = {entry.name: index for index, entry in enumerate(self.entries)}
        before = [was.get(entry.name) for entry in entries]
        new = Machine(entries, self.margin, self.width)
        for index, old in enumerate(before):
            new.tracks[index] = Track() if old is None else self.tracks[old]
            if old is None or said_of(self.entries, old) != said_of(entries, index):
                new.tracks[index].leave_top()
                new._owe_at(new.tracks[index], self.at)
        kept = {old: index for index, old in enumerate(before) if old is not None}
        new.out = self.out
        for out in new.out:
            out.entry = kept.get(out.entry, -1)
        new.at, new.phase, new.away = self.at, self.phase, self.away
        new._answers, new._wall, new._begun = self._answers, self._wall, self._begun
        new._count, new._hold, new._pace = self._count, self._hold, self._pace
        return new

    def answer(self, request: Out, reply: Reply) -> None:
        """Takes the answer to a request that is out."""
        self._answers.append((request, reply))
        if request.entry >= 0:
            self.tracks[request.entry].out = False
            (self._renewed if request.renews else self._looked)(request.entry, request, reply)
        self.out = [out for out in self.out if out is not request]
        if reply.is_real:
            self._hear()
        elif not request.heard and not self.away:
            self.away, self._count, self._hold = True, 0, 0

    def _hear(self) -> None:
        for out in self.out:
            out.heard = True
        if not self.away:
            return
        self.away, self._count, self._hold = False, 0, 0
        for track in self.tracks:
            if track.attempt and track.out:
                track.attempt = replace(track.attempt, fails=0)
            elif track.attempt and track.attempt.lost:
                soon = track.rested if track.attempt.failed else min(track.attempt.at, track.rested)
                track.attempt = replace(track.attempt, at=soon, failed=False)

    def _failing(self, index: int, renews: bool, lost: bool = False, alone: bool = False) -> None:
        track = self.tracks[index]
        if track.attempt:
            fails = min(20, track.attempt.fails + 1)
            track.attempt = replace(track.attempt, renews=renews, base=None, fails=fails, lost=lost, alone=alone, failed=True)

    def _unheard(self, index: int, request: Out, reply: Reply, renews: bool) -> None:
        """A loss, or the broker was too busy."""
        self._failing(index, renews, True, not reply.busy and request.heard)

    def _looked(self, index: int, request: Out, reply: Reply) -> None:
        track = self.tracks[index]
        if reply.told is None and reply.status is None:
            self._unheard(index, request, reply, track.is_pressed and track.is_open(self.now))
        elif reply.told is None:
            track.owes = False
            was_pressed = track.is_pressed
            self._failing(index, track.is_open(self.now))
            if track.is_open(self.now) and not was_pressed and track.attempt:
                track.attempt = replace(track.attempt, at=self.at, failed=False)
        else:
            self._looked_told(index, request, reply)

    def _looked_told(self, index: int, request: Out, reply: Reply) -> None:
        assert reply.told is not None
        track = self.tracks[index]
        track.end = NEVER if reply.endless else request.since // SECOND + reply.told[0]
        track.renewable, track.owes = reply.told[1], False
        if self._has_come(index) and self._wants(index, self._carried(index)):
            if track.is_pressed and track.attempt:
                track.attempt = replace(track.attempt, at=self.at, renews=True)
            else:
                track.attempt = Try(self.at, True, True, base=self.at)
        elif track.is_alive(self.now):
            track.attempt = None
        else:
            self._failing(index, False)

    def _renewed(self, index: int, request: Out, reply: Reply) -> None:
        track = self.tracks[index]
        if reply.told is not None:
            self._granted(index, request, *reply.told)
        elif reply.status is not None:
            self._failing(index, False)
        else:
            self._unheard(index, request, reply, track.is_alive(self.now))

    def _granted(self, index: int, request: Out, seconds: int, renewable: bool) -> None:
        track, step = self.tracks[index], self.entries[index].step
        counts = request.since
        base = track.attempt.base if track.attempt else None
        if base is not None and self.now + 1 < base // SECOND + seconds - self._own_by(min(step, seconds)):
            counts = base
        end = counts // SECOND + seconds
        is_no_further = False
        if track.grant and track.end is not None:
            before, since = track.grant
            most = min(track.end, since // SECOND + before)
            is_no_further = since // SECOND + 2 <= counts // SECOND and before < step and seconds < step and end <= most + 1
        track.last_try = not is_no_further or (track.last_try and not track.top)
        track.top, track.end, track.renewable, track.grant = is_no_further, end, renewable, (seconds, counts)
        if track.attempt and self.now >= end:
            self._failing(index, False)
        else:
            track.attempt = Try(self.at + 30_000, False, False) if track.owes and track.attempt else None

    # ---- a clock

    def clock(self, wall: int, elapsed: int) -> tuple[list[Out], int]:
        """The requests that go out now, and the moment until which to wait."""
        if self._begun is None:
            self.phase = (wall % SECOND - elapsed % SECOND) % SECOND
        self.at = max(self.at, elapsed + self.phase)
        here, there = self._wall
        jumped = self._begun is None or abs(self.at + there - here - wall) > 2000
        if jumped:
            self._wall = (self.at, wall)
        for request, reply in self._answers:
            if reply.is_real:
                self._pace = max(self.at - request.since, self._pace - self._pace // 8)
        self._settle()
        self._answers.clear()
        self._begin_anew(jumped)
        needs = [self._carried(index) for index in range(len(self.entries))]
        self._press(needs)
        return self._fill(), self._wait(needs)

    def _left(self, track: Track, lost: bool) -> float | None:
        if track.end is None:
            return 2 * self.margin * SECOND if lost else None
        left = track.end * SECOND - self.at
        return left if 0 < left < NEVER else None

    def _cap(self, track: Track, attempt: Try) -> int:
        left = self._left(track, attempt.lost)
        if left is None:
            return LONGEST
        most = 30_000 if attempt.lost and left <= 2 * self.margin * SECOND else LONGEST
        return min(most, max(SECOND, int(left) // 16))

    def _settle(self) -> None:
        unheard = any(not reply.is_real and not request.heard for request, reply in self._answers)
        caps = [self._cap(track, track.attempt) for track in self.tracks if track.attempt and track.attempt.pressed]
        if self.away and unheard:
            is_over = self._hold <= self.at
            self._count = min(20, self._count + 1) if is_over else self._count
            hold = self.at + min([LONGEST, doubled(self._count), *caps])
            self._hold = hold if is_over else min(self._hold, hold)
        for track in self.tracks:
            attempt = track.attempt
            if attempt and attempt.failed:
                pause = min(doubled(attempt.fails), self._cap(track, attempt))
                alone = attempt.alone and track.rested <= self.at
                track.attempt = replace(attempt, at=self.at + pause, alone=alone, failed=False)

    def _begin_anew(self, jumped: bool) -> None:
        urgent = any(track.is_pressed and track.is_alive(self.now) for track in self.tracks)
        is_first = self._begun is None
        if self._begun is not None and not jumped and (urgent or self.at < self._begun + DAY):
            return
        self._begun = self.at
        for track in self.tracks:
            track.leave_top()
        for index, track in enumerate(self.tracks):
            called = self._carried(index) > 0 or any(self.entries[below].need for below in self._below[index])
            if called and (is_first or track.is_open(self.now)):
                self._owe_at(track, self.at)

    def _owe_at(self, track: Track, at: int) -> None:
        track.owes = True
        if not track.out:
            soon = max(at, track.rested)
            track.attempt = replace(track.attempt, at=min(track.attempt.at, soon)) if track.attempt else Try(soon, False, False)

    def _is_fresh(self, index: int, need: float) -> bool:
        track = self.tracks[index]
        return self._wants(index, need) and self._has_come(index) and not track.is_pressed and not track.out

    def _pressed(self, track: Track) -> Try:
        return Try(max(self.at, track.rested), track.is_alive(self.now), True, self.at)

    def _press(self, needs: list[float]) -> None:
        fresh = [index for index, need in enumerate(needs) if self._is_fresh(index, need)]
        asked: list[int] = []
        if any(self._is_in_plan(index) and self.tracks[index].is_alive(self.now) for index in fresh):
            asked = self._asks(needs)
        for index, track in enumerate(self.tracks):
            if index in fresh:
                track.attempt = self._pressed(track)
            elif track.attempt and not track.out and not self._wants(index, needs[index]):
                self._let_go(track)
        for index in asked:
            if not self.tracks[index].out:
                self.tracks[index].attempt = self._pressed(self.tracks[index])

    def _let_go(self, track: Track) -> None:
        """Of a try that is pressed no more is left than the lookup that is owed. One that is not pressed goes on: a reply alone ends it."""
        attempt = track.attempt
        if attempt and attempt.pressed:
            owed = replace(attempt, at=max(attempt.at, track.rested), renews=False, pressed=False)
            track.attempt = owed if track.owes else None

    def _asks(self, needs: list[float]) -> list[int]:
        """Whom a round asks: those who cannot wait for the next one, where those whom it cannot ask are renewed now."""
        ends, leads, renewable = [], [], []
        for index, track in enumerate(self.tracks):
            is_hoped = self._wants(index, needs[index]) and (
                not self._is_in_plan(index) or track.end is None or track.is_pressed or track.out)
            ends.append(self.now + self._lead(index) if is_hoped else track.believed)
            leads.append(self._lead(index) if self._is_in_plan(index) else self.entries[index].step)
            renewable.append(not is_hoped and track.renewable and not track.top)
        bounds = [max(end, self.now + lead) if may else end for end, lead, may in zip(ends, leads, renewable)]
        until = min((bound for bound, need in zip(bounds, needs) if bound < need), default=NEVER)

        def cannot_wait(index: int) -> bool:
            lasts = all(ends[above] >= self.now + self.margin for above in self._over[index])
            gains = renewable[index] and lasts and ends[index] < self.now + leads[index]
            return ends[index] < needs[index] and ends[index] < until and gains

        return [index for index in range(len(ends)) if cannot_wait(index)]

    def _ready(self, track: Track, attempt: Try) -> int:
        if attempt.is_first:
            return attempt.at
        later = min(attempt.at, track.rested) if self.away and attempt.lost else attempt.at
        return max(self._hold, later)

    def _place(self, index: int) -> tuple[int, float, int]:
        track = self.tracks[index]
        attempt = track.attempt
        assert attempt is not None
        if not attempt.is_first:
            part = (0 if self.away else 2) + (0 if attempt.pressed else 1)
            return part, 0 if track.last is None else track.last + 1, index
        along = attempt.renews and not self._has_come(index)
        part = 4 if along else (2 if self.away else 0) + (0 if track.is_alive(self.now) else 1)
        return part, track.believed, index

    def _fill(self) -> list[Out]:
        due = [index for index, track in enumerate(self.tracks)
               if track.attempt and not track.out and self._ready(track, track.attempt) <= self.at]
        going = sorted(due, key=self._place)[: self.width - len(self.out)]
        partial = any(track.attempt and track.attempt.alone and track.is_open(self.now) for track in self.tracks)
        sent = []
        for index in going:
            track = self.tracks[index]
            assert track.attempt is not None
            sent.append(Out(index, track.attempt.renews, self.at, self._patience(partial, track.attempt)))
            track.out, track.last = True, self.at
        self.out += sent
        return sent

    def _patience(self, partial: bool, attempt: Try) -> int | None:
        if self.away and attempt.is_first:
            return 250
        return int(max(SECOND, 2 * self._pace) * 2 ** max(0, attempt.fails - 1)) if partial else None

    def _wait(self, needs: list[float]) -> int:
        least: float = self.at + max(SECOND, min(30_000, self.margin * 250))
        for index, track in enumerate(self.tracks):
            if track.out:
                continue
            if track.attempt and self._ready(track, track.attempt) > self.at:
                least = min(least, self._ready(track, track.attempt))
            if self._wants(index, needs[index]) and not track.is_pressed:
                least = min(least, self._time(index) * SECOND)
        return int(least)
