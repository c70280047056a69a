"""Random changes of an inventory, many of them while requests are out: the program `plays` and the model of the watch must ask the same of
the same entries at the same moments, and believe the same ends. For tests/same-histories."""

from __future__ import annotations

import json
import random
from dataclasses import dataclass
from pathlib import Path

from bad_hours import SECOND, START
from trying import TOP, run
from watch_model import Entry, Machine, Out, Reply

NEED = 90_000_000
SHARED = 5 * SECOND
"""How long the first change waits for others."""
FAULTS = ("refuse", "lose", "hang", "status 403", "status 429", "status 503")
REFUSED = (400, 403, 404, 405)


@dataclass(frozen=True)
class Story:
    """Tokens at a broker, each with its end and its step, in seconds. FILE names some of them at first, and others, or with other steps and
    in another order, when it is read anew. At each turn a clock is read, and a client may ask for something."""

    ends: dict[str, int]
    first: dict[str, int]
    later: dict[str, int]
    margin: int
    width: int
    timeout: int
    readings: tuple[int, ...]
    faults: dict[int, str]
    asks: dict[int, tuple[str, str]]


@dataclass
class Lane:
    """A request on its lane, under the index that its entry has; its answer, and when that is there."""

    index: int
    out: Out
    at: int
    reply: Reply


def story(chance: random.Random) -> Story:
    timeout = chance.choice((2, 5, 10))
    margin = 4 * timeout + chance.choice((0, 1, 20))
    names = [f"e{number}" for number in range(chance.randint(2, 8))]
    steps = {name: chance.randint(margin + 1, 8 * margin + 10) for name in names}
    ends = {name: START // SECOND + chance.randint(1, 3 * steps[name]) for name in names}
    first = {name: steps[name] for name in names[: chance.randint(1, len(names))]}
    others = [name for name in names if chance.random() < 0.8] or names[:1]
    chance.shuffle(others)
    later = {name: chance.choice((steps[name], steps[name] + 7)) for name in others}
    readings = [START]
    asks: dict[int, tuple[str, str]] = {}
    served, is_read_anew = set(first), chance.random() < 0.4
    for _ in range(chance.randint(40, 120)):
        readings.append(readings[-1] + chance.choice((0, 1, 20, 300, 1000, 1000, 2500, 4000)))
    for turn in sorted(chance.sample(range(len(readings)), chance.randint(1, 4))):
        if any(readings[turn] - readings[other] < 2 * SHARED for other in asks):
            continue
        if is_read_anew:
            asks[turn] = ("reload", "")
            break
        name = chance.choice(names)
        if name in served and len(served) == 1:
            continue
        asks[turn] = ("drop" if name in served else "add", name)
        served ^= {name}
    faults = {number: chance.choice((*FAULTS, *(f"late {chance.randint(1, 9000)}" for _ in range(6))))
              for number in range(1, 400) if chance.random() < 0.4}
    return Story(ends, first, later, margin, chance.randint(1, 5), timeout, tuple(readings), faults, asks)


def table(told: Story, name: str, step: int) -> str:
    return (f'[[token]]\nname = "{name}"\nissued = {START // SECOND}\nend = {told.ends[name]}\nincrement = {step}\n'
            f'need = {NEED}\nsecret = "s.{name}"\n')


def inventory(told: Story, steps: dict[str, int]) -> str:
    return f"margin = {told.margin}\n" + "".join(table(told, name, step) for name, step in steps.items())


def added(told: Story, name: str) -> int:
    """The step of an entry that a client adds."""
    return told.first.get(name) or told.later.get(name) or told.margin + 1


# ---- the program

def played(program: Path, told: Story) -> list[str]:
    """The requests that it makes, and at last the ends that it believes."""
    broker = {name: told.first.get(name, told.margin + 1) for name in told.ends}
    text = f"== inventory\n{inventory(told, told.first)}== inventory later\n{inventory(told, told.later)}"
    text += f"== broker\n{inventory(told, broker)}== state\n== width {told.width}\n== timeout {told.timeout}\n"
    text += "== clock " + " ".join(str(reading) for reading in (START, *told.readings)) + "\n"
    text += "".join(f"== request {number} {fault}\n" for number, fault in told.faults.items())
    for turn in range(len(told.readings)):
        if turn in told.asks:
            what, name = told.asks[turn]
            words = [what] if what == "reload" else [what, table(told, name, added(told, name)) if what == "add" else name]
            text += f"== client c{turn}\n{json.dumps(words)}\n"
        text += "== turns 1\n"
    ran = run(program, TOP, given=f"{text}== requests\n== entries\n".encode())
    asked, _, entries = ran.out.decode().rpartition("== requests\n")[2].partition("== entries\n")
    return [*asked.splitlines(), *(line.partition(",")[0] for line in entries.splitlines())] if not ran.exit else [ran.err.decode()]


# ---- the model

class Modelled:
    """The model in the place of the agent."""

    def __init__(self, told: Story) -> None:
        self._told, self._ends, self._steps = told, dict(told.ends), dict(told.first)
        self._machine = Machine(self._entries(), told.margin, told.width)
        self._names = list(self._steps)
        self._lanes: list[Lane] = []
        self._sent = 0
        self._due: int | None = None

    def _entries(self) -> list[Entry]:
        return [Entry(name, step, NEED) for name, step in self._steps.items()]

    def said(self) -> list[str]:
        lines: list[str] = []
        for turn, now in enumerate(self._told.readings):
            there = [lane for lane in self._lanes if lane.at <= now]
            self._lanes = [lane for lane in self._lanes if lane.at > now]
            for lane in there:
                self._machine.answer(lane.out, lane.reply)
            sent = self._machine.clock(now, now)[0]
            for out in sent:
                self._send(out, now)
            self._change(turn, now)
            # (A turn tells of its requests at its end, and of none whose entry is no more then.)
            lines += [f"{now} {'renew' if out.renews else 'look'} {self._names[out.entry]}" for out in sent if out.entry >= 0]
        for name, track in zip(self._names, self._machine.tracks):
            lines.append(f"{name} unknown" if track.end is None else f"{name} believed {int(track.end)}")
        return lines

    def _change(self, turn: int, now: int) -> None:
        if self._due is not None and now >= self._due:
            self._serve()
        elif turn - 1 in self._told.asks:  # (A client who comes in one turn is read in the next.)
            what, name = self._told.asks[turn - 1]
            if what == "reload":
                self._steps = dict(self._told.later)
            elif what == "drop":
                del self._steps[name]
            else:
                self._steps[name] = added(self._told, name)
            self._due = now + SHARED if self._due is None else self._due

    def _serve(self) -> None:
        self._due = None
        if self._entries() == self._machine.entries:
            return
        self._machine = self._machine.changed(self._entries())
        self._names = list(self._steps)
        place = {id(out): number for number, out in enumerate(self._machine.out)}
        for lane in self._lanes:
            lane.index = lane.out.entry if lane.out.entry >= 0 else len(self._names) + place[id(lane.out)]

    def _send(self, out: Out, now: int) -> None:
        self._sent += 1
        patience = self._told.timeout * SECOND if out.patience is None else min(out.patience, self._told.timeout * SECOND)
        reply, after = self._fate(self._told.faults.get(self._sent, "late 0"), out, now // SECOND)
        is_late = after is None or (after > 0 and after >= patience)
        lane = Lane(out.entry, out, now + patience, Reply()) if is_late else Lane(out.entry, out, now + (after or 0), reply)
        place = next((at for at, other in enumerate(self._lanes) if other.index > lane.index), len(self._lanes))
        self._lanes.insert(place, lane)

    def _fate(self, fault: str, out: Out, second: int) -> tuple[Reply, int | None]:
        """The reply to a request, and after how many milliseconds it comes."""
        match fault.split():
            case ["status", status]:
                number = int(status)
                return Reply(status=number) if number in REFUSED else Reply(busy=number == 429), 0
            case ["hang"]:
                self._served(out, second)
                return Reply(), None
            case ["late", millis]:
                return self._served(out, second), int(millis)
            case _:
                return Reply(), 0

    def _served(self, out: Out, second: int) -> Reply:
        name = self._names[out.entry]
        if self._ends[name] <= second:
            return Reply(status=403)
        if out.renews:
            self._ends[name] = second + self._machine.entries[out.entry].step
        return Reply((self._ends[name] - second, True))


def differing(program: Path, seed: str) -> list[object]:
    """The first line at which they differ, with what was said at it by both; nothing where they do not."""
    told = story(random.Random(seed))
    came, wanted = played(program, told), Modelled(told).said()
    for number in range(max(len(came), len(wanted))):
        one, other = wanted[number : number + 1], came[number : number + 1]
        if one != other:
            return [number, one, other]
    return []
