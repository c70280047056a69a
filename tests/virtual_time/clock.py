"""The clocks of a machine in virtual time, and the hand-over between a program on it and the test: one runs while the other stands
still (virtual_time.c). All moments are whole nanoseconds."""

from __future__ import annotations

import mmap
import os
import select
import struct
import subprocess
import tempfile
from functools import cache
from pathlib import Path

from trying import SECONDS

NANOSECONDS = 1_000_000_000
MILLISECOND = 1_000_000
NEVER = 2**62
PAGE = 4096
BEGAN = 1_000_000
"""The wall clock's seconds at the beginning of each world, unless it is set wrong."""
BOOTED = 1000
"""Those since the machine was booted."""
MONOTONIC_LAG = 300
"""Those of them for which it was suspended. So the three clocks differ from the beginning on."""


def ns(seconds: float) -> int:
    """A time in nanoseconds."""
    return round(seconds * NANOSECONDS)


@cache
def _library() -> tuple[tempfile.TemporaryDirectory[str], str]:
    """The built library, in a folder that lives as long as this process."""
    folder = tempfile.TemporaryDirectory()
    library = f"{folder.name}/virtual_time.so"
    source = Path(__file__).with_name("virtual_time.c")
    subprocess.run(["cc", "-shared", "-fPIC", "-O1", "-o", library, str(source)], check=True)
    return folder, library


def build() -> None:
    """Builds the library, so that processes that are forked from here on share it."""
    _library()


class Cell:
    """Where each number stands in the page that program and test share: `enum cell` of virtual_time.c."""

    NOW, BOOT_AHEAD, WALL_AHEAD, HORIZON, UNTIL, LATE, TURN, DISK_WAITS, DISK_FAILS, KILLED, WAITS = range(11)


class Clocks:
    """The clocks of one machine. A world's moments are real ones; a slow clock shows less than has passed."""

    def __init__(self, wall_ahead: float = 0.0, slow: float = 0.0) -> None:
        """`wall_ahead`: by how many seconds the wall clock is wrong; `slow`: by which part of the time all clocks lag."""
        self._slow = round(slow * NANOSECONDS)
        self._suspended = ns(MONOTONIC_LAG)
        self.wall_ahead = ns(wall_ahead)
        self.booted = 0
        """The moment of the world at which the boot clock was BOOTED."""

    def elapsed(self, moment: int) -> int:
        """What CLOCK_BOOTTIME shows then."""
        passed = moment - self.booted
        return ns(BOOTED) + passed - passed * self._slow // NANOSECONDS

    def lag(self, moment: int) -> int:
        """By how much CLOCK_BOOTTIME has come to lag then."""
        return (moment - self.booted) * self._slow // NANOSECONDS

    def wall(self, moment: int) -> int:
        """What CLOCK_REALTIME shows then."""
        return ns(BEGAN) + moment - moment * self._slow // NANOSECONDS + self.wall_ahead

    def monotonic(self, moment: int) -> int:
        """What CLOCK_MONOTONIC shows then."""
        return self.elapsed(moment) - self._suspended

    def moment_of(self, monotonic: int) -> int:
        """The first moment at which CLOCK_MONOTONIC shows that."""
        if monotonic >= NEVER:
            return NEVER
        shown = monotonic + self._suspended - ns(BOOTED)
        moment = self.booted + shown * NANOSECONDS // (NANOSECONDS - self._slow) - 2 * (self._slow > 0)
        while self.monotonic(moment) < monotonic:
            moment += 1
        return moment

    def suspend(self, nanoseconds: int) -> None:
        """CLOCK_MONOTONIC stands still for so long."""
        self._suspended += nanoseconds

    def boot(self, moment: int) -> None:
        """The machine is booted anew at that moment."""
        self.booted = moment
        self._suspended = ns(MONOTONIC_LAG)


class Turns:
    """The page and the pipes by which one program and the test take turns."""

    def __init__(self, folder: Path, late: int) -> None:
        """`late`: how much later than asked a wait ends."""
        handle, self._name = tempfile.mkstemp(prefix="time.", dir=folder)
        os.ftruncate(handle, PAGE)
        self._page = mmap.mmap(handle, PAGE)
        os.close(handle)
        self._report, self._its_report = os.pipe()
        self._its_go, self._go = os.pipe()
        self.put(Cell.LATE, late)
        self.put(Cell.TURN, MILLISECOND // 10)

    @property
    def handles(self) -> tuple[int, int]:
        """Those that the program is to inherit."""
        return self._its_report, self._its_go

    def environment(self, boot: Path) -> dict[str, str]:
        """What it is to find in its environment; `boot` is the file with the boot's id."""
        return {"LD_PRELOAD": _library()[1], "VIRTUAL_TIME": f"{self._name} {self._its_report} {self._its_go}", "BOOT": str(boot)}

    def begun(self) -> None:
        """The program has its own handles: those here are closed, so that its end is seen."""
        os.close(self._its_report)
        os.close(self._its_go)

    def put(self, cell: int, number: int) -> None:
        struct.pack_into("q", self._page, 8 * cell, number)

    def get(self, cell: int) -> int:
        return int(struct.unpack_from("q", self._page, 8 * cell)[0])

    def show(self, clocks: Clocks, moment: int) -> None:
        """Sets the clocks to that moment. (A time-out that is over by itself may have come before.)"""
        now = clocks.monotonic(moment)
        self.put(Cell.NOW, now)
        self.put(Cell.BOOT_AHEAD, clocks.elapsed(moment) - now)
        self.put(Cell.WALL_AHEAD, clocks.wall(moment) - now)

    def give(self) -> None:
        """The program goes on."""
        os.write(self._go, b"!")

    def take(self) -> bool:
        """Waits until the program waits; false where it has ended."""
        found, _, _ = select.select([self._report], [], [], SECONDS)
        if not found:
            raise TimeoutError(f"the program has run for {SECONDS} seconds without a wait")
        return bool(os.read(self._report, 1))

    def close(self) -> None:
        for handle in (self._report, self._go):
            os.close(handle)
        self._page.close()
        os.unlink(self._name)
