"""Credentials that stand in files, each of which is replaced every few minutes, in the ways in which that is done."""

from __future__ import annotations

import asyncio
import random
import shutil
import time
from dataclasses import dataclass, replace
from pathlib import Path
from typing import Awaitable, Callable

from leasekeep_inventory.inventory import Entry, Kind

from .stage import Trial

LIFE = 110
"""Seconds that a credential has left when it comes into its file: so it ends before its own time, unless the agent renews it."""
EVERY = 45
"""Seconds from one replacement to the next. One of four files has its turn, so each credential serves for longer than its life."""
PAUSES = (0.0, 0.5, 3.0)
"""Seconds for which a file that is written in place stays empty: the agent looks at it every two."""


def entries_in_files(now: int, need: int, over: str) -> tuple[Entry, ...]:
    """Three tokens, and a lease of the token `over`, whose credentials stand in files."""
    def entry(name: str, kind: Kind, file: str, credential: str) -> Entry:
        return Entry(name, kind, over if kind is Kind.LEASE else None, now, now + LIFE, increment=LIFE, max_ttl=86400, need=need,
                     credential=credential, credential_file=file)
    return (entry("moved", Kind.TOKEN, "moved.token", "s.moved"), entry("cut", Kind.TOKEN, "cut.token", "s.cut"),
            entry("linked", Kind.TOKEN, "mounted/token", "s.linked"), entry("leased", Kind.LEASE, "leased.id", "database/creds/leased"))


def move(path: Path, text: str) -> None:
    """As Vault Agent does: a new file is moved to the name."""
    new = path.with_name(f"{path.name}.new")
    new.write_text(text)
    new.rename(path)


async def cut(path: Path, text: str, pause: float) -> None:
    """In place: the file is emptied, and written after a pause."""
    with open(path, "w", encoding="ascii") as file:
        await asyncio.sleep(pause)
        file.write(text)


def link(path: Path, text: str) -> None:
    """As Kubernetes mounts a secret: the name is a link into the folder that `..data` names, which is another link; that one is
    replaced, and the folder before it removed."""
    folder, before = path.parent, path.parent / "..data"
    last = before.resolve() if before.is_symlink() else None
    new = folder / f"..{time.time_ns()}"
    new.mkdir(parents=True)
    (new / path.name).write_text(text)
    (folder / "..data_tmp").symlink_to(new.name)
    (folder / "..data_tmp").rename(before)
    if not path.is_symlink():
        path.symlink_to(f"..data/{path.name}")
    if last is not None:
        shutil.rmtree(last)


@dataclass(frozen=True)
class Turn:
    """The moment at which an entry's file gets the credential of a spare one."""

    moment: int
    name: str
    spare: Entry


def turns(rotating: tuple[Entry, ...], began: int, seconds: int) -> list[Turn]:
    """Each entry in its turn, every so often. The broker knows each spare credential from the start on."""
    found = list[Turn]()
    for number, moment in enumerate(range(began + EVERY, began + seconds, EVERY)):
        entry = rotating[number % len(rotating)]
        spare = replace(entry, name=f"{entry.name}-{number}", end=moment + LIFE, need=0, credential=f"{entry.credential}-{number}",
                        credential_file=None)
        found.append(Turn(moment, entry.name, spare))
    return found


class Rotation:
    """Replaces the credentials of a trial. `look` looks at every entry, just before its credential is replaced too."""

    def __init__(self, trial: Trial, plan: list[Turn], chance: random.Random, look: Callable[[], Awaitable[None]],
                 note: Callable[[str], None]) -> None:
        self._trial, self._plan, self._chance, self._look, self._note = trial, plan, chance, look, note
        self.done = 0

    def begin(self) -> None:
        """Each file holds its first credential."""
        for entry in self._trial.inventory.entries:
            if entry.credential_file is not None:
                (link if entry.name == "linked" else move)(self._trial.folder / entry.credential_file, f"{entry.credential}\n")
        self._trial.spare += tuple(turn.spare for turn in self._plan)

    async def serve(self) -> None:
        """Runs until the plan is done, or it is cancelled."""
        for turn in self._plan:
            await asyncio.sleep(max(0.0, turn.moment - time.time()))
            await self._look()
            await self._replace(turn)
            self.done += 1

    async def _replace(self, turn: Turn) -> None:
        entry = self._trial.inventory.find(turn.name)
        assert entry is not None and entry.credential_file is not None
        path, text = self._trial.folder / entry.credential_file, f"{turn.spare.credential}\n"
        pause = self._chance.choice(PAUSES) if entry.name == "cut" else 0.0
        self._note(f"file of {entry.name} replaced" + (f", empty for {pause:g} s" if pause else ""))
        if entry.name == "cut":
            await cut(path, text, pause)
        else:
            (link if entry.name == "linked" else move)(path, text)
        self._trial.exchange(entry, turn.spare)
