"""Figures of a trial, from the log of the agent."""

from __future__ import annotations

import re

from leasekeep_inventory.rfc3339 import read_rfc3339

_LINE = re.compile(r"^(\S+) (?:(told) (\S+) (\d+)|(entry) (\S+) (\S+)|(replace) (\S+) by its file(?: \(.*\))?)$", re.MULTILINE)


def nearest(log: str) -> str:
    """How near to its end an entry was renewed, at the nearest: by the log's moments, which are whole seconds. That it is looked
    up again is no renewal, and what a lookup tells is an end by the broker's clock. A credential that came by a file has an end of
    its own. An entry that was added is left out: nobody kept it before."""
    added = set(re.findall(r"^\S+ add (\S+)$", log, re.MULTILINE))
    ends: dict[str, int] = {}
    found: list[tuple[int, str]] = []
    for line in _LINE.finditer(log):
        moment, (word, name, *told) = line[1], [each for each in line.groups()[1:] if each is not None]
        if word == "replace":
            ends.pop(name, None)
        elif word == "entry":
            ends[name] = _seconds(told[0])
        else:
            now = _seconds(moment)
            if name in ends and name not in added:
                found.append((ends[name] - now, name))
            ends[name] = now + int(told[0])
    return "{} s before the end of {}".format(*min(found)) if found else "none"


def _seconds(moment: str) -> int:
    """A moment of the log, which is a number or a date."""
    read = int(moment) if moment.isdigit() else read_rfc3339(moment)
    if read is None:
        raise ValueError(f"the log has the moment {moment}")
    return read
