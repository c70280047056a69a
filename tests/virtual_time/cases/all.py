"""All cases."""

from __future__ import annotations

from . import Case, behind, ceilings, changes, clocks, files, good_brokers, lanes, outages, replies, restarts, told

MODULES = (good_brokers, outages, restarts, clocks, ceilings, lanes, changes, files, replies, told, behind)
KEPT: tuple[Case, ...] = tuple(case for module in MODULES for case in module.KEPT)
NOT_YET: tuple[Case, ...] = tuple(case for module in MODULES for case in module.NOT_YET)
