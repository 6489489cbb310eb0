"""Differences that have an explanation. Both sides stay as they are: which one is right, the explanation says."""

from __future__ import annotations

import fnmatch
from typing import NamedTuple, Optional, Tuple


class Known(NamedTuple):
    """The modules whose name matches, as `PACKAGE FILE MODULE`, and why they differ."""

    pattern: str
    why: str


_SET_AND_RESET = "where set or reset ends while the other one is on, a simulation keeps the old value"
_DELAYS = "the delays of its gates are longer than a frame of the testbench"
KNOWN: Tuple[Known, ...] = (
    Known("yosys_* tests/techmap/dfflibmap-sim.v dffsr", _SET_AND_RESET),
    Known("iverilog_* ivtest/vpi/pr2048463.v addbit", _DELAYS),
)


def explanation(name: str) -> Optional[str]:
    return next((it.why for it in KNOWN if fnmatch.fnmatchcase(name, it.pattern)), None)
