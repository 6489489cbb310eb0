"""Which version of Yosys makes a circuit, and which versions were tried."""

from __future__ import annotations

import re

# With these, all designs with known truth get their verdicts.
TRIED = ("0.23", "0.52", "0.66")
# The newest of them that loses no assignments (overridden.py).
_LOSES_NONE = (0, 52)


def yosys_of(said: str) -> str:
    """The name and the version in what Yosys says of itself."""
    match = re.search(r"Yosys (\d[\w.+-]*)", said)
    return f"Yosys {match[1]}" if match else "another Yosys"


def untried(said: str) -> str:
    """A note if this version of Yosys was not tried."""
    name = yosys_of(said)
    if name in [f"Yosys {it}" for it in TRIED]:
        return ""
    return f"{name} was not tried: the tests of aig-verdicts ran with Yosys {', '.join(TRIED[:-1])} and {TRIED[-1]}"


def loses_assignments(said: str) -> bool:
    """Whether this version of Yosys loses the assignments of overridden.py, as far as we know."""
    match = re.search(r"Yosys (\d+)\.(\d+)", said)
    return match is None or (int(match[1]), int(match[2])) > _LOSES_NONE
