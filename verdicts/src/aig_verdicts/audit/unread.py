"""What of the input has no verdict: properties that nobody looks at. Each of them is a row of the table, so that no status
says more than was checked."""

from __future__ import annotations

from collections import Counter
from enum import Enum
from typing import Any, Dict, Iterable, List, NamedTuple, Tuple

from .sentences import ELSEWHERE, JUSTICE, LIVE, NOT_LOOKED_AT

# Where the header of a circuit has its bad state properties and its justice properties.
_BAD, _JUSTICE = 5, 7


class Why(Enum):
    """Why nobody looks at a property. MANIFEST.json has the value, and a table its words."""

    LIVENESS = "liveness"
    JUSTICE = "justice"
    ELSEWHERE = "elsewhere"

    @property
    def words(self) -> str:
        return {Why.LIVENESS: LIVE, Why.JUSTICE: JUSTICE, Why.ELSEWHERE: ELSEWHERE}[self]


class Unread(NamedTuple):
    """A property without a verdict: of the sources, with its file and line, or of the circuit, with its number."""

    why: Why
    file: str = ""
    line: int = 0

    @property
    def place(self) -> str:
        """FILE:LINE, or what the circuit calls it."""
        return f"{self.file}:{self.line}" if self.file else f"j{self.line}"

    @property
    def said(self) -> str:
        return f"{NOT_LOOKED_AT}: {self.why.words}, {self.place}"

    def facts(self) -> Dict[str, Any]:
        return {"why": self.why.value, "file": self.file, "line": self.line}


def _count(circuit: bytes, field: int) -> int:
    """A number of the header of a circuit, which is the first line of both formats."""
    numbers = circuit[:circuit.index(b"\n")].split()[1:]
    return int(numbers[field]) if field < len(numbers) else 0


def properties_of(circuit: bytes) -> int:
    """How many bad state properties a circuit has."""
    return _count(circuit, _BAD)


def of_circuit(circuit: bytes) -> List[Unread]:
    """The justice properties of a circuit, which nothing here decides."""
    return [Unread(Why.JUSTICE, line=at) for at in range(_count(circuit, _JUSTICE))]


def are_facts(value: Any) -> bool:
    """Whether MANIFEST.json can have this."""
    return type(value) is list and all(
        type(it) is dict and set(it) == set(Unread._fields) and type(it["file"]) is str and type(it["line"]) is int
        and it["line"] >= 0 and it["why"] in {why.value for why in Why} and (it["why"] == Why.JUSTICE.value) == (it["file"] == "")
        for it in value)


def of_sources(facts: Iterable[Dict[str, Any]]) -> List[Unread]:
    """Those of the sources that MANIFEST.json has. Those of the circuit come from the circuit."""
    found = [Unread(Why(it["why"]), it["file"], it["line"]) for it in facts]
    return [it for it in found if it.why is not Why.JUSTICE]


def more_than(old: Iterable[Unread], new: Iterable[Unread]) -> List[Unread]:
    """Those that an older version has not. Their lines may be others."""
    def key(it: Unread) -> Tuple[Why, str]:
        return it.why, it.file

    left, found = Counter(map(key, old)), []
    for it in new:
        left[key(it)] -= 1
        found += [it] * (left[key(it)] < 0)
    return found
