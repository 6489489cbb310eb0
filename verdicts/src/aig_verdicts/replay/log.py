"""What a simulation printed: values of signals and of checks, frame by frame."""

from __future__ import annotations

from typing import Dict, List, Sequence, Set, Tuple

from .adapted import Check
from .words import NotReplayed

# A check of the sources, by its number, and the scope where it prints.
Key = Tuple[int, str]
Values = Dict[Key, List[str]]


def is_in(scope: str, outer: str) -> bool:
    return scope == outer or scope.startswith(f"{outer}.")


class Log:
    """What a simulation printed.

    own       the values of all signals before the testbench gives any
    frames    the values of all signals in each frame
    said      the values of the checks in each frame; a check without a value was not asserted
    ran       the first frame in which a check has a value, or its block ran
    unsteady  the checks at a clock that have a value also when the clock is still, as those of an asynchronous reset
    given     where signals got the value of the run, as they were x: the frame, and the position of the signal
    """

    def __init__(self, text: str, checks: Sequence[Check], is_cycle: bool):
        self._checks = checks
        self.own: List[str] = []
        self.frames: List[List[str]] = []
        self.said: List[Values] = []
        self.ran: Dict[Key, int] = {}
        self.unsteady: Set[Key] = set()
        self.given: Set[Tuple[int, int]] = set()
        self._now: Values = {}
        self._at_edge: Values = {}
        self._is_data = is_cycle
        self._shown: List[str] = []
        steps = {"begin": self._begin, "value": self._value, "edge": self._edge, "data": self._data,
                 "frame": self._frame, "own": self._own, "x": self._x, "values": self._values}
        for line in text.splitlines():
            words = line.split(" ")
            if words[0] == "aig" and len(words) > 1 and words[1] in steps:
                try:
                    steps[words[1]](words[2:])
                except (ValueError, IndexError):
                    raise NotReplayed(f"the simulator prints {line[:80]!r}") from None

    # -- checks

    def _begin(self, words: Sequence[str]) -> None:
        """A block runs anew: what its checks said is over, unless a reset alone begins and the clock is still."""
        first, last, scope = int(words[0]), int(words[1]), words[2]
        if self._is_data and self._checks[first].block == "clock":
            return
        for key in self._now:
            if first <= key[0] <= last and is_in(key[1], scope):
                self._now[key] = []
        for number in range(first, last + 1):
            self.ran.setdefault((number, scope), len(self.frames))

    def _value(self, words: Sequence[str]) -> None:
        key = int(words[0]), words[2]
        if self._checks[key[0]].block == "module":
            self._now[key] = []
        self._now.setdefault(key, []).append(words[1])
        self.ran.setdefault(key, len(self.frames))
        if self._is_data and self._checks[key[0]].block == "clock":
            self.unsteady.add(key)

    # -- frames

    def _edge(self, _: Sequence[str]) -> None:
        self._is_data = False
        self._at_edge = {}

    def _data(self, _: Sequence[str]) -> None:
        """The clocks have changed, and all else changes now. What a block at a clock has said stays so."""
        self._is_data = True
        self._at_edge = {key: list(values) for key, values in self._now.items()
                         if self._checks[key[0]].block == "clock"}

    def _frame(self, _: Sequence[str]) -> None:
        self._is_data = False
        self.said.append({**{key: list(values) for key, values in self._now.items()}, **self._at_edge})
        for key in self._now:
            if self._checks[key[0]].block == "task":
                self._now[key] = []
        self._at_edge = {}
        self._shown = []
        self.frames.append(self._shown)

    def _own(self, _: Sequence[str]) -> None:
        self._shown = self.own

    def _x(self, words: Sequence[str]) -> None:
        self.given.add((int(words[0]), int(words[1])))

    def _values(self, words: Sequence[str]) -> None:
        self._shown += words[1:]
