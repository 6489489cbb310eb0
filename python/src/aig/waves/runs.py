"""What to show of a witness's run: its values, the causes that `aig why` names, and the signals of the assertion."""

from __future__ import annotations

import re
from typing import Dict, Iterable, List, NamedTuple, Optional, Protocol, Sequence, Set, Tuple

from ..program import run as call
from ..entries import Entry
from . import explained
from .concrete import MOST_TRACE, filled, has_free
from .explained import Line
from .signals import Names, Place, Signal, labels
from .svg import Lane

# Bytes of the lines of `why`. Those of a small circuit can be too many for any memory.
MOST_WHY = 1 << 26


class Shown(Protocol):
    """What is asked of a circuit: its file, and its entries."""

    file: bytes

    @property
    def entries(self) -> List[Entry]: ...


class Told:
    """A circuit whose runs are shown."""

    def __init__(self, circuit: Shown):
        self.circuit = circuit
        self.names = Names(circuit.entries)


class Run:
    """The run of a witness: `run[signal]` is a text of bits per frame, the most significant first."""

    def __init__(self, told: Told, witness: bytes):
        said = call("check", "--trace", files=[told.circuit.file, witness], good=(0, 1), most=MOST_TRACE).decode()
        self._rows = [line.split(" ") for line in said.split("\n")[:-2]]
        self.frames = len(self._rows)
        self.names = told.names

    def __getitem__(self, signal: Signal) -> List[str]:
        column = "lio".index(signal.letter)
        return ["".join(row[column][at] for at in reversed(signal.positions)) for row in self._rows]


class Story(NamedTuple):
    """The run of a witness, the signals to show and their lanes, the lines of `why`, and how many signals are left
    out."""

    run: Run
    signals: List[Signal]
    lanes: List[Lane]
    why: List[Line]
    left: int


def story(told: Told, witness: bytes, text: str = "", concrete: Optional[bytes] = None) -> Story:
    """What to show of a witness, where `text` is that of the assertion. The concrete run has a value for each x;
    without one that is 0."""
    run = Run(told, witness)
    valued = Run(told, concrete or filled(witness)) if has_free(witness) else None
    said = call("why", "--json", "--witness", files=[told.circuit.file, witness], most=MOST_WHY)
    lines = explained.lines(said)
    signals, left = chosen(run.names, lines, text)
    return Story(run, signals, lanes(run, valued, lines, signals, text), lines, left)


def mentioned(names: Names, text: str) -> List[Signal]:
    """The signals that the text of an assertion names."""
    words = dict.fromkeys(re.findall(r"[A-Za-z_][A-Za-z0-9_.$]*", text))
    return _once(signal for word in words for signal in names.words.get(word, []))


def _once(signals: Iterable[Signal]) -> List[Signal]:
    return list({it.key: it for it in signals}.values())


def chosen(names: Names, lines: Sequence[Line], text: str, most: int = 24) -> Tuple[List[Signal], int]:
    """The signals to show: those that the assertion's text names, the causes among them first, then those that the
    lines name. And how many are left out."""
    by_lines = _once(names.at.get(it.signal.places[0], it.signal) for line in lines for it in [*line.kept, *line.causes])
    named = {it.key for it in by_lines}
    by_text = sorted(mentioned(names, text), key=lambda it: it.key not in named)
    order = _once([*by_text, *by_lines])
    return order[:most], max(0, len(order) - most)


def lanes(run: Run, valued: Optional[Run], lines: Sequence[Line], signals: Sequence[Signal], text: str) -> List[Lane]:
    """The lanes of these signals, with what the other run has for each x. A frame is thick where some bit of the signal
    is a cause."""
    causes = causes_of(run.frames, lines)
    strong = {it.key for it in mentioned(run.names, text)}
    return [Lane(label, run[it], frozenset().union(*(causes.get(place, ()) for place in it.places)), it.key in strong,
                 valued[it] if valued is not None else ())
            for label, it in zip(labels(signals), signals)]


def causes_of(frames: int, lines: Sequence[Line]) -> Dict[Place, Set[int]]:
    """The frames at which the lines name each input and latch.

    A line whose two sides are the same is left out: the latch kept its value, so the frame before names it, too.
    """
    found: Dict[Place, Set[int]] = {}
    for line in lines:
        for valued in line.kept:
            for place in valued.named:
                _keep(found.setdefault(place, set()), line.frame, frames)
        for valued in line.causes:
            for place in valued.named:
                found.setdefault(place, set()).add(line.by)
    return found


def _keep(known: Set[int], frame: int, frames: int) -> None:
    """Names a latch at a frame and at the frames after it, up to the one where a line above names it."""
    while frame < frames and frame not in known:
        known.add(frame)
        frame += 1
