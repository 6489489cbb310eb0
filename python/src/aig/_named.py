"""Edits by names, as an engine knows them: a vector is an edit for each of its bits."""

from __future__ import annotations

from typing import Any, Callable, Dict, List, Sequence

from ._arrays import held_to_bounds
from ._engine import LETTERS, Edit, Kind
from .entries import Entries, Signal
from .values import letter, letters_of


def edits_of(signals: Entries, name: object, words: Sequence[Any]) -> List[Edit]:
    """The edits that the name of a method of Bench and its arguments are."""
    if name not in _MAKERS:
        raise ValueError(f"there is no edit {name!r}")
    return [held_to_bounds(it) for it in _MAKERS[str(name)](signals, *words)]


def _set(signals: Entries, input: Signal, frame: int, value: object) -> List[Edit]:
    bits = signals.bits(input, "i")
    values = _values(value, len(bits))
    return [Edit(Kind.SET, frame, it.position, value) for it, value in zip(bits, values)]


def _reset(signals: Entries, latch: Signal, value: object) -> List[Edit]:
    bits = signals.literals(latch)
    return [Edit(Kind.RESET, literal, value) for literal, value in zip(bits, _values(value, len(bits)))]


def _values(value: object, count: int) -> List[int]:
    """The values of so many bits, the least significant first."""
    letters = letter(value) if count == 1 else letters_of(value, count)
    return [LETTERS.index(it) for it in reversed(letters)]


def _rewire(signals: Entries, gate: int, left: Signal, right: Signal) -> List[Edit]:
    return [Edit(Kind.REWIRE, gate, signals.literal(left), signals.literal(right))]


def _add_gate(signals: Entries, left: Signal, right: Signal) -> List[Edit]:
    return [Edit(Kind.APPEND, signals.literal(left), signals.literal(right))]


def _set_output(signals: Entries, output: Signal, signal: Signal) -> List[Edit]:
    return [Edit(Kind.OUTPUT, signals.find(output, "o").position, signals.literal(signal))]


def _pop(_: Entries) -> List[Edit]:
    return [Edit(Kind.DROP)]


_MAKERS: Dict[object, Callable[..., List[Edit]]] = {
    "set": _set, "rewire": _rewire, "reset": _reset, "add_gate": _add_gate, "set_output": _set_output, "pop": _pop,
}
