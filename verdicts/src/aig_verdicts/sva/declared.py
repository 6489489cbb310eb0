"""The signals that a module declares, and their values before the first edge of a clock.

Before the first edge, a variable with a value in its declaration has that value, one of a type with two states has 0,
and each other signal is x. A name that is declared in two ways, or not found, has no such value here."""

from __future__ import annotations

from dataclasses import dataclass, field
from typing import Dict, Iterator, List, NamedTuple, Optional, Sequence, Set, Tuple

from .constants import constant, literal
from .model import Module
from .named_types import (
    COMPOUND, FOUR_STATES, NETS, PORTS, REALS, TWO_STATES, WORDS_OF_TYPES, Types, end_of_statement,
)
from .words import CLOSE, OPEN, Kind, Word, closing, text_of

_SIGNED = frozenset({"integer", "int", "byte", "shortint", "longint", "signed"})
_WIDE = frozenset({"integer", "int", "byte", "shortint", "longint"})
_FUNCTIONS = frozenset({"function", "task"})
# What may come before a statement or a declaration.
_BEFORE = frozenset({";", "begin", ")", "else", ":", ",", "do", "fork"})


class Bits(NamedTuple):
    """How many bits a signal has, and the index of its least significant one, if its indices fall to a number. None is
    what the source does not say in numbers."""

    width: Optional[int] = None
    least: Optional[int] = None


@dataclass
class Signal:
    """A signal, as it is declared.

    is_net       whether it is a net, which has no value of its own
    bits         those of its declaration
    initial      the words of its value in the declaration
    is_open      whether nothing is known of it: it is declared twice, or in a way that is not understood
    """

    name: str
    direction: str = ""
    is_net: bool = False
    is_signed: bool = False
    is_two_state: bool = False
    is_array: bool = False
    is_enum: bool = False
    bits: Bits = Bits()
    initial: List[Word] = field(default_factory=list)
    is_open: bool = False

    @property
    def width(self) -> Optional[int]:
        return self.bits.width


class Signals:
    """The signals of a module."""

    def __init__(self, words: Sequence[Word], module: Module, types: Types, is_top: bool):
        self._words, self._module, self._types, self._is_top = words, module, types, is_top
        self._found: Dict[str, Signal] = {}
        self._assigned: Dict[str, List[List[Word]]] = {}
        self._blocking: Set[str] = set()
        self._constants = {*module.constants, *types.values}
        self._edges: Set[str] = set()
        self._depth = 0  # of blocks
        self._declarations()
        self._drivers()

    def of(self, name: str) -> Optional[Signal]:
        """A signal that is declared once, in a way that is understood."""
        found = self._found.get(name)
        return None if found is None or found.is_open or name in self._constants else found

    def is_constant(self, name: str) -> bool:
        return name in self._constants and name not in self._found

    # -- declarations

    def _declarations(self) -> None:
        words, at, end = self._words, self._module.first + 2, self._module.end
        while at < end:
            text = words[at].text
            self._depth += (text == "begin") - (text == "end")
            if text in _FUNCTIONS:
                at = next((k for k in range(at, end) if words[k].text == "end" + text), end)
            elif text == "typedef":
                at = end_of_statement(words, at)
            elif text in ("parameter", "localparam"):
                at = self._after_type(at + 1)
            elif text in REALS or text in COMPOUND:
                at = self._strange(at, end)
            elif text == "genvar":
                self._constants.update(it.text for it in words[at + 1:end_of_statement(words, at)] if it.is_name)
                at += 1
            elif text in WORDS_OF_TYPES or self._is_typed(at):
                at = self._declaration(at, end)
            else:
                at += 1

    def _after_type(self, at: int) -> int:
        """What comes after the type of a constant."""
        while self._words[at].text in WORDS_OF_TYPES or self._words[at].text == "[":
            at = closing(self._words, at) + 1 if self._words[at].text == "[" else at + 1
        return at

    def _is_typed(self, at: int) -> bool:
        """Whether a name of a type is here, and a name that it declares."""
        words = self._words
        return (words[at].text in self._types.names and words[at + 1].is_name
                and words[at + 2].text in (";", ",", "=", "[", ")"))

    def _strange(self, at: int, end: int) -> int:
        """A declaration that is not understood: nothing is known of its names."""
        stop = min(end_of_statement(self._words, at), end)
        for it in self._words[at:stop]:
            if it.is_name:
                self._add(Signal(it.text, is_open=True))
        return stop

    def _declaration(self, at: int, end: int) -> int:
        words, head = self._words, set()
        ranges: List[Bits] = []
        while at < end and (words[at].text in WORDS_OF_TYPES or words[at].text == "[" or self._is_typed(at)):
            if words[at].text == "[":
                last = closing(words, at)
                ranges.append(_range(words[at + 1:last]))
                at = last
            elif words[at].text in self._types.names:
                ranges += [Bits(), Bits()]
                head.add("enum" if words[at].text in self._types.enums else "logic")
                head |= {"signed"} if words[at].text in self._types.signed else set()
            else:
                head.add(words[at].text)
            at += 1
        bits = Bits() if len(ranges) > 1 or head & _WIDE else (ranges or [Bits(1)])[0]
        return self._names(at, end, head, bits)

    def _names(self, at: int, end: int, head: Set[str], bits: Bits) -> int:
        """The names of a declaration, each with its value."""
        words = self._words
        direction = next((it for it in PORTS if it in head), "")
        is_variable = bool(head & (FOUR_STATES | TWO_STATES | {"enum", "var"})) and not head & NETS
        is_net = not is_variable or direction in ("input", "inout")
        while at < end and words[at].is_name and words[at].text not in WORDS_OF_TYPES and not self._is_typed(at):
            signal = Signal(words[at].text, direction, is_net, bool(head & _SIGNED), bool(head & TWO_STATES),
                            is_enum="enum" in head, bits=bits)
            at += 1
            while words[at].text == "[":
                signal.is_array, at = True, closing(words, at) + 1
            if words[at].text == "=":
                last = _after_value(words, at + 1)
                signal.initial, at = list(words[at + 1:last]), last
            if not (head & set(PORTS) and not head & (NETS | FOUR_STATES | TWO_STATES) and self._merged(signal)):
                self._add(signal)
            if words[at].text != ",":
                break
            at += 1
        return at

    def _merged(self, signal: Signal) -> bool:
        """Whether a port `output q;` has a declaration `reg q;` too, which then counts."""
        return signal.name in self._found and not self._found[signal.name].direction

    def _add(self, signal: Signal) -> None:
        known = self._found.get(signal.name)
        if known is not None and self._is_of_port(known, signal):
            signal.direction = known.direction
        elif known is not None:
            signal.is_open = True
        self._found[signal.name] = signal

    def _is_of_port(self, port: Signal, signal: Signal) -> bool:
        """Whether a declaration is one more of a port, as in `output q; reg q = 0;`."""
        is_right = port.direction == "output" or signal.is_net
        return port.direction != "" and not port.initial and signal.direction == "" and is_right and self._depth == 0

    # -- what drives a signal

    def _drivers(self) -> None:
        words = self._words
        for k in range(self._module.first, self._module.end):
            text = words[k].text
            if text == "assign" and words[k + 1].is_name and words[k + 2].text == "=":
                self._assigned.setdefault(words[k + 1].text, []).append(list(words[k + 3:end_of_statement(words, k)]))
            elif text == "@" and words[k + 1].text == "(":
                event = words[k + 2:closing(words, k + 1)]
                if any(it.text in ("posedge", "negedge") for it in event):
                    self._edges.add(text_of(event))
            elif text == "=":
                self._blocking.update(it.text for it in self._written(k))

    def _written(self, at: int) -> Iterator[Word]:
        """The names that a blocking assignment writes."""
        k, level = at - 1, 0
        while k > self._module.first:
            word = self._words[k]
            if level == 0 and (word.text in _BEFORE or word.text in OPEN):
                return
            level += (word.text in CLOSE) - (word.text in OPEN)
            if word.is_name:
                yield word
            k -= 1

    def is_known_at_first(self, names: Sequence[Word], clock: str, depth: int = 0) -> bool:
        """Whether no simulation has x in these words at the first edge: they are inputs of the top module, and what is
        made of them alone, or variables with a value that one clock alone changes."""
        return depth < 8 and all(self._is_known(it, clock, depth) for it in names if it.kind is Kind.NAME)

    def _is_known(self, word: Word, clock: str, depth: int) -> bool:
        if self.is_constant(word.text):
            return True
        signal = self.of(word.text)
        if signal is None or signal.is_array:
            return False
        if signal.direction == "input":
            return self._is_top and not signal.is_two_state and not signal.initial
        if not signal.is_net and (signal.initial or signal.is_two_state):
            times = self._times_written(word.text) if word.text in self._blocking else 0
            is_number = not signal.initial or literal(text_of(signal.initial)) is not None
            is_driven = word.text in self._assigned or times > bool(signal.initial)
            return is_number and not is_driven and self._edges <= {clock}
        values = self._assigned.get(word.text, []) + [signal.initial] * bool(signal.is_net and signal.initial)
        if signal.is_net and len(values) == 1 and signal.direction != "inout":
            return _is_plain(values[0]) and self.is_known_at_first(values[0], clock, depth + 1)
        return False

    def _times_written(self, name: str) -> int:
        words = self._words
        return sum(words[k].text == "=" and any(it.text == name for it in self._written(k))
                   for k in range(self._module.first, self._module.end))


def _range(words: Sequence[Word]) -> Bits:
    """The bits of a range `7:0`."""
    middle = [k for k, it in enumerate(words) if it.text == ":"]
    if len(middle) != 1:
        return Bits()
    high, low = (constant(it, {}) for it in (words[:middle[0]], words[middle[0] + 1:]))
    if high is None or low is None:
        return Bits()
    return Bits(abs(high - low) + 1, low if high > low else None)


def _after_value(words: Sequence[Word], at: int) -> int:
    """Where the value of a declaration ends."""
    while words[at].text not in (",", ";", ")"):
        at = closing(words, at) + 1 if words[at].text in OPEN else at + 1
    return at


_PLAIN = frozenset("!~&|^?:(){},+-<>") | {"&&", "||", "==", "!=", "<=", ">="}


def _is_plain(words: Sequence[Word]) -> bool:
    """Whether an expression of known values is known: it has no x, no index, no call and no division."""
    pairs = zip(words, [*words[1:], None])
    return all(it.text in _PLAIN or it.kind is Kind.NUMBER and literal(it.text) is not None
               or it.is_name and not it.text.startswith("$") and (after is None or after.text != "(")
               for it, after in pairs)

