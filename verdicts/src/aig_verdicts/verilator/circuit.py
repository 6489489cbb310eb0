"""The circuit of a design: each leaf gets the value of its drivers, registers and latches become states, and properties
outputs. With one clock, which nothing else reads, a frame is a cycle; else a frame is the time between changes of clocks."""

from __future__ import annotations

from typing import Dict, List, NamedTuple, Optional, Set, Tuple

from .design import Design
from .meaning.drivers import old_bits
from .labels import bits_of
from .meaning.names import Signal
from .meaning.processes import Property
from .registers import Register, registers, split
from .dumps.tree import NotRead

_WHOLE = ("const", "input", "state")


class Piece(NamedTuple):
    """Bits of an element, and what gives them: a register, or a word."""

    low: int
    width: int
    register: Optional[Register]
    word: int


class _Loop(Exception):
    """A word depends on itself; perhaps none of its bits does."""


class Circuit:
    """States with first and next values, properties, and the words that they are."""

    def __init__(self, design: Design, outputs: bool = False) -> None:
        self.design, self.words, self._shown = design, design.words, outputs
        self.registers = registers(design)
        self._splits = [(it, split(design, it)) for it in design.clocked]
        self._written = {signal for it in design.clocked for signal in it.writes}
        self.inputs: Dict[Tuple[Signal, int], int] = {}
        self.clock = "none"
        self._find()
        kept = self.design.meaning.kept
        for it in self._support() & set(kept):
            raise NotRead(kept[it])

    def _find(self) -> None:
        for several in (False, True):
            for narrow in (False, True):
                self.several, self._narrow = several, narrow
                self._start()
                try:
                    self._build()
                except _Loop as loop:
                    if narrow:
                        raise NotRead(f"a loop of gates at {loop}") from loop
                    continue
                break
            if several or self._one_clock():
                return

    def _start(self) -> None:
        self.states: Dict[int, Tuple[Optional[int], int]] = {}  # its initial value, and its next one
        self.bads: List[Tuple[Property, int]] = []
        self.constraints: List[Tuple[Property, int]] = []
        self._memo: Dict[Tuple[int, int, int], int] = {}
        self._busy: Set[Tuple[int, int, int]] = set()
        self._cells: Dict[Tuple[object, ...], int] = {}
        self._todo: List[Tuple[int, Optional[int], int]] = []
        self._edges: Dict[Tuple[int, bool], int] = {}
        self._clocks: Set[Tuple[int, bool]] = set()

    def _build(self) -> None:
        for it in self.design.free_properties:
            self._property(it, self.value(it.when))
        for process, ((clock, rising), _) in self._splits:
            for it in process.properties:
                when = self.value(it.when)
                if self.several:
                    sampled = self._state(("sampled", it), 1, f"sampled:{it.name}", self.words.zero, it.when)
                    when = self.words.conj(self._edge(clock, rising), sampled)
                else:
                    self._clocks.add((clock, rising))
                self._property(it, when)
        shown = [it for it in self.design.top.names.values() if self._shown and isinstance(it, Signal)]
        self.outputs = [(self._label(it, element, it.shape.width - 1, 0), self.value(leaf))
                        for it in shown if it.direction == "output" for element, leaf in enumerate(it.leaves)]
        while self._todo:
            state, first, following = self._todo.pop()
            self.states[state] = (first, self.value(following))

    def _property(self, it: Property, when: int) -> None:
        (self.constraints if it.kind == "assume" else self.bads).append((it, when))

    def _one_clock(self) -> bool:
        """Whether all registers wait for one edge of one input that nothing else reads."""
        roots = {self.value(clock) if rising else self.words.invert(self.value(clock)) for clock, rising in self._clocks}
        if not roots:
            return True
        if len(roots) > 1:
            return False
        root = next(iter(roots))
        leaf = self.words.parts[root][0] if self.words.kind[root] == "not" else root
        if self.words.kind[leaf] != "input":
            return False
        self.clock = self.words.label[leaf]
        return leaf not in self._support()

    def _support(self) -> Set[int]:
        """The leaves that matter."""
        outside = [it for _, it in self.bads + self.constraints] + [it for _, it in self.outputs]
        return self.words.support(outside + [it[1] for it in self.states.values()])

    # -- values
    def value(self, word: int) -> int:
        """A word without leaves that are signals."""
        return self.part(word, self.words.width[word] - 1, 0)

    def part(self, word: int, high: int, low: int) -> int:
        """The bits high to low of a word, without leaves that are signals."""
        w = self.words
        if not self._narrow and (high, low) != (w.width[word] - 1, 0):
            return w.slice(self.value(word), high, low)
        key = (word, high, low)
        if key not in self._memo:
            if key in self._busy:
                raise _Loop(w.label.get(word, "?"))
            self._busy.add(key)
            self._memo[key] = self._found(word, high, low)
            self._busy.discard(key)
        return self._memo[key]

    def _found(self, x: int, high: int, low: int) -> int:
        w, kind, parts = self.words, self.words.kind[x], self.words.parts[x]
        if x in self.design.holds:
            return w.slice(self._held(x), high, low)
        if kind == "signal":
            return self._signal(x, high, low)
        if kind in _WHOLE:
            return w.slice(x, high, low)
        if kind == "slice":
            return self.part(parts[0], parts[2] + high, parts[2] + low)
        if kind == "concat":
            return self._side_by_side(parts, high, low)
        if kind in ("and", "or", "xor"):
            return w.op(kind, self.part(parts[0], high, low), self.part(parts[1], high, low))
        if kind == "not":
            return w.invert(self.part(parts[0], high, low))
        if kind == "ite":
            return self._choice(parts, high, low)
        if kind in ("add", "sub", "mul"):  # no bit depends on a higher one
            return w.slice(w.op(kind, self.part(parts[0], high, 0), self.part(parts[1], high, 0)), high, low)
        return w.slice(w.rebuilt(x, [self.value(it) for it in parts]), high, low)

    def _side_by_side(self, parts: Tuple[int, ...], high: int, low: int) -> int:
        cut = self.words.width[parts[1]]
        if low >= cut:
            return self.part(parts[0], high - cut, low - cut)
        if high < cut:
            return self.part(parts[1], high, low)
        return self.words.concat(self.part(parts[0], high - cut, 0), self.part(parts[1], cut - 1, low))

    def _choice(self, parts: Tuple[int, ...], high: int, low: int) -> int:
        w, c = self.words, self.value(parts[0])
        if c in (w.zero, w.one):
            return self.part(parts[1] if c == w.one else parts[2], high, low)
        return w.ite(c, self.part(parts[1], high, low), self.part(parts[2], high, low))

    def _signal(self, leaf: int, high: int, low: int) -> int:
        """Bits of a signal: what drives them, side by side."""
        signal, element = self.words.owner[leaf]
        if not isinstance(signal, Signal):
            raise NotRead("a leaf without a signal")
        if signal is self.design.meaning.first:
            return self._state(("first",), 1, "first_frame", self.words.one, self.words.zero)
        pieces = [Piece(d[1], d[2], None, d[3]) for d in signal.drivers if d[0] == element]
        pieces += [Piece(it.low, it.width, it, 0) for it in self.registers.get(signal, []) if it.element == element]
        made, at = [], low
        for it in sorted(pieces, key=lambda it: it[:2]):
            if it.low > high or it.low + it.width <= low:
                continue
            if it.low > at:
                made.append(self._open(signal, element, it.low - 1, at))
            elif made and it.low < at:
                raise signal.node.error(f"two drivers of {signal.path}")
            start, end = max(it.low, low), min(it.low + it.width - 1, high)
            if it.register is None:
                made.append(self.part(it.word, end - it.low, start - it.low))
            else:
                made.append(self._register(signal, it.register, end, start))
            at = end + 1
        if at <= high:
            made.append(self._open(signal, element, high, at))
        return self.words.joined(made)

    def _label(self, signal: Signal, element: int, high: int, low: int) -> str:
        return self.design.labels.label(signal, element, low, high - low + 1)

    def _start_of(self, signal: Signal, element: int, high: int, low: int) -> List[Optional[int]]:
        """6.8 and 9.2.1: the initial values of some bits, None for an x. A value that depends on a signal is not read."""
        w = self.words
        if signal.start is None:
            return [None] * (high - low + 1)
        start = signal.start[element]
        value = w.value(start)
        if value is not None:
            return [value >> k & 1 for k in range(low, high + 1)]
        if w.support([start]) - self.design.meaning.opens:
            own = old_bits(w, start, signal.leaves[element])
            rest = w.joined([w.zero if own[k] else w.slice(start, k, k) for k in range(w.width[start])])
            if w.support([rest]) - self.design.meaning.opens:
                raise signal.node.error(f"the initial value of {signal.path} is no constant")
        return [w.value(w.slice(start, k, k)) for k in range(low, high + 1)]

    def _open(self, signal: Signal, element: int, high: int, low: int) -> int:
        """Bits that nothing drives: an input of the top module, a constant initial value, or any value."""
        w, width = self.words, high - low + 1
        is_outside = signal.direction in ("input", "inout") and self.design.top.names.get(signal.node.name) is signal
        is_written = signal in self._written
        known: List[Optional[int]] = [None] * width
        if not is_outside:
            known = self._start_of(signal, element, high, low)
        if None not in known and not is_written:
            return w.joined([w.const(bit or 0, 1) for bit in known])
        if not is_outside and (is_written or self.design.source.attribute(signal.node, "anyconst")):
            label, leaf = self._label(signal, element, high, low), w.slice(signal.leaves[element], high, low)
            return self._split_state(("still", signal, element, high, low), label, known, leaf)  # as after q <= q
        key = (signal, element)
        if key not in self.inputs:
            label = self._label(signal, element, signal.shape.width - 1, 0)
            self.inputs[key] = w.leaf("input", signal.shape.width, label if is_outside else "open:" + label)
        bits = zip(range(low, high + 1), known)
        return w.joined([w.slice(self.inputs[key], k, k) if bit is None else w.const(bit, 1) for k, bit in bits])

    def _state(self, key: Tuple[object, ...], width: int, label: str, first: Optional[int], following: int) -> int:
        """A state, made once. Its next value is found later."""
        if key not in self._cells:
            self._cells[key] = self.words.leaf("state", width, label)
            self._todo.append((self._cells[key], first, following))
        return self._cells[key]

    def _split_state(self, key: Tuple[object, ...], label: str, start: List[Optional[int]], following: int) -> int:
        """A state, or one per bit where only some bits have an initial value."""
        w, width = self.words, len(start)
        if None not in start:
            return self._state(key, width, label, w.joined([w.const(bit or 0, 1) for bit in start]), following)
        if not any(it is not None for it in start):
            return self._state(key, width, label, None, following)
        names = bits_of(label, width)
        made = []
        for k, bit in enumerate(start):
            first = None if bit is None else w.const(bit, 1)
            made.append(self._state((*key, k), 1, names[k], first, w.slice(following, k, k)))
        return w.joined(made)

    def _held(self, hold: int) -> int:
        """What a latch holds."""
        (signal, element), top = self.design.holds[hold], self.words.width[hold] - 1
        start = self._start_of(signal, element, top, 0)
        label = "held:" + self._label(signal, element, top, 0)
        return self._split_state(("latch", hold), label, start, signal.leaves[element])

    def _edge(self, clock: int, rising: bool) -> int:
        """Whether a clock has changed since the frame before. It has not in the first one."""
        w = self.words
        now = self.value(clock)
        before = self._state(("clock", clock, rising), 1, "clock_before", w.const(int(rising), 1), clock)
        return w.conj(now, w.invert(before)) if rising else w.conj(w.invert(now), before)

    def _register(self, signal: Signal, it: Register, high: int, low: int) -> int:
        """Bits of a register, with what asynchronous signals force."""
        w, top = self.words, it.low + it.width - 1
        if signal in self.design.refused:
            raise NotRead(self.design.refused[signal])
        start, label = self._start_of(signal, it.element, top, it.low), self._label(signal, it.element, top, it.low)
        if self.several:
            old = w.slice(signal.leaves[it.element], top, it.low)
            before = self._split_state(("before", signal, it), "before:" + label, start, old)
            zeros: List[Optional[int]] = [0] * it.width  # nothing reads it before the first edge
            sampled = self._split_state(("sampled", signal, it), "sampled:" + label, zeros, it.next)
            made = w.ite(self._edge(it.clock, it.rising), sampled, before)
        else:
            self._clocks.add((it.clock, it.rising))
            made = self._split_state(("register", signal, it), "kept:" * bool(it.forced) + label, start, it.next)
        for forced in reversed(it.forced):
            value, bits = w.const(forced.value, it.width), w.const(forced.bits, it.width)
            mixed = w.op("or", w.op("and", made, w.invert(bits)), value)
            made = w.ite(self.value(forced.active), mixed, made)
        return w.slice(made, high - it.low, low - it.low)
