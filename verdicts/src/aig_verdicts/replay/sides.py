"""What circuit and sources both name, and how a testbench drives it."""

from __future__ import annotations

import re
from dataclasses import dataclass, field
from typing import Dict, FrozenSet, List, Sequence, Set, Tuple

from aig.circuit import Circuit
from ..audit.timing import Timing
from .adapted import BEFORE
from .signals import Named, Shape, Signal, is_given, named
from .simulator import Rejected, Simulator
from .stimulus import Latches, latches_of
from .testbench import TIMESCALE_OF_DESIGN, Player, asking, has_line_of, shapes
from .words import NotReplayed, Unreadable

# How often signals that the simulator does not know are left out.
MOST_PROBES = 60


# A name in a list of events.
_WAITED = re.compile(r"\b(?:pos|neg)edge\s+\(?\s*(?:\\(\S+)|([A-Za-z_][\w$]*))")


@dataclass
class Source:
    """The sources of a design, as the simulator gets them.

    top         the top module, with the values that its parameters get
    text        all of them in one text, adapted
    defines     the macros
    inputs      the inputs of the top module, as it declares them
    both        its ports that are inputs and outputs
    escaped     the names with a backslash, without it
    has_older_words  whether names are words of SystemVerilog
    """

    top: str
    text: str
    defines: Sequence[str]
    inputs: Sequence[str] = ()
    both: Sequence[str] = ()
    escaped: FrozenSet[str] = frozenset()
    has_older_words: bool = False

    def behind(self, bench: str) -> str:
        """A testbench with the design after it."""
        whole = f"{bench}{TIMESCALE_OF_DESIGN}\n{self.text}"
        return f'`begin_keywords "1364-2005"\n{whole}\n`end_keywords\n' if self.has_older_words else whole

    def run(self, bench: str, before: str, simulator: Simulator) -> str:
        """What a testbench prints, where `before` is what `$past` is at the beginning."""
        return simulator.run(self.behind(bench), [*self.defines, f"{BEFORE}={before}"])


@dataclass
class Sides:
    """The signals of a circuit, beside those of its sources.

    player    what a testbench drives and prints
    left_out  the signals that are not compared, by their names in the circuit
    unset     the registers with any first value that the testbench cannot set, by position: the simulator's value is its own
    """

    circuit: Circuit
    source: Source
    timing: Timing
    simulator: Simulator
    left_out: List[str] = field(default_factory=list)
    unset: Dict[int, str] = field(default_factory=dict)

    def __post_init__(self) -> None:
        self.latches: Latches = latches_of(self.circuit)
        clock = self.timing.clock_name if self.timing.clock else None
        self._literals = {letter: [it.literal for it in self.circuit.signals.section(letter)] for letter in "ilo"}
        self._clocks = {it.literal for it in self.circuit.signals.section("i") if clock in it.name.split(" ")}
        self.player = self._player()

    def _player(self) -> Player:
        known = named(self.circuit.entries, self.source.escaped)
        plain = [it for it in known if it.text]
        declared = {*self.source.inputs, *self.source.both}
        ports = [it for it in plain if it.letter == "i" and {it.text, f"\\{it.path}"} & declared]
        own = {it.path for it in ports}
        ports += [it for it in map(_unread, self.source.inputs) if it.path not in own]
        asked, ports, ranges = self._asked(plain, ports)
        driven = {at for it in ports for at in it.positions.values()}
        inputs = _shaped(ports, "p", ranges)
        paths = {it.path for it in inputs}
        found = [it for it in _shaped(asked, "s", ranges) if it.path not in paths]
        free = [it for it in found if it.letter == "i" and it.is_whole and not driven & set(it.columns)]
        constants = [it for it in found if self._is_constant(it)]
        hidden = {*free, *constants}
        shown = [it for it in found if it not in hidden and not self._is_clock(it)]
        self._leave_out(known, {it.path for it in [*inputs, *found]})
        states = self._states(found, constants)
        self.unset = self._unset({it.path for it in [*inputs, *found]})
        registers, words = [it for it in states if not it.is_word and it.is_whole], [it for it in states if it.is_word]
        waited = frozenset(one or other for one, other in _WAITED.findall(self.source.text))
        clock = next((it for it in inputs if it.path == self.timing.clock_name), None)
        if self.timing.clock and clock is None:
            raise NotReplayed(f"the clock {self.timing.clock_name} is no input that {self.simulator.program} knows")
        return Player(self.source.top, self.timing, inputs, free, constants, registers, words, shown, waited, clock)

    def _states(self, found: Sequence[Signal], constants: Sequence[Signal]) -> List[Signal]:
        """The registers. With several clocks, or with an asynchronous reset, a register is an output, and a latch
        remembers what it was."""
        latches = (it for it in named(self.circuit.entries, self.source.escaped) if it.letter == "l")
        before = {part for it in latches for part in _before(it.path)}
        hidden = set(constants)
        return [it for it in found
                if it.letter == "l" and it not in hidden or it.letter == "o" and it.path in before]

    def _unset(self, known: Set[str]) -> Dict[int, str]:
        """The registers of the sources that the simulator does not know. A word of a memory may be known by its bits."""
        latches = (it for it in named(self.circuit.entries, self.source.escaped) if it.letter == "l")
        own: Dict[int, List[str]] = {}
        for latch in latches:
            for at in latch.positions.values():
                own.setdefault(at, []).extend([latch.path, *_before(latch.path)])
        parts = known | {path.rpartition("[")[0] for path in known}
        lost = {at: paths[-1] for at, paths in own.items()
                if not parts & set(paths) and not all(is_given(it) and not _before(it) for it in paths)}
        nameless = {it.position: "a register without a name" for it in self.circuit.entries
                    if it.letter == "l" and not it.name}
        return {at: name for at, name in sorted({**lost, **nameless}.items()) if self.latches.is_open(at)}

    @property
    def starts(self) -> Dict[str, str]:
        """The first value of each register and word of a memory, with x where the circuit leaves it open, and ? where it does
        not say it. With several clocks a name may be that of a register or of what an edge samples: words alone have one."""
        latches = {it.path: it.positions for it in named(self.circuit.entries, self.source.escaped) if it.letter == "l"}
        found = {}
        for it in (*self.player.registers, *self.player.words):
            kept = latches.get(f"{it.path}_kept", {}) if self.timing.is_cycle else {}
            if it.letter == "l" and (self.timing.is_cycle or it.is_word):
                found[it.path] = "".join(map(self._start, it.columns))
            elif kept and it.shape.right in (None, 0) and set(kept) <= set(it.shape.indexes()):
                found[it.path] = "".join(self._start(kept.get(index, -1)) for index in it.shape.indexes())
        return found

    def _start(self, at: int) -> str:
        if at < 0:
            return "?"
        if self.latches.is_open(at) and not self.simulator.has_x:
            return "?"
        return "x" if self.latches.is_open(at) else self.latches.resets[at]

    def _is_constant(self, it: Signal) -> bool:
        return it.letter == "l" and all(self.latches.is_constant(at) for at in it.columns if at >= 0)

    def _is_clock(self, it: Signal) -> bool:
        """Whether it is the one clock under another name: its value in a frame is nothing."""
        literals = self._literals[it.letter]
        return it.letter != "l" and all(at < 0 or literals[at] in self._clocks for at in it.columns)

    def _leave_out(self, known: Sequence[Named], compared: Set[str]) -> None:
        """Keeps the names of the sources that are not compared. The bits of a name may be compared by themselves."""
        parts = {path.rpartition("[")[0] for path in compared}
        self.left_out = sorted({it.path for it in known if it.path not in compared | parts and not it.is_given})

    def _asked(self, names: List[Named], ports: List[Named]) -> Tuple[List[Named], List[Named], Dict[str, Shape]]:
        """The names that the simulator knows, the input ports among them, and the shapes of both."""
        for _ in range(MOST_PROBES):
            lines = asking(self.source.top, ports, names)
            try:
                found = shapes(self.source.run("\n".join(lines), "0", self.simulator))
                if len(found) != len(names) + len(ports):
                    raise NotReplayed(f"{self.simulator.program} does not print the signals")
                return names, ports, found
            except Rejected as error:
                if error.is_syntax and not self.source.has_older_words:
                    self.source.has_older_words = True
                    continue
                moved = int(self.source.has_older_words)
                wrong = [lines[at - 1 - moved] for at in set(error.lines) if moved < at <= len(lines)]
                unknown = [it for it in names if any(has_line_of(it, line) for line in wrong)]
                lost = {it.path for it in ports} & set(error.no_ports)
                if not unknown and not lost:
                    raise Unreadable(f"{self.simulator.program}: {error}") from None
                ports = [it for it in ports if it.path not in lost]
                names = [it for it in names if it not in unknown]
                names += [bit for it in unknown for bit in it.bits() if not it.text.endswith("]")]
        raise Unreadable(f"{self.simulator.program} does not know the signals of the circuit")


def _before(path: str) -> List[str]:
    """The registers that a latch may remember: `q_before` that of q, `q_3_2_before` the bits 3 and 2 of it, and
    `q_kept` what q is without its asynchronous reset."""
    match = re.fullmatch(r"((.+?)(?:_\d+)?(?:_\d+)?)_(?:before|kept)(?:_\d+)?", path)
    return [match[1], match[2]] if match else []


def _unread(text: str) -> Named:
    """An input that the circuit does not have."""
    is_escaped = text.startswith("\\")
    return Named(text[is_escaped:], f"{text} " if is_escaped else text, "i", {})


def _shaped(names: Sequence[Named], kind: str, ranges: Dict[str, Shape]) -> List[Signal]:
    found = (it.shaped(ranges[f"{kind}{at}"]) for at, it in enumerate(names))
    return [it for it in found if it is not None]
