"""The text of testbenches: one that asks for the shapes of signals, and one that plays a run."""

from __future__ import annotations

import random
import re
from dataclasses import dataclass, field
from typing import Dict, FrozenSet, Iterator, List, Optional, Sequence, Set, Tuple

from .signals import Frame, Named, Shape, Signal
from ..audit.timing import Timing

# A frame is long, so that delays of gates are over before it ends.
TIMESCALE, TIMESCALE_OF_DESIGN = "`timescale 1us/1ns", "`timescale 1ns/1ns"
# How many values are on one line of the log.
IN_A_LINE = 64
# The other part of a concatenation.
SPARE = "spare_bit"
# How often a value is given to signals that are x: one x may be the cause of others.
ROUNDS = 2


@dataclass(frozen=True)
class Player:
    """What a testbench drives, and what it prints.

    top        the top module, with the values that its parameters get
    ports      the input ports
    free       signals without a driver, which have the values of the run
    constants  signals that have one value in all of the run
    registers  registers, which begin with the values of the run
    words      words of memories, which begin so too
    shown      all signals whose values are compared
    waited     the names that a block waits for an edge of
    clock      the one clock, if there is one
    wired      whether wires are between the registers of the testbench and the ports, as `inout` needs them
    fixed      names of arrays of wires, whose words get no values
    typed      names of variables that take no number, as those of an `enum`
    """

    top: str
    timing: Timing
    ports: Sequence[Signal]
    free: Sequence[Signal]
    constants: Sequence[Signal]
    registers: Sequence[Signal]
    words: Sequence[Signal]
    shown: Sequence[Signal]
    waited: FrozenSet[str] = frozenset()
    clock: Optional[Signal] = None
    wired: bool = False
    fixed: FrozenSet[str] = frozenset()
    typed: FrozenSet[str] = frozenset()

    def gives(self, signal: Signal, value: str) -> str:
        """Gives a signal a value. A variable of an `enum` takes only a value of its type. The name of that type is not
        known outside of the design, but a variable takes any bits as a part of a concatenation with two parts."""
        if signal.text in self.typed:
            return f"{{dut.{signal.text}, {SPARE}}} = {{{value}, 1'b0}};"
        return f"dut.{signal.text} = {value};"

    def turned(self, register: Signal, frame: Frame) -> str:
        """Another value of a register, where no block waits for an edge of it: an asynchronous reset would change others."""
        is_waited = any(register.path == it or register.path.endswith(f".{it}") for it in self.waited)
        return f"{'' if is_waited else '~'}{register.value(frame)}"

    def takes(self, word: Signal) -> bool:
        """Whether a testbench can give a signal a value."""
        return word.path.rpartition("[")[0] not in self.fixed

    def drives(self, port: Signal) -> str:
        """The register that gives a port its value."""
        return _of_bench("drives", port)

    def joins(self, port: Signal) -> str:
        """What is connected to a port."""
        return _of_bench("joins", port) if self.wired else self.drives(port)

    def wanted(self, signal: Signal, frames: Sequence[Frame], number: int) -> Optional[Frame]:
        """The frame that has the value of a signal in this one. With several clocks, the circuit writes a memory one
        frame later, though all that reads it sees it at once."""
        if self.timing.is_cycle or not signal.is_word or signal.letter != "l":
            return frames[number]
        return frames[number + 1] if number + 1 < len(frames) else None


def _of_bench(prefix: str, port: Signal) -> str:
    """A name of the testbench for a port."""
    return f"{prefix}_{port.text}" if port.text == port.path else f"\\{prefix}_{port.path} "


def asking(top: str, ports: Sequence[Named], names: Sequence[Named]) -> List[str]:
    """The lines of a testbench that prints the shapes of ports and signals. One line has one of them."""
    lines = [TIMESCALE, "module aig_tb;", "  reg initstate = 1;", f"  {top} dut("]
    lines += [f"    .{port.text}(){',' if port != ports[-1] else ''}" for port in ports]
    lines += ["  );", "  initial begin"]
    lines += [f'    $display("aig shape p{at} %0d %0d", $left(dut.{it.text}), $right(dut.{it.text}));'
              for at, it in enumerate(ports)]
    lines += [f'    $display("aig shape s{at} {_ranged(it.text)}, dut.{it.text});' for at, it in enumerate(names)]
    return [*lines, "    $finish;", "  end", "endmodule", ""]


def _ranged(text: str) -> str:
    """What prints the range of a signal. Of a word of a memory the functions give the range of the addresses."""
    return 'x x %b"' if text.endswith("]") else f'%0d %0d %b", $left(dut.{text}), $right(dut.{text})'


def _given(player: Player, word: Signal, frame: Frame) -> Iterator[str]:
    """Gives a word of a memory its value, or those bits that the circuit has."""
    if word.is_whole:
        yield f"    {player.gives(word, word.value(frame))}"
    else:
        bits = zip(word.shape.indexes(), word.bits(frame))
        yield from (f"    dut.{word.text}[{index}] = {bit};" for index, bit in bits if bit != "?")


def has_line_of(name: Named, line: str) -> bool:
    """Whether a line asks for the shape of this signal."""
    return line.endswith(f", dut.{name.text});")


def given_in(lines: Sequence[str]) -> FrozenSet[str]:
    """The names of the signals that get a value in these lines."""
    return frozenset(name for line in lines for name in re.findall(r"\bdut\.(\S+) = ", line))


@dataclass
class Playing:
    """A testbench that plays a run.

    order    the groups of inputs that change one after the other, where a frame is no cycle: `first`, `rest` or `all`
    watched  the signals that get the run's value where the simulator has x
    """

    player: Player
    frames: Sequence[Frame]
    order: Sequence[str] = ("first", "rest")
    watched: Set[str] = field(default_factory=set)

    def text(self, heading: Sequence[str]) -> str:
        return "\n".join([*(f"// {line}" for line in heading), *self._lines(), ""])

    def _lines(self) -> Iterator[str]:
        player, first = self.player, self.frames[0]
        clock = player.drives(player.clock) if player.clock else ""
        idle = "0" if player.timing.edge == "posedge" else "1"
        yield TIMESCALE
        yield "module aig_tb;"
        yield "  reg initstate = 1;"
        yield f"  reg [{max(len(player.shown), 1) - 1}:0] chosen = 0; // which x has the value of the run"
        yield from [f"  reg {SPARE}; // so that a variable of an enum takes any bits"] if player.typed else []
        for it in player.ports:
            value = ""
            if it.path == player.timing.clock_name:
                value = f" = {idle}"
            elif it.path in player.timing.first:
                value = f" = {it.value(first)}"
            yield f"  reg {it.shape.declared}{player.drives(it)}{value};"
            if player.wired:
                yield f"  wire {it.shape.declared}{player.joins(it)} = {player.drives(it)};"
        yield f"  {player.top} dut({', '.join(f'.{it.text}({player.joins(it)})' for it in player.ports)});"
        yield from self._show()
        yield "  initial begin"
        yield "    #1;"
        for it in filter(player.takes, player.constants):
            yield from _given(player, it, first) if it.is_word else [f"    force {player.gives(it, it.value(first))}"]
        yield '    $display("aig own"); show;'
        yield from self._inputs(0, "all")
        yield "    #1;"
        yield "    // each register changes once, so that each `always @*` runs; then it has its first value"
        for values in ([player.turned(it, first) for it in player.registers], [it.value(first) for it in player.registers]):
            yield from (f"    force {player.gives(it, value)}" for it, value in zip(player.registers, values))
            yield "    #1;"
        yield from (f"    release dut.{it.text};" for it in player.registers)
        for it in filter(player.takes, player.words):
            yield from _given(player, it, first)
        yield '    $display("aig start");'
        for number, frame in enumerate(self.frames):
            yield from self._frame(number, frame, clock, idle)
        yield "    $finish;"
        yield "  end"
        yield "endmodule"

    def _show(self) -> Iterator[str]:
        """A task that prints all values."""
        shown = self.player.shown
        yield "  task show;"
        yield "    begin"
        for at in range(0, len(shown), IN_A_LINE):
            some = shown[at:at + IN_A_LINE]
            form, paths = " ".join(["%b"] * len(some)), ", ".join(f"dut.{it.text}" for it in some)
            yield f'      $display("aig values {at} {form}", {paths});'
        yield "    end"
        yield "  endtask"

    def _frame(self, number: int, frame: Frame, clock: str, idle: str) -> Iterator[str]:
        yield f"    // frame {number}"
        if number and self.player.timing.is_cycle:
            if clock:
                yield f'    $display("aig edge {number}"); {clock} = {int(idle == "0")}; #5;'
            yield from self._release(False)
            yield f'    initstate = 0; $display("aig data {number}");'
            for group in ("first", "rest"):
                yield from self._inputs(number, group)
                yield "    #2;"
            if clock:
                yield f"    {clock} = {idle};"
        elif number:
            yield from self._release(False)
            yield f'    $display("aig edge {number}");'
            yield "    initstate = 0;"
            for group in self.order:
                if group == "rest" and self.order[0] == "first":
                    yield f'    $display("aig data {number}");'
                yield from self._inputs(number, group)
                yield "    #1;"
        yield "    #1;"
        yield from self._choose(number)
        yield f'    $display("aig frame {number}"); show;'
        if number + 1 < len(self.frames):
            yield from self._release(True)

    def _inputs(self, number: int, group: str) -> Iterator[str]:
        """The inputs of a frame: those that change first, the rest, or all. The one clock is not among them. What the circuit
        does not have gets random values: as it says, nothing reads that."""
        clock, first, frame = self.player.timing.clock_name, self.player.timing.first, self.frames[number]
        other = random.Random(number)
        words = [f"{self.player.drives(it)} = {it.value(frame, other)};" for it in self.player.ports
                 if it.path != clock and (group == "all" or (it.path in first) == (group == "first"))]
        if words:
            yield f"    {' '.join(words)}"
        if group != "first":
            yield from (f"    force {self.player.gives(it, it.value(frame))}" for it in self.player.free)

    def _watched(self) -> Iterator[Tuple[int, Signal]]:
        return ((at, it) for at, it in enumerate(self.player.shown)
                if it.path in self.watched and it.is_whole and self.player.takes(it))

    def _choose(self, number: int) -> Iterator[str]:
        """Where a value is x, and agrees with the run but for that, it gets the value of the run."""
        for _ in range(ROUNDS if self.watched else 0):
            for at, it in self._watched():
                wanted = self.player.wanted(it, self.frames, number)
                if wanted is None:
                    continue
                value = it.value(wanted)
                given = self.player.gives(it, value)
                if not it.is_word:
                    given = f"force {given} chosen[{at}] = 1;"
                yield (f"    if (|(dut.{it.text} ^ {value}) === 1'bx) begin "
                       f'$display("aig x {number} {at}"); {given} end')
            yield "    #1;"

    def _release(self, is_register: bool) -> Iterator[str]:
        """Lets go of signals that were x. A register keeps its value, so the clock's edge may change it. All else has
        the value until the edge has sampled it, and may be another x in the next frame."""
        registers = {it.path for it in self.player.registers}
        for at, it in self._watched():
            if not it.is_word and (it.path in registers) == is_register:
                again = "" if is_register else "force " + self.player.gives(it, f"{len(it.columns)}'bx") + " "
                yield f"    if (chosen[{at}]) begin {again}release dut.{it.text}; chosen[{at}] = 0; end"


def shapes(log: str) -> Dict[str, Shape]:
    """The shapes that a testbench printed, by the place of a port (p0) or a signal (s0) in its list."""
    found = {}
    for line in log.splitlines():
        words = line.split(" ")
        if words[:2] != ["aig", "shape"] or len(words) < 5:
            continue
        if words[3].lstrip("-").isdigit() and words[4].lstrip("-").isdigit():
            found[words[2]] = Shape(int(words[3]), int(words[4]))
        elif len(words) > 5 and len(words[5]) > 1:
            found[words[2]] = Shape(len(words[5]) - 1, 0)
        else:
            found[words[2]] = Shape()
    return found
