"""What Yosys would make of some processes is another circuit, or none. They are written anew before it makes registers of
them: before `proc` what it folds or forgets, and after `proc_arst` the registers with asynchronous values."""

from __future__ import annotations

import re
from dataclasses import dataclass, field
from typing import Dict, Iterator, List, Sequence, Tuple

from .left_out import read_wires
from .text.rtlil import Item, Module, bits, joined, marked, signals
from aig.tools import ToolFailed

_SELECTOR = re.compile(r"( *)switch (\d+'[01xz]*)")
_FORMAL = re.compile(r"(\$formal\$.*)_(CHECK|EN)")
_CONSTANTS = ("0", "1", "x", "z")


def prepared(module: Module) -> None:
    """Before `proc`."""
    _keep_the_order_of_items(module)
    _open_constant_selectors(module)


def _keep_the_order_of_items(module: Module) -> None:
    """Of the items of a `parallel_case` that match at once the first one counts, as in a simulation. Yosys may take another
    one, and drops an item that is empty."""
    for process in module.of("process"):
        process.lines = [line for line in process.lines if line.strip() != marked("parallel_case")]


def _open_constant_selectors(module: Module) -> None:
    """Of a `casez` whose selector is constant, Yosys 0.23 compares each ? with the bit as if both were values, and takes
    the default. A wire that has the constant is compared as the standard says."""
    wires: List[Tuple[str, str]] = []
    for process in module.of("process"):
        for at, line in enumerate(process.lines):
            match = _SELECTOR.fullmatch(line)
            if match and _has_wildcards(process.lines[at + 1:], match[1]):
                wires.append((f"$selector${len(wires)}", match[2]))
                process.lines[at] = f"{match[1]}switch {wires[-1][0]}"
    for wire, value in wires:
        module.declare(wire, int(value.partition("'")[0]))
        module.add(f"  connect {wire} {value}")


def _has_wildcards(lines: Sequence[str], indent: str) -> bool:
    """Whether an item of the `switch` above these lines has a ?."""
    for line in lines:
        if line == f"{indent}end":
            break
        if line.startswith(f"{indent}  case ") and "-" in line:
            return True
    return False


# -- asynchronous values


@dataclass
class _Rule:
    """What a process does at an event: the lines `update` as pairs, and all others."""

    kind: str
    signal: str
    updates: List[Tuple[str, str]] = field(default_factory=list)
    others: List[str] = field(default_factory=list)

    @property
    def is_level(self) -> bool:
        return self.kind in ("high", "low")

    def lines(self) -> List[str]:
        head = f"    sync {self.kind} {self.signal}".rstrip()
        return [head, *(f"      update {to} {value}" for to, value in self.updates), *self.others]


class _Process:
    """A process with its rules."""

    def __init__(self, item: Item):
        self.item = item
        self.rules: List[_Rule] = []
        first = next((k for k, line in enumerate(item.lines) if line.startswith("    sync ")), len(item.lines) - 1)
        self.body = item.lines[:first]
        for line in item.lines[first:-1]:
            words = line.split(maxsplit=1)
            if line.startswith("    sync "):
                kind, _, signal = words[1].partition(" ")
                self.rules.append(_Rule(kind, signal))
            elif words[0] == "update":
                to, value = signals(words[1])
                self.rules[-1].updates.append((to, value))
            else:
                self.rules[-1].others.append(line)

    @property
    def levels(self) -> List[_Rule]:
        return [rule for rule in self.rules if rule.is_level]

    def write(self) -> None:
        self.item.lines = [*self.body, *(line for rule in self.rules for line in rule.lines()), "  end"]


def settled(module: Module) -> List[str]:
    """After `proc_arst`: each register with asynchronous values gets them in the order of the `if` that they come from, and
    those of assertions are clocked. The registers that have more than one, as `FILE:LINE: NAME`."""
    widths = module.widths()
    found: List[str] = []
    for number, item in enumerate([*module.of("process")]):
        process = _Process(item)
        if process.levels:
            asynchronous = _Asynchronous(module, process, widths, number)
            asynchronous.settle()
            found += [f"{item.place}: {name}" for name in asynchronous.set_and_reset]
    return found


class _Asynchronous:
    """A process that waits for a clock and for asynchronous signals, the most important one first."""

    def __init__(self, module: Module, process: _Process, widths: Dict[str, int], number: int):
        self._module, self._process, self._widths, self._number = module, process, widths, number
        self._levels = process.levels
        self._values: List[Dict[str, str]] = [dict(self._pairs(rule)) for rule in self._levels]
        self._active: List[str] = []
        self._any = ""
        self._made = 0
        self.set_and_reset: List[str] = []

    def _pairs(self, rule: _Rule) -> Iterator[Tuple[str, str]]:
        for to, value in rule.updates:
            yield from zip(bits(to, self._widths), bits(value, self._widths))

    def settle(self) -> None:
        """Writes the process anew, if Yosys would not read it right."""
        clocked = [rule for rule in self._process.rules if rule.kind in ("posedge", "negedge")]
        registers = [bit for rule in clocked for bit, _ in self._pairs(rule)]
        self._look(registers)
        if len(self._levels) == 1 and not any(self._is_clocked(bit) for bit in registers) and not self._is_mixed(clocked):
            return
        self._make_active()
        for rule in self._levels:
            rule.updates = []
        for rule in clocked:
            rule.updates = [(to, self._next(to, value)) for to, value in rule.updates]
        for level, active in zip(self._levels, self._active):
            level.kind, level.signal = "high", active
        self._process.write()

    def _look(self, registers: Sequence[str]) -> None:
        """Rejects a register that takes another signal's value while an asynchronous signal is on."""
        for bit in registers:
            wire = bit.split(" ")[0]
            loaded = [values[bit] for values in self._values if values.get(bit, bit) not in (*_CONSTANTS, bit)]
            if loaded and not wire.startswith(("$formal$", "$past$")) and read_wires(self._module, {wire}):
                raise ToolFailed(f"{self._process.item.place}: {wire.lstrip(chr(92))} is loaded asynchronously, with a value that is no constant: "
                                 "a simulation takes the value at the edge, and a circuit follows it")
        if len(self._levels) > 1:
            several = {bit.split(" ")[0] for bit in registers
                       if len({values.get(bit, bit) for values in self._values} - {bit}) > 1}
            self.set_and_reset = sorted(wire[1:] for wire in several if wire.startswith("\\"))

    def _is_mixed(self, clocked: Sequence[_Rule]) -> bool:
        """Whether a part of a register keeps its value while the asynchronous signal is on."""
        values = self._values[0]
        kept = [{values.get(bit, bit) == bit for bit in bits(to, self._widths)} for rule in clocked for to, _ in rule.updates]
        return any(len(each) > 1 for each in kept)

    def _is_clocked(self, bit: str) -> bool:
        """Whether a register is one of an assertion that the clock alone samples, or of `$past`. With the reset of its block
        it would forget what the last edge saw, if a reset follows at once."""
        wire = bit.split(" ")[0]
        match = _FORMAL.fullmatch(wire)
        if not match:
            return wire.startswith("$past$")
        return all(values.get(f"{match[1]}_EN [0]") == "0" for values in self._values)

    # -- the cells beside the process

    def _gate(self, kind: str, **ports: str) -> str:
        """A new cell's output."""
        wire = f"$asynchronous${self._number}${self._made}"
        self._made += 1
        self._module.declare(wire)
        self._module.add(f"  cell ${kind} {wire}_cell", *(f"    connect \\{port} {signal}" for port, signal in ports.items()),
                         f"    connect \\Y {wire}", "  end")
        return wire

    def _make_active(self) -> None:
        """A signal for each rule, which is 1 if the rule is on and none before it."""
        for rule in self._levels:
            signal = rule.signal if rule.kind == "high" else self._gate("_NOT_", A=rule.signal)
            self._active.append(self._gate("_ANDNOT_", A=signal, B=self._any) if self._any else signal)
            self._any = self._gate("_OR_", A=self._any, B=signal) if self._any else signal

    def _next(self, to: str, value: str) -> str:
        """The value that the clock gives a register. Each rule gets the bits that have a value of their own in it."""
        found = []
        registers = bits(to, self._widths)
        held: List[List[Tuple[str, str]]] = [[] for _ in self._levels]
        for bit, following in zip(registers, bits(value, self._widths)):
            if self._is_clocked(bit):
                is_enable = bit.endswith("_EN [0]")
                found.append(self._gate("_ANDNOT_", A=following, B=self._any) if is_enable else following)
                continue
            for at, values in enumerate(self._values):
                if values.get(bit, bit) == bit:
                    following = self._gate("_MUX_", A=_signal(following), B=bit, S=self._active[at])
                else:
                    held[at].append((bit, values[bit]))
            found.append(following)
        for level, pairs in zip(self._levels, held):
            if pairs:
                level.updates.append((joined([bit for bit, _ in pairs]), joined([it for _, it in pairs])))
        return joined(found)


def _signal(bit: str) -> str:
    return f"1'{bit}" if bit in _CONSTANTS else bit
