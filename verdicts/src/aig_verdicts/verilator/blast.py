"""BTOR2 without arrays to AIGER 1.9 text. What it does not read stops it; an initial value has to be a constant."""

from __future__ import annotations

from typing import Callable, Dict, List, NoReturn, Tuple

from .gates import Bits, Gates
from .labels import bits_of
from .dumps.tree import NotRead

_COMPARISONS = ("eq", "ult", "slt")
# How many operands an operator has, apart from those of two.
_OPERANDS = {"not": 1, "redxor": 1, "slice": 3, "ite": 3}


class Blaster:
    """Reads lines of BTOR2, and makes gates of each."""

    def __init__(self) -> None:
        g = self.gates = Gates()
        self._widths: Dict[int, int] = {}
        self._bits: Dict[int, Bits] = {}
        self._names: Dict[int, str] = {}
        self._first: Dict[int, int] = {}
        self._next: Dict[int, int] = {}
        self.inputs: List[Tuple[int, str]] = []
        self.states: List[int] = []
        self.bads: List[Tuple[int, str]] = []
        self.outputs: List[Tuple[int, str]] = []
        self.constraints: List[Tuple[int, str]] = []
        self._two: Dict[str, Callable[[Bits, Bits], Bits]] = {
            "and": lambda x, y: [g.conj(a, b) for a, b in zip(x, y)],
            "or": lambda x, y: [g.disj(a, b) for a, b in zip(x, y)],
            "xor": lambda x, y: [g.xor(a, b) for a, b in zip(x, y)],
            "eq": lambda x, y: [g.equal(x, y)], "ult": lambda x, y: [g.less(x, y)],
            "slt": lambda x, y: [g.less([*x[:-1], x[-1] ^ 1], [*y[:-1], y[-1] ^ 1])],
            "add": lambda x, y: g.add(x, y)[0], "sub": lambda x, y: g.sub(x, y)[0], "mul": g.mul,
            "udiv": lambda x, y: g.divide(x, y)[0], "urem": lambda x, y: g.divide(x, y)[1],
            "sdiv": lambda x, y: g.divide_signed(x, y)[0], "srem": lambda x, y: g.divide_signed(x, y)[1],
            "sll": lambda x, y: g.shift(x, y, 0, True), "srl": lambda x, y: g.shift(x, y, 0, False),
            "sra": lambda x, y: g.shift(x, y, x[-1], False), "concat": lambda x, y: y + x,
        }

    def line(self, text: str) -> None:
        """Reads one line."""
        words = text.split(";")[0].split()
        if not words:
            return
        try:
            self._read(int(words[0]), words[1], words[2:])
        except (LookupError, ValueError):
            _refuse(text)

    def _read(self, number: int, op: str, rest: List[str]) -> None:
        if op == "sort":
            if rest[0] != "bitvec":
                _refuse(f"sort {rest[0]}")
            self._widths[number] = int(rest[1])
        elif op == "output":
            bits = self._bits[int(rest[0])]
            self.outputs += list(zip(bits, bits_of(rest[1], len(bits))))
        elif op in ("bad", "constraint"):
            (bit,) = self._bits[int(rest[0])]
            (self.bads if op == "bad" else self.constraints).append((bit, " ".join(rest[1:])))
        elif op in ("init", "next"):
            self._state(op, self._widths[int(rest[0])], int(rest[1]), int(rest[2]))
        else:
            width = self._widths[int(rest[0])]
            made = self._made(number, op, width, rest[1:])
            if len(made) != width:
                _refuse(f"{op} of {len(made)} bits in place of {width}")
            self._bits[number] = made

    def _state(self, op: str, width: int, state: int, value: int) -> None:
        """The initial or the next value of a state."""
        bits = self._bits[value]
        if state not in self.states or not width == len(bits) == len(self._bits[state]):
            _refuse(f"{op} of {len(bits)} bits")
        if op == "init" and set(bits) - {0, 1}:
            _refuse(f"an initial value of {self._names[state]} that is no constant")
        (self._first if op == "init" else self._next)[state] = value

    def _made(self, number: int, op: str, width: int, rest: List[str]) -> Bits:
        g = self.gates
        if op == "const":
            return [int(it) for it in reversed(rest[0])]
        if op in ("input", "state"):
            made = [g.source() for _ in range(width)]
            self._names[number] = rest[0] if rest else ""
            if op == "state":
                self.states.append(number)
            else:
                self.inputs += list(zip(made, bits_of(self._names[number], width)))
            return made
        if len(rest) != _OPERANDS.get(op, 2):
            _refuse(f"{op} of {len(rest)} operands")
        x = self._bits[int(rest[0])]
        if op == "slice":
            return x[int(rest[2]):int(rest[1]) + 1]
        if op == "not":
            return [it ^ 1 for it in x]
        if op == "redxor":
            return [g.odd(x)]
        y = self._bits[int(rest[1])]
        if op == "ite":
            (condition,) = x
            return g.mux(condition, y, self._bits[int(rest[2])])
        if op != "concat" and len(x) != len(y):
            _refuse(f"{op} of {len(x)} and {len(y)} bits")
        return self._two[op](x, y)

    def aiger(self) -> str:
        """The circuit as text."""
        latches = []
        for it in self.states:
            bits = self._bits[it]
            if it not in self._next:
                _refuse(f"state {self._names[it]} without a next value")
            first = self._bits[self._first[it]] if it in self._first else bits
            latches += list(zip(bits, self._bits[self._next[it]], first, bits_of(self._names[it], len(bits))))
        gates = self.gates.gates
        counts = [self.gates.top, len(self.inputs), len(latches), len(self.outputs), len(gates), len(self.bads),
                  len(self.constraints)]
        lines = ["aag " + " ".join(map(str, counts))]
        lines += [str(it) for it, _ in self.inputs] + [f"{a} {b} {c}" for a, b, c, _ in latches]
        lines += [str(it) for it, _ in self.outputs + self.bads + self.constraints]
        lines += [f"{a} {b} {c}" for a, b, c in gates]
        lists = {"i": self.inputs, "l": [(a, name) for a, _, _, name in latches], "o": self.outputs, "b": self.bads,
                 "c": self.constraints}
        lines += [f"{letter}{k} {name}" for letter, it in lists.items() for k, (_, name) in enumerate(it) if name]
        return "\n".join(lines) + "\n"


def _refuse(text: str) -> NoReturn:
    raise NotRead(f"BTOR2: {text[:80]}")


def blasted(text: str) -> str:
    """AIGER of BTOR2."""
    made = Blaster()
    for line in text.splitlines():
        made.line(line)
    return made.aiger()
