"""Between `aig` and ABC's pdr: a circuit with one output goes in. An invariant comes out, and a certificate is made of
it, or a run comes out, and a witness is made of it. Nothing here is trusted: a mistake makes a certificate that `aig
refute` rejects, or a witness that `aig check` rejects."""

from __future__ import annotations

import re
from typing import Dict, List, NamedTuple, Sequence, Tuple

# The names of the latches that the folded circuit adds: one is 1 after the first frame, and one remembers that some
# constraint was 0.
STARTED, FAILED = "started", "failed"


class _Latch(NamedTuple):
    """Its literal, the literal of its next value, and its initial value: 0, 1, or its own literal for any value."""

    literal: int
    following: int
    initial: int

    @property
    def is_free(self) -> bool:
        return self.initial == self.literal


class _Circuit(NamedTuple):
    """A circuit in the format aag that has one bad state property. Each gate has its two literals."""

    most: int
    inputs: List[int]
    latches: List[_Latch]
    bad: int
    constraints: List[int]
    gates: Dict[int, Tuple[int, int]]


def _read(one: bytes) -> _Circuit:
    counts = [int(word) for word in one.split(b"\n", 1)[0].split()[1:]] + [0] * 4
    most, inputs, latches, _, ands, _, constraints = counts[:7]
    at = 1 + inputs + latches
    *lines, rest = one.split(b"\n", at + 1 + constraints)
    states = [_latch_of([int(word) for word in line.split()]) for line in lines[1 + inputs : at]]
    numbers = list(map(int, rest.split(None, 3 * ands)[: 3 * ands]))
    gates = dict(zip(numbers[::3], zip(numbers[1::3], numbers[2::3])))
    literals = [int(line) for line in lines[1 : 1 + inputs]]
    return _Circuit(most, literals, states, int(lines[at]), [int(line) for line in lines[at + 1 :]], gates)


def _latch_of(numbers: Sequence[int]) -> _Latch:
    literal, following, *initial = numbers
    return _Latch(literal, following, initial[0] if initial else 0)


def _cone(circuit: _Circuit) -> Dict[int, None]:
    """The literals of the inputs, latches and gates that the property and the constraints read, in any frame."""
    following = {latch.literal: latch.following for latch in circuit.latches}
    found: Dict[int, None] = {}
    left = [circuit.bad, *circuit.constraints]
    while left:
        literal = left.pop() & ~1
        if literal not in found:
            found[literal] = None
            if literal in circuit.gates:
                left += circuit.gates[literal]
            elif literal in following:
                left.append(following[literal])
    return found


class _Folded:
    """A circuit that grows. All its latches start at 0, and its one output is 1 where the property is bad and all
    constraints were 1 so far. It has only what the property and the constraints read.

    Input k has the name ik, and latch q the name lq. A latch that starts at any value starts at 0 here, and what reads
    it reads the input sq in the first frame. A latch that starts at 1 is negated."""

    def __init__(self, circuit: _Circuit):
        self._circuit, self._cone, self._most = circuit, _cone(circuit), circuit.most
        self._inputs: List[Tuple[int, str]] = [
            (literal, f"i{k}") for k, literal in enumerate(circuit.inputs) if literal in self._cone]
        self._latches: List[Tuple[int, int, str]] = []
        self._gates: List[Tuple[int, int, int]] = []
        self._negated = {latch.literal for latch in circuit.latches if latch.initial == 1}

    def text(self) -> bytes:
        latches = [(q, latch) for q, latch in enumerate(self._circuit.latches) if latch.literal in self._cone]
        started = self._started() if any(latch.is_free for _, latch in latches) else 0
        for q, latch in latches:
            self._add(q, latch, started)
        for to in self._cone:
            if to in self._circuit.gates:
                left, right = self._circuit.gates[to]
                self._gates.append((to, self._of(left), self._of(right)))
        bad = self._bad()
        names = [f"i{k} {name}" for k, (_, name) in enumerate(self._inputs)]
        names += [f"l{k} {name}" for k, (_, _, name) in enumerate(self._latches)]
        heading = f"aag {self._most} {len(self._inputs)} {len(self._latches)} 1 {len(self._gates)}"
        body = [str(literal) for literal, _ in self._inputs]
        body += [*(f"{to} {of}" for to, of, _ in self._latches), str(bad)]
        body += [f"{to} {left} {right}" for to, left, right in self._gates]
        return "\n".join([heading, *body, *names, ""]).encode()

    def _of(self, literal: int) -> int:
        """The literal here for one of the circuit."""
        return literal ^ 1 if literal & ~1 in self._negated else literal

    def _new(self) -> int:
        self._most += 1
        return 2 * self._most

    def _both(self, left: int, right: int) -> int:
        """The literal of a gate."""
        to = self._new()
        self._gates.append((to, left, right))
        return to

    def _started(self) -> int:
        started = self._new()
        self._latches.append((started, 1, STARTED))
        return started

    def _add(self, q: int, latch: _Latch, started: int) -> None:
        following = self._of(latch.following)
        if not latch.is_free:
            self._latches.append((latch.literal, following ^ int(latch.initial == 1), f"l{q}"))
            return
        first, later = self._new(), self._new()
        self._inputs.append((first, f"s{q}"))
        self._latches.append((later, following, f"l{q}"))
        is_0_at_first, is_0_later = self._both(started ^ 1, first ^ 1), self._both(started, later ^ 1)
        self._gates.append((latch.literal, is_0_at_first ^ 1, is_0_later ^ 1))

    def _bad(self) -> int:
        bad = self._of(self._circuit.bad)
        if not self._circuit.constraints:
            return bad
        failed = self._new()
        held = failed ^ 1
        for constraint in self._circuit.constraints:
            held = self._both(held, self._of(constraint))
        self._latches.append((failed, held ^ 1, FAILED))
        return self._both(bad, held)


def folded(one: bytes) -> bytes:
    """The circuit that ABC is asked about. Its latches all start at 0, so no command of ABC can make another circuit of
    it."""
    return _Folded(_read(one)).text()


_VALUE = re.compile(rb"([is]\d{1,9})@(\d{1,9})=([01])")


def witness(one: bytes, position: int, frames: int, run: bytes) -> bytes:
    """The witness of property `position` that has the run of the folded circuit that ABC's `write_cex -n` wrote. What
    the run does not name is x."""
    circuit = _read(one)
    values = {(name.decode(), int(frame)): value.decode() for name, frame, value in _VALUE.findall(run)}

    def initial(q: int, latch: _Latch) -> str:
        return values.get((f"s{q}", 0), "x") if latch.is_free else str(latch.initial)

    state = "".join(initial(q, latch) for q, latch in enumerate(circuit.latches))
    rows = ["".join(values.get((f"i{k}", frame), "x") for k in range(len(circuit.inputs))) for frame in range(frames)]
    return "\n".join(["1", f"b{position}", state, *rows, ".", ""]).encode()


def _cubes(invariant: bytes) -> Tuple[List[str], List[str]]:
    """The names of an invariant's columns, and its cubes."""
    names: List[str] = []
    cubes: List[str] = []
    for line in invariant.decode("ascii", "replace").splitlines():
        if line.startswith(".ilb"):
            names = line.split()[1:]
        elif line[:1] in ("-", "0", "1") and names:
            cubes.append(line.split(" ")[0])
    return names, cubes


class _Certificate:
    """A certificate that grows: inputs for the latches that it reads, a latch that is 1 after the first frame, and
    gates."""

    def __init__(self) -> None:
        self.most, self.started = 0, 0
        self.gates: List[str] = []
        self.shared: List[int] = []
        self._made: Dict[Tuple[int, int], int] = {}

    def share(self, literal: int) -> int:
        """The input for a latch of the circuit."""
        self.most += 1
        self.shared.append(literal)
        return 2 * self.most

    def start(self) -> None:
        self.most += 1
        self.started = 2 * self.most

    def both(self, left: int, right: int) -> int:
        """The literal of a gate."""
        if 0 in (left, right):
            return 0
        if 1 in (left, right):
            return right if left == 1 else left
        if (left, right) not in self._made:
            self.most += 1
            self.gates.append(f"{2 * self.most} {left} {right}")
            self._made[left, right] = 2 * self.most
        return self._made[left, right]

    def cube(self, columns: Sequence[int], cube: str) -> int:
        inside = 1
        for column, value in zip(columns, cube):
            if value != "-":
                inside = self.both(inside, column ^ (value == "0"))
        return inside

    def text(self, claims: Sequence[int]) -> bytes:
        has_start = int(self.started != 0)
        heading = f"aag {self.most} {len(self.shared)} {has_start} 0 {len(self.gates)} {len(claims)}"
        body = [str(2 * k + 2) for k in range(len(self.shared))] + [f"{self.started} 1"] * has_start
        symbols = [f"i{k} = {literal}" for k, literal in enumerate(self.shared)] + ["l0 started"] * has_start
        return "\n".join([heading, *body, *map(str, claims), *self.gates, *symbols, ""]).encode()


def _latch(name: str, count: int) -> int:
    """The number of a latch by its name, or -1."""
    number = name[1:]
    return int(number) if name[:1] == "l" and number.isdigit() and len(number) < 10 and int(number) < count else -1


def certificate(one: bytes, invariant: bytes) -> bytes:
    """The certificate that claims that no run reaches a state in one of the invariant's cubes. The latches have the
    same literals in the circuit that the certificate is for."""
    latches = _read(one).latches
    names, cubes = _cubes(invariant)
    made = _Certificate()
    columns = [0] * len(names)
    free: List[int] = []
    started: List[int] = []
    for column, name in enumerate(names):
        q = _latch(name, len(latches))
        if q >= 0:
            columns[column] = made.share(latches[q].literal) ^ int(latches[q].initial == 1)
            if latches[q].is_free:
                free.append(column)
        elif name == STARTED:
            started.append(column)
    if free or started:
        made.start()
    for column in free:
        columns[column] = made.both(columns[column], made.started)
    for column in started:
        columns[column] = made.started
    claims = [made.cube(columns, cube) for cube in cubes]
    return made.text([claim for claim in claims if claim])
