"""An explicit search of all states of a small circuit, from the parts of a plain reader: what a start and a step break,
and what a run reaches. Values are truth tables over all states and inputs. It shares nothing with the toolkit."""

import itertools

from library.part import read_from
from library.plain_reader import levels_of


class Table:
    """The circuit's literals as truth tables: bit N is the value in row N, whose digits are the inputs and the latches."""

    def __init__(self, circuit):
        self.circuit = circuit
        self.width = len(circuit.inputs)
        self.free = self.width + len(circuit.latches)
        self.rows = 1 << self.free
        self.full = (1 << self.rows) - 1
        columns = [self.full ^ self.full // ((1 << (1 << at)) + 1) for at in range(self.free)]
        self.known = dict(zip([*circuit.inputs, *(latch[0] for latch in circuit.latches)], columns))
        self.known[0] = 0
        levels = levels_of(circuit)
        for left, first, second in sorted(circuit.gates, key=lambda gate: levels[gate[0]]):
            self.known[left] = self.of(first) & self.of(second)
        self.allowed = self.full
        for literal in circuit.constraints:
            self.allowed &= self.of(literal)

    def of(self, literal):
        known = self.known[literal & ~1]
        return known ^ self.full if literal & 1 else known

    def bits(self, rows):
        """The numbers of the rows of a table that are 1."""
        while rows:
            low = rows & -rows
            yield low.bit_length() - 1
            rows ^= low

    def next_state(self, row):
        return sum((self.of(after) >> row & 1) << at for at, (_, after, _) in enumerate(self.circuit.latches))

    def starts(self):
        """The rows whose latches have their resets."""
        rows = self.full
        for state, _, reset in self.circuit.latches:
            if reset != state:
                rows &= self.of(state ^ (1 - reset))
        return rows

    def of_state(self, state):
        """The rows with these values of the latches."""
        return ((1 << (1 << self.width)) - 1) << (state << self.width)


def reaches(circuit, asked):
    """Whether a run from a start that the resets allow reaches the property, with its constraints at each frame; and
    the states of all such runs."""
    table = Table(circuit)
    bad = table.of(circuit.bad[asked]) & table.allowed
    waiting = sorted({row >> table.width for row in table.bits(table.starts())})
    states, found = set(waiting), False
    while waiting:
        rows = table.of_state(waiting.pop()) & table.allowed
        found = found or bool(rows & bad)
        for state in {table.next_state(row) for row in table.bits(rows)} - states:
            states.add(state)
            waiting.append(state)
    return found, states


def broken_by(circuit):
    """Rows of a start that breaks property 0, or else of a step that does, as numbers; None where neither does."""
    table = Table(circuit)
    bad = table.of(circuit.bad[0]) & table.allowed
    for row in table.bits(table.starts() & bad):
        return (row, )
    for row in table.bits(table.allowed & ~bad):
        for after in table.bits(table.of_state(table.next_state(row)) & bad):
            return row, after
    return None


def values_of(circuit, row):
    """The values of the latches and of the inputs in a row, as a witness has them."""
    bits = [str(row >> at & 1) for at in range(len(circuit.inputs) + len(circuit.latches))]
    return "".join(bits[len(circuit.inputs):]), "".join(bits[:len(circuit.inputs)])


def read_by(circuit):
    """Which latches and which inputs the property reads."""
    sides = {left: both for left, *both in circuit.gates}
    read = read_from([circuit.bad[0], *circuit.constraints], circuit.latches, sides)
    return [latch[0] in read for latch in circuit.latches], [literal in read for literal in circuit.inputs]


def run_of(circuit, rows):
    """The witness of a run over these rows, with x at inputs that the property does not read. A latch that it does not
    read starts by its reset."""
    latches, inputs = read_by(circuit)
    state = "".join(value if is_read else {0: "0", 1: "1"}.get(latch[2], "x")
                    for value, is_read, latch in zip(values_of(circuit, rows[0])[0], latches, circuit.latches))
    lines = ["".join(value if is_read else "x" for value, is_read in zip(values_of(circuit, row)[1], inputs)) for row in rows]
    return "\n".join(["1", "b0", state, *lines, ".", ""]).encode()


def model_of(circuit, rows):
    """What a solver prints of the assignment of a formula of two frames whose run has these rows."""
    latches, inputs = read_by(circuit)
    state, first = values_of(circuit, rows[0])
    second = values_of(circuit, rows[-1])[1]
    values = itertools.compress(first + second + state, [*inputs, *inputs, *latches])
    literals = [at if value == "1" else -at for at, value in enumerate(values, 2)]
    return "s SATISFIABLE\nv " + " ".join(map(str, [*literals, 0])) + "\n"
