"""The circuits of the loads, by their gates."""

from typing import NamedTuple

# How far back a random gate reads, in variables. Every eighth side is picked from all.
NEAR = 4096


class Counts(NamedTuple):
    """How many inputs, latches, outputs and gates a random circuit has."""

    inputs: int
    latches: int
    outputs: int
    gates: int


def near_side(below, greatest):
    """A literal of a variable from 1 to `greatest`, most of them near `greatest`."""
    reach = greatest if below(8) == 0 else min(greatest, NEAR)
    return 2 * (greatest - below(reach)) + below(2)


def sides_of(shape, below, sources, count):
    """The right sides of the gates in order, the greater first."""
    def source():
        return 2 * (1 + below(sources)) + below(2)

    for place in range(count):
        greatest = sources + place
        if shape == "wide" or (shape == "comb" and place % 2 == 0):
            first, second = source(), source()
        elif shape == "chain":
            first, second = 2 * greatest + below(2), source()
        elif shape == "comb":
            first, second = 2 * greatest + below(2), 2 * (greatest - 1) + below(2)
        else:
            first, second = near_side(below, greatest), near_side(below, greatest)
        yield (first, second) if first > second else (second, first)


class Ring:
    """A ring of latches beside a random circuit. The ring's latches come first; names are those of two vectors."""

    def __init__(self, below, size, inputs, latches, count):
        self.size, self.inputs, self.latches = size, inputs, size + latches
        self.sources = inputs + self.latches
        self.sides = list(sides_of("random", below, self.sources, count))
        self.greatest = self.sources + count
        self.others = [near_side(below, self.greatest) for _ in range(latches)]
        self.names = [f"i{at} data[{at}]\n" for at in range(inputs)]
        self.names += [f"l{at} state[{at}]\n" for at in range(self.latches)]

    def latch(self, at):
        """The literal of a latch."""
        return 2 * (self.inputs + at + 1)

    def sections(self, claims):
        """The circuit with gates for each two latches of the ring in these pairs, as its bad states."""
        gates = len(self.sides) + len(claims)
        yield f"aag {self.sources + gates} {self.inputs} {self.latches} 0 {gates} {len(claims)}\n"
        yield from (f"{2 * at}\n" for at in range(1, self.inputs + 1))
        yield from (f"{self.latch(at)} {self.latch((at - 1) % self.size)} {int(at == 0)}\n" for at in range(self.size))
        yield from (f"{self.latch(self.size + at)} {literal}\n" for at, literal in enumerate(self.others))
        yield from (f"{2 * (self.greatest + at)}\n" for at in range(1, len(claims) + 1))
        yield from (f"{2 * (self.sources + at)} {first} {second}\n" for at, (first, second) in enumerate(self.sides, 1))
        yield from (f"{2 * (self.greatest + at)} {self.latch(second)} {self.latch(first)}\n"
                    for at, (first, second) in enumerate(claims, 1))
        yield from self.names

    def pairs(self):
        return [(first, second) for second in range(self.size) for first in range(second)]

    def small(self):
        """Claims alone: its inputs are the ring's latches, by name."""
        pairs = self.pairs()
        yield f"aag {self.size + len(pairs)} {self.size} 0 0 {len(pairs)} {len(pairs)}\n"
        yield from (f"{2 * at}\n" for at in range(1, self.size + 1))
        yield from (f"{2 * (self.size + at)}\n" for at in range(1, len(pairs) + 1))
        yield from (f"{2 * (self.size + at)} {2 * second + 2} {2 * first + 2}\n"
                    for at, (first, second) in enumerate(pairs, 1))
        yield from (f"i{at} = {self.latch(at)}\n" for at in range(self.size))


class Ciphers:
    """Copies of a cipher with a state of two halves, in latches, and a key of half as many bits, in inputs. A round
    makes a half of the other: each bit an XOR of four, one of which is an AND. Its gates are ten a bit."""

    def __init__(self, copies, half, rounds):
        self.copies, self.half, self.rounds = copies, half, rounds
        self.inputs, self.latches = copies * half, 2 * copies * half
        self.gates_of_a_copy = 10 * half * rounds

    def first_gate(self, copy):
        """The variable of a copy's first gate."""
        return 1 + self.inputs + self.latches + copy * self.gates_of_a_copy

    def latch(self, copy, bit):
        return 2 * (1 + self.inputs + 2 * copy * self.half + bit)

    def copy(self, copy):
        """The right sides of a copy's gates, and its state after the last round."""
        half, first = self.half, self.first_gate(copy)
        sides = []

        def conjunction(a, b):
            sides.append((max(a, b), min(a, b)))
            return 2 * (first + len(sides) - 1)

        left = [self.latch(copy, bit) for bit in range(half)]
        right = [self.latch(copy, bit) for bit in range(half, 2 * half)]
        for number in range(self.rounds):
            made = []
            for bit in range(half):
                total = right[bit]
                product = conjunction(left[(bit + 1) % half], left[(bit + 8) % half])
                key = 2 * (1 + copy * half + (bit + number) % half)
                for side in (product, left[(bit + 2) % half], key):
                    both = conjunction(total, side)
                    none = conjunction(total ^ 1, side ^ 1)
                    total = conjunction(both ^ 1, none ^ 1)
                made.append(total)
            left, right = made, left
        return sides, left + right


class Ascon:
    """Rounds of the cipher Ascon (320 bits, 4,352 gates a round), each with inputs of its own, or each reading the one
    before it. Gates are of the variables before them; levels are by variable."""

    ROTATIONS = ((19, 28), (61, 39), (1, 6), (10, 17), (7, 41))

    def __init__(self, shape, rounds):
        self.inputs = 320 * rounds if shape == "side_by_side" else 320
        self.levels = [0] * (self.inputs + 1)
        self.gates, self.outputs = [], []
        state = []
        for number in range(rounds):
            if shape == "side_by_side" or not state:
                state = [2 * (320 * number + bit + 1) for bit in range(320)]
            state = self.round(state)
            if shape == "side_by_side" or number == rounds - 1:
                self.outputs += state

    def gate(self, left, right):
        variable = len(self.levels)
        self.levels.append(1 + max(self.levels[left >> 1], self.levels[right >> 1]))
        self.gates.append((2 * variable, max(left, right), min(left, right)))
        return 2 * variable

    def xor(self, left, right):
        return self.gate(self.gate(left, right) ^ 1, self.gate(left ^ 1, right ^ 1) ^ 1)

    def round(self, state):
        """A round without its constant: 64 columns through the substitution, then five rows through rotations."""
        rows = [list(state[64 * row:64 * row + 64]) for row in range(5)]
        for bit in range(64):
            a, b, c, d, e = (row[bit] for row in rows)
            a, e, c = self.xor(a, e), self.xor(e, d), self.xor(c, b)
            ands = [self.gate(one ^ 1, other) for one, other in ((a, b), (b, c), (c, d), (d, e), (e, a))]
            a, b, c, d, e = (self.xor(value, ands[at]) for value, at in ((a, 1), (b, 2), (c, 3), (d, 4), (e, 0)))
            b, a, d = self.xor(b, a), self.xor(a, e), self.xor(d, c)
            for row, value in zip(rows, (a, b, c ^ 1, d, e)):
                row[bit] = value
        return [self.xor(self.xor(row[bit], row[(bit + one) % 64]), row[(bit + other) % 64])
                for row, (one, other) in zip(rows, self.ROTATIONS) for bit in range(64)]


class Multipliers:
    """Gates over the bits of two numbers. Equal gates are one, and constants make none."""

    def __init__(self, bits):
        self.inputs, self.gates, self.made = 2 * bits, [], {}
        self.left = [2 * at + 2 for at in range(bits)]
        self.right = [2 * at + 2 for at in range(bits, 2 * bits)]

    def conjunction(self, a, b):
        a, b = max(a, b), min(a, b)
        if b == 0 or a == b ^ 1:
            return 0
        if b == 1 or a == b:
            return a
        if (a, b) not in self.made:
            self.made[a, b] = 2 * (self.inputs + len(self.gates) + 1)
            self.gates.append((self.made[a, b], a, b))
        return self.made[a, b]

    def disjunction(self, a, b):
        return self.conjunction(a ^ 1, b ^ 1) ^ 1

    def exclusive(self, a, b):
        return self.disjunction(self.conjunction(a, b ^ 1), self.conjunction(a ^ 1, b))

    def product(self, a, b):
        """The bits of a * b, row by row."""
        rows = [0] * (2 * len(a))
        for place, bit in enumerate(b):
            carry = 0
            for at, other in enumerate(a, place):
                part = self.conjunction(other, bit)
                total = self.exclusive(part, rows[at])
                both = self.conjunction(part, rows[at])
                rows[at], carry = self.exclusive(total, carry), self.disjunction(both, self.conjunction(total, carry))
            rows[place + len(a)] = carry
        return rows
