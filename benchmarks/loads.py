#!/usr/bin/env python3
"""Makes the circuits, stimuli and scripts that are measured, on standard output; the same for the same words and seed.

usage: loads.py [--seed S] WORDS

circuit SHAPE INPUTS LATCHES OUTPUTS GATES     SHAPE: random, chain, comb, wide, reversed or shuffled (below)
names ORDER COUNT                              half of them inputs, half outputs, each with a name; ORDER: in_order or
                                               shuffled
comment BYTES                                  a wire and a comment
stimulus INPUTS FRAMES                         about one character in sixteen is unknown
changing INPUTS FRAMES                         each value changes at each frame
values FRAMES VARIABLES LINES                  a script that asks for values
cipher COPIES HALF ROUNDS                      copies of a cipher of 2 HALF latches each; ten gates a bit and round
zeros INPUTS FRAMES                            a stimulus of zeros
edits LOAD COPIES HALF ROUNDS FRAMES COUNT     a script for these copies; LOAD: bits, late, rewires, resets or frames
swaps COPIES HALF ROUNDS COUNT                 a script that swaps the sides of gates of these copies
ascon SHAPE ROUNDS                             rounds of the cipher Ascon; SHAPE: side_by_side or in_a_row
rewires LOAD SHAPE ROUNDS COUNT                a script for these rounds; LOAD: same_level, below or anywhere

ring SIZE INPUTS LATCHES GATES                 a ring of latches of which one is 1, beside a random circuit; the bad
                                               state is that the first two are 1
claims KIND SIZE INPUTS LATCHES GATES          a certificate for it: no two latches of the ring are 1; KIND: small, or
                                               copy, with all of the circuit
multiplier BITS                                two multipliers of so many bits, one of a * b and one of b * a; the bad
                                               state is that they differ
moves BITS COUNT                               a script that gives gates of these another side, and theirs again
pigeons HOLES                                  one pigeon more than holes; the bad state is that each is in a hole of
                                               its own. Its inputs are the variables of `pigeons` in
                                               tests/library/families.py

Shapes of random circuits: in `random` a right side is mostly among the 4,096 variables before the gate, every eighth
anywhere; in `chain` each gate reads the one before it; in `comb` every second gate reads the gate before it and the one
before that; in `wide` gates read inputs and latches alone; `reversed` and `shuffled` are `random` with lines and
variables from the last to the first, and in any order."""

import random
import sys

from designs import Ascon, Ciphers, Counts, Multipliers, Ring, near_side, sides_of

SEED = 0x9E3779B97F4A7C15
MASK = (1 << 64) - 1


def numbers(seed):
    """Marsaglia's xorshift with 64 bits: a function from a bound to a number below it."""
    state = seed

    def below(bound):
        nonlocal state
        state ^= state << 13 & MASK
        state ^= state >> 7
        state ^= state << 17 & MASK
        return (state >> 16) % bound

    return below


def shuffled(below, count):
    """The numbers below a count in any order."""
    places = list(range(count))
    for place in range(count - 1, 0, -1):
        other = below(place + 1)
        places[place], places[other] = places[other], places[place]
    return places


def circuit(below, shape, *numbers_of):
    inputs, latches, outputs, count = counts = Counts(*numbers_of)
    sources = inputs + latches
    sides = list(sides_of(shape, below, sources, count))
    greatest = sources + count
    # The variables' numbers, and the order of the lines.
    numbered, lines = range(greatest + 1), range(count)
    if shape == "reversed":
        numbered = [*range(sources + 1), *range(greatest, sources, -1)]
        lines = reversed(lines)
    elif shape == "shuffled":
        numbered = [*range(sources + 1), *(sources + 1 + place for place in shuffled(below, count))]
        lines = shuffled(below, count)

    def named(literal):
        return 2 * numbered[literal >> 1] + literal % 2

    yield f"aag {greatest} {' '.join(map(str, counts))}\n"
    yield from (f"{2 * variable}\n" for variable in range(1, inputs + 1))
    for variable in range(inputs + 1, sources + 1):
        yield f"{2 * variable} {named(near_side(below, greatest))}\n"
    yield from (f"{named(near_side(below, greatest))}\n" for _ in range(outputs))
    for place in lines:
        first, second = sides[place]
        yield f"{2 * numbered[sources + place + 1]} {named(first)} {named(second)}\n"


def names(below, order, count):
    half = count // 2
    yield f"aag {half} {half} 0 {half} 0\n"
    for _ in range(2):
        yield from (f"{2 * variable}\n" for variable in range(1, half + 1))
    for place in shuffled(below, count) if order == "shuffled" else range(count):
        letter, word, position = ("i", "bus", place) if place < half else ("o", "result", place - half)
        yield f"{letter}{position} {word}_{position // 64}[{position % 64}]\n"


def comment(_, size):
    line = "a comment that goes on for as long as it was asked to, in lines\n"
    yield "aag 1 1 0 1 0\n2\n2\nc\n"
    yield (line * (size // len(line) + 1))[:size]


def stimulus(below, inputs, frames):
    rng = random.Random(below(MASK))
    yield from (rng.randbytes(inputs).translate(b"x000000001111111" * 16).decode() + "\n" for _ in range(frames))


def changing(_, inputs, frames):
    yield from ("01"[frame % 2] * inputs + "\n" for frame in range(frames))


def values(below, frames, variables, lines):
    yield from (f"v {below(frames)} {below(2 * variables + 2)}\n" for _ in range(lines))


def zeros(_, inputs, frames):
    yield from ("0" * inputs + "\n" for _ in range(frames))


# ---- certificates

def ring(below, *ring_of):
    yield from Ring(below, *ring_of).sections([(0, 1)])


def claims(below, kind, *ring_of):
    made = Ring(below, *ring_of)
    yield from made.small() if kind == "small" else made.sections(made.pairs())


# ---- ciphers

def cipher(_, copies, half, rounds):
    every = Ciphers(copies, half, rounds)
    gates = copies * every.gates_of_a_copy
    yield f"aag {every.inputs + every.latches + gates} {every.inputs} {every.latches} {every.inputs} {gates}\n"
    yield from (f"{2 * variable}\n" for variable in range(1, every.inputs + 1))
    made = [every.copy(copy) for copy in range(copies)]
    for copy, (_, state) in enumerate(made):
        yield from (f"{every.latch(copy, bit)} {following}\n" for bit, following in enumerate(state))
    yield from (f"{output}\n" for _, state in made for output in state[:half])
    for copy, (sides, _) in enumerate(made):
        first = every.first_gate(copy)
        yield from (f"{2 * (first + place)} {a} {b}\n" for place, (a, b) in enumerate(sides))


def edits(below, load, *words):
    """Edits each of which changes something, and then the trace."""
    *cipher_of, frames, count = words
    every = Ciphers(*cipher_of)
    ones = set()

    def flipped(place):
        ones.symmetric_difference_update([place])
        return int(place in ones)

    for edit in range(count):
        copy = below(every.copies)
        if load in ("bits", "late"):
            frame = below(frames) if load == "bits" else frames - 1 - below(min(frames, 2))
            place = below(every.inputs)
            yield f"s {frame} {place} {flipped((frame, place))}\n"
        elif load == "resets":
            latch = below(every.latches)
            yield f"r {2 * (1 + every.inputs + latch)} {flipped(latch)}\n"
        elif load == "rewires" and edit % 2 == 0:
            # A gate with other sides, and then with its own again.
            sides, _ = every.copy(copy)
            place = 64 + below(len(sides) - 64)
            left = 2 * (every.first_gate(copy) + place)
            others = [left - 2 * (1 + below(64)) + below(2) for _ in range(2)]
            yield "w %d %d %d\n" % (left, *others)
            yield "w %d %d %d\n" % (left, *sides[place])
        elif load == "frames" and edit % 2 == 0:
            yield "-\n+ " + "".join(["01"[below(2)] for _ in range(every.inputs)]) + "\n"
    yield "t\n"


def swaps(below, copies, half, rounds, count):
    every = Ciphers(copies, half, rounds)
    for _ in range(count):
        copy = below(copies)
        sides, _ = every.copy(copy)
        place = below(len(sides))
        yield "w %d %d %d\n" % (2 * (every.first_gate(copy) + place), *reversed(sides[place]))


# ---- rounds of Ascon

def ascon(_, shape, rounds):
    made = Ascon(shape, rounds)
    yield f"aag {len(made.levels) - 1} {made.inputs} 0 {len(made.outputs)} {len(made.gates)}\n"
    yield from (f"{2 * at}\n" for at in range(1, made.inputs + 1))
    yield from (f"{output}\n" for output in made.outputs)
    yield from ("%d %d %d\n" % gate for gate in made.gates)


def rewires(below, load, shape, rounds, count):
    """Lines that give a gate other sides. In `same_level` one side becomes a literal of the level that the old side had
    at first, so that few levels change; in `below` both become literals of any level that was below the gate's; in
    `anywhere` they are any literals, so that many a line would close a cycle and is refused."""
    made = Ascon(shape, rounds)
    by_level = {}
    for variable, level in enumerate(made.levels):
        by_level.setdefault(level, []).append(variable)
    for _ in range(count):
        gate, left, right = made.gates[below(len(made.gates))]
        if load == "same_level":
            among = by_level[made.levels[left >> 1]]
            yield f"w {gate} {2 * among[below(len(among))] + below(2)} {right}\n"
            continue
        sides = []
        while len(sides) < 2:
            side = below(len(made.levels))
            if load == "anywhere" or made.levels[side] < made.levels[gate >> 1]:
                sides.append(2 * side + below(2))
        yield "w %d %d %d\n" % (gate, *sides)


# ---- multipliers

def multipliers(bits):
    """Two multipliers, and the literal that says that they differ."""
    both = Multipliers(bits)
    differs = 0
    for one, other in zip(both.product(both.left, both.right), both.product(both.right, both.left)):
        differs = both.disjunction(differs, both.exclusive(one, other))
    return both, differs


def multiplier(_, bits):
    both, differs = multipliers(bits)
    yield f"aag {both.inputs + len(both.gates)} {both.inputs} 0 0 {len(both.gates)} 1\n"
    yield from (f"{literal}\n" for literal in both.left + both.right)
    yield f"{differs}\n"
    yield from (f"{gate} {a} {b}\n" for gate, a, b in both.gates)


def moves(below, bits, count):
    gates = multipliers(bits)[0].gates
    for _ in range(count // 2):
        gate, a, b = gates[below(len(gates))]
        yield f"w {gate} {below(gate)} {b}\nw {gate} {a} {b}\n"


# ---- pigeons

def pigeons(_, holes):
    count, gates = holes * (holes + 1), []

    def conjunction(literals):
        """The literal of a chain of gates."""
        whole, *rest = literals
        for literal in rest:
            gates.append((2 * (count + len(gates) + 1), max(whole, literal), min(whole, literal)))
            whole = gates[-1][0]
        return whole

    at = [[2 * (pigeon * holes + hole + 1) for hole in range(holes)] for pigeon in range(holes + 1)]
    clauses = [conjunction([literal ^ 1 for literal in row]) ^ 1 for row in at]
    clauses += [conjunction([one[hole], other[hole]]) ^ 1 for hole in range(holes)
                for place, one in enumerate(at) for other in at[:place]]
    bad = conjunction(clauses)
    yield f"aag {count + len(gates)} {count} 0 0 {len(gates)} 1\n"
    yield from (f"{literal}\n" for row in at for literal in row)
    yield f"{bad}\n"
    yield from (f"{gate} {a} {b}\n" for gate, a, b in gates)


KINDS = {kind.__name__: kind for kind in (circuit, names, comment, stimulus, changing, values, cipher, zeros, edits,
                                          swaps, ascon, rewires, ring, claims, multiplier, moves, pigeons)}


def made(kind, *words, seed=SEED):
    """The pieces of a file."""
    return KINDS[kind](numbers(seed), *(int(word) if str(word).isdigit() else word for word in words))


def main():
    words = sys.argv[1:]
    seed = SEED
    if words[:1] == ["--seed"]:
        seed, words = int(words[1]), words[2:]
    if not words or words[0] not in KINDS:
        sys.exit(__doc__)
    sys.stdout.writelines(made(*words, seed=seed))


if __name__ == "__main__":
    main()
