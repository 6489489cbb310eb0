"""Circuits of many gates, made at random, and their traces, which are computed here without the program. A circuit is
in the plain reader's parts."""

from library.plain_reader import Parts


def random_circuit(rng, counts, comment=None):
    """So many inputs, latches, gates and outputs: gates of the variables before them, in the order of a binary file;
    latches of inputs and latches before them."""
    inputs, latches, gates, outputs = counts
    most = inputs + latches + gates
    states = []
    for variable in range(inputs + 1, inputs + latches + 1):
        after = rng.randrange(2 * variable)
        states.append((2 * variable, after, {"0": 0, "1": 1, "x": 2 * variable}[rng.choice("001x")]))
    ands = []
    for variable in range(inputs + latches + 1, most + 1):
        sides = (rng.randrange(max(2, 2 * variable - 300), 2 * variable), rng.randrange(2, 2 * variable))
        ands.append((2 * variable, *sorted(sides, reverse=True)))
    ends = [rng.randrange(2 * most + 2) for _ in range(outputs)]
    names = [(b"i", at, b"input %d" % at) for at in range(0, inputs, 2)]
    return Parts(most, list(range(2, 2 * inputs + 2, 2)), states, ends, [], [], [], [], ands, names, comment)


def shuffled(rng, parts):
    """The same circuit with other variables, its gates in another order and their right sides turned."""
    variables = [0, *rng.sample(range(1, 2 * parts.most + 1), parts.most)]

    def to(literal):
        return 2 * variables[literal >> 1] + literal % 2

    gates = [(to(left), to(second), to(first)) for left, first, second in parts.gates]
    rng.shuffle(gates)
    latches = [(to(state), to(after), reset if reset < 2 else to(reset)) for state, after, reset in parts.latches]
    inputs, outputs = [to(literal) for literal in parts.inputs], [to(literal) for literal in parts.outputs]
    most = max([*inputs, *(latch[0] for latch in latches), *(gate[0] for gate in gates)]) >> 1
    return parts._replace(most=most, inputs=inputs, latches=latches, outputs=outputs, gates=gates)


def fields(parts, columns, frames):
    """The characters of each column of the trace: state, inputs, outputs, next state. The values of a literal are a
    pair of numbers with a bit a frame: that it may be 1, and that it may be 0."""
    every = (1 << frames) - 1
    planes = {0: (0, every), **dict(zip(parts.inputs, columns))}

    def plane(literal):
        one, zero = planes[literal & ~1]
        return (zero, one) if literal & 1 else (one, zero)

    for state, after, reset in parts.latches:
        one, zero = plane(after)
        start = ((0, 1), (1, 0))[reset] if reset < 2 else (1, 1)
        planes[state] = ((one << 1 | start[0]) & every, (zero << 1 | start[1]) & every)
    for left, first, second in parts.gates:
        (one, zero), (other, nought) = plane(first), plane(second)
        planes[left] = (one & other, zero | nought)
    listed = ([latch[0] for latch in parts.latches], parts.inputs, parts.outputs, [latch[1] for latch in parts.latches])
    return [[characters(plane(literal), frames) for literal in field] for field in listed]


def characters(plane, frames):
    """The values of a literal, a character a frame."""
    one, zero = (format(part, f"0{frames}b")[::-1] for part in plane)
    return "".join({"10": "1", "01": "0", "11": "x"}[a + b] for a, b in zip(one, zero))


def trace(columns_of_fields, frames):
    rows = [map("".join, zip(*field)) if field else [""] * frames for field in columns_of_fields]
    return "".join(" ".join(row) + "\n" for row in zip(*rows)).encode()
