"""The circuit in which the parts that a text names may be anything, and the rows of it that go with a run of the
circuit, from the parts of a plain reader. It shares nothing with the toolkit."""

import re

from library.plain_reader import Fault

LIMIT = 4194303
LINE = re.compile(rb"([frc]) (0|[1-9][0-9]*)")


def named(parts, text):
    """The sets of literals that are free and that start at any value, and of positions of constraints."""
    latches, gates = {latch[0] for latch in parts.latches}, {gate[0] for gate in parts.gates}
    known = {b"f": latches | gates, b"r": latches, b"c": set(range(len(parts.constraints)))}
    found = {letter: set() for letter in known}
    *lines, last = text.split(b"\n")
    for number, line in enumerate(lines + [last] * (last != b""), 1):
        said = LINE.fullmatch(line)
        if said is None or number > len(lines) or int(said[2]) not in known[said[1]]:
            raise Fault(f"cuts: line {number}")
        found[said[1]].add(int(said[2]))
    return found[b"f"], found[b"r"], found[b"c"]


def cut(parts, text):
    """The parts that are cut as the text says."""
    free, starts, dropped = named(parts, text)
    new = []

    def fresh():
        new.append(2 * (parts.most + 1 + len(new)))
        return new[-1]

    latches = [(lit, fresh() if lit in free else after, lit if lit in starts else reset)
               for lit, after, reset in parts.latches]
    gates = [(gate[0], fresh(), 1) if gate[0] in free else gate for gate in parts.gates]
    constraints = [1 if at in dropped else literal for at, literal in enumerate(parts.constraints)]
    if max(parts.most, len(parts.inputs)) + len(new) > LIMIT:
        raise Fault("cut: limit")
    return parts._replace(most=parts.most + len(new), inputs=[*parts.inputs, *new], latches=latches, gates=gates,
                          constraints=constraints)


def stands_for(parts, text):
    """The literals that the new inputs stand for in a run of the circuit."""
    free, _, _ = named(parts, text)
    return [after for lit, after,
            _ in parts.latches if lit in free] + [gate[0] for gate in parts.gates if gate[0] in free]
