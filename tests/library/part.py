"""What a property reads of a circuit, together with the constraints: in its frame, and through latches in the frames
before. It shares nothing with the toolkit."""

import copy


def read_from(roots, latches, gates):
    """The even literals that are read for these literals. A latch has its literal and its next state first. Each gate's
    sides are by its left side."""
    following = {latch[0]: latch[1] for latch in latches}
    read, pending = set(), list(roots)
    while pending:
        literal = pending.pop() & ~1
        if literal not in read:
            read.add(literal)
            pending += gates.get(literal, ())
            pending += [following[literal]] if literal in following else []
    return read


def part_of(parts, bad):
    """The part of a circuit of library/reference.py that a bad literal reads, which is its one property."""
    read = read_from([bad, *parts.constraints], parts.latches, parts.gates)
    part = copy.copy(parts)
    part.inputs = [literal for literal in parts.inputs if literal in read]
    part.latches = [latch for latch in parts.latches if latch[0] in read]
    part.gates = {left: sides for left, sides in parts.gates.items() if left in read}
    part.outputs, part.bad = [], [bad]
    return part
