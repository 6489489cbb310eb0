"""The circuit that keeps some of its properties, from the parts of a plain reader. It shares nothing with the toolkit."""

LETTERS = {"bad": b"b", "outputs": b"o"}


def selected(parts, source, target, named):
    """The parts with the properties of one section at the positions that are named, all where none is, as those of
    another; or None where a position is not there."""
    literals = getattr(parts, source)
    positions = named or list(range(len(literals)))
    if any(position >= len(literals) for position in positions):
        return None
    names = []
    for letter, position, name in parts.names:
        if letter in (b"i", b"l", b"c"):
            names.append((letter, position, name))
        elif letter == LETTERS[source]:
            names += [(LETTERS[target], place, name) for place, other in enumerate(positions) if other == position]
    sections = {"outputs": [], "bad": [], target: [literals[position] for position in positions]}
    return parts._replace(**sections, justice=[], fairness=[], names=names)
