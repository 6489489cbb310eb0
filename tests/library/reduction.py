"""A witness with x in place of each value that its failure does not need, by the values of a plain simulator. It shares
nothing with the toolkit."""

import copy

from library.reference import literal, values


def is_confirmed(parts, bad, start, rows):
    """Whether the resets allow the start, and the run keeps all constraints and ends in the bad state."""
    if any(reset < 2 and value != str(reset) for (_, _, reset), value in zip(parts.latches, start)):
        return False
    run = copy.copy(parts)
    run.latches = [[lit, following, {"0": 0, "1": 1, "x": lit}[value]]
                   for (lit, following, _), value in zip(parts.latches, start)]
    known = values(run, rows)
    return (all(literal(now, l) == "1" for now in known for l in parts.constraints)
            and literal(known[-1], parts.bad[bad]) == "1")


def replaced(start, rows):
    """Each way to put x in place of one more value."""
    lines = [start, *rows]
    for number, line in enumerate(lines):
        for place, value in enumerate(line):
            if value != "x":
                now = [*lines[:number], f"{line[:place]}x{line[place + 1:]}", *lines[number + 1:]]
                yield now[0], now[1:]


def reduced(parts, bad, start, rows):
    """The start and the rows of the reduced witness: the values are tried one after the other."""
    lines = [list(start), *map(list, rows)]
    for line in lines:
        for place, value in enumerate(line):
            line[place] = "x"
            if not is_confirmed(parts, bad, lines[0], lines[1:]):
                line[place] = value
    start, *rows = ("".join(line) for line in lines)
    return start, rows


def witness_text(bad, start, rows):
    return "\n".join(["1", f"b{bad}", start, *rows, ".", ""])
