"""The witness of the first frame that reaches a bad state, from the values of a plain simulator. It shares nothing with
the toolkit."""

from library.reference import literal, values


def first_reached(parts, rows, asked=None):
    """The text of the witness that a run over the rows reaches the property that is asked for, or any; or None."""
    for t, known in enumerate(values(parts, rows)):
        if any(literal(known, l) != "1" for l in parts.constraints):
            return None
        for p, l in enumerate(parts.bad):
            if asked in (None, p) and literal(known, l) == "1":
                start = "".join({0: "0", 1: "1"}.get(reset, "x") for _, _, reset in parts.latches)
                return "\n".join(["1", f"b{p}", start, *rows[:t + 1], ".", ""])
    return None
