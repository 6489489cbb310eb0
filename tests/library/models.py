"""A plain reader of the models that SAT solvers print, line by line and word by word."""

import re

SAID = {"s SATISFIABLE": None, "SATISFIABLE": None, "SAT": None, "s UNSATISFIABLE": "unsatisfiable",
        "UNSATISFIABLE": "unsatisfiable", "UNSAT": "unsatisfiable", "s UNKNOWN": "unknown", "INDETERMINATE": "unknown"}


def read_model(text, variables):
    """The set of the literals that are named, or the fault."""
    named, begun, ended, offset = set(), False, False, 0
    for line in text.split("\n"):
        if line[:1] == "c":
            pass
        elif not begun and not ended and line[:1] in ("s", "S", "U", "I"):
            if line not in SAID:
                return f"text at {offset}"
            if SAID[line]:
                return SAID[line]
            begun = True
        else:
            for word in re.finditer("[^ \t]+", line):
                place, word = offset + word.start(), word.group()
                if ended:
                    return f"text at {place}"
                if word == "v" and place == offset:
                    continue
                if word == "0":
                    ended = True
                    continue
                begun = True
                if not re.fullmatch("-?[1-9][0-9]*", word,
                                    re.ASCII) or abs(int(word)) > variables or -int(word) in named:
                    return f"text at {place}"
                named.add(int(word))
        offset += len(line) + 1
    return named if ended else f"text at {len(text)}"
