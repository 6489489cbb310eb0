"""A plain reader of formulas in DIMACS: a clause may go over lines, a line may have several, and a `0` ends each."""

import re

COUNTS = re.compile(r"\s*p\s+cnf\s+([0-9]+)\s+([0-9]+)\s*", re.ASCII)


def read_formula(text):
    """Returns the number of variables, the number of clauses that the text states, and its clauses; or what is wrong."""
    lines = [line for line in text.split("\n") if line[:1] != "c"]
    head = COUNTS.fullmatch(lines[0])
    if not head:
        return f"no problem line: {lines[0]}"
    variables, clauses, clause = int(head[1]), [], []
    for word in " ".join(lines[1:]).split():
        if word == "0":
            clauses.append(clause)
            clause = []
        elif re.fullmatch("-?[0-9]+", word, re.ASCII) and 0 < abs(int(word)) <= variables:
            clause.append(int(word))
        else:
            return f"no literal of {variables} variables: {word}"
    return "a clause without its 0" if clause else (variables, int(head[2]), clauses)
