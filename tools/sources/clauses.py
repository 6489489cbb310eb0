"""The clauses of a function's contract, in its source."""

from __future__ import annotations

import re
from typing import List, Tuple

# A clause: its head, as `ensures kept`, and its text in braces.
Clause = Tuple[str, str]

CLAUSE = re.compile(r"\s*\b((?:requires|ensures)\b[^{;]*?)\s*\{")


def braces(text: str, at: int) -> str:
    """Returns the text from a brace to the one that closes it."""
    depth = 0
    for end in range(at, len(text)):
        depth += (text[end] == "{") - (text[end] == "}")
        if not depth:
            return text[at : end + 1]
    return text[at:]


def stripped(text: str) -> str:
    """Returns a text without the blanks at the edges of its lines."""
    return "\n".join(line.strip() for line in text.split("\n") if line.strip())


def signature(text: str, start: int) -> Tuple[str, List[Clause]]:
    """Returns the head of the function that begins at a place, and its clauses."""
    head, clauses, _ = parts(text, start)
    return head, clauses


def parts(text: str, start: int) -> Tuple[str, List[Clause], str]:
    """Returns the head of the function that begins at a place, its clauses, and its body, which is empty in a trait."""
    depth, at = 0, start
    stop = re.compile(r"\s*(?:[{;]|\b(?:requires|ensures)\b)")
    while depth or not stop.match(text, at):
        depth += (text[at] in "([") - (text[at] in ")]")
        at += 1
    indent = start - text.rindex("\n", 0, start) - 1
    head, clauses = text[start:at].replace("\n" + " " * indent, "\n"), []
    while True:
        found = CLAUSE.match(text, at)
        if not found:
            at += len(text[at:]) - len(text[at:].lstrip())
            return head, clauses, braces(text, at) if text[at : at + 1] == "{" else ""
        clause = braces(text, found.end() - 1)
        clauses.append((found[1], stripped(clause)))
        at = found.end() - 1 + len(clause)
