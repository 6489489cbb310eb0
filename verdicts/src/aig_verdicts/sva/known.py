"""What is known while one assertion is read."""

from __future__ import annotations

from dataclasses import dataclass, field
from typing import Dict, List, Sequence, Tuple

from .constants import constant
from .model import Module
from .terms import Term, Terms
from .words import Kind, Rejected, Word, text_of

# The longest range.
MOST_EDGES = 2000


@dataclass
class Known:
    """What properties of a module are made of, and what one assertion uses of it.

    atoms   the words of each atom, by its text
    needed  the constants that ranges rely on
    """

    module: Module
    terms: Terms = field(default_factory=Terms)
    atoms: Dict[str, List[Word]] = field(default_factory=dict)
    needed: List[Tuple[str, int]] = field(default_factory=list)

    def need(self, words: Sequence[Word], value: int) -> None:
        """Takes a constant that is no plain number: Yosys has to find the same value."""
        if len(words) > 1 or words[0].kind is not Kind.NUMBER:
            self.needed.append((text_of(words), value))

    def number(self, words: Sequence[Word], here: Word) -> int:
        found = constant(words, self.module.numbers)
        at = words[0] if words else here
        if found is None:
            raise Rejected(at, "is no constant that is known here")
        if found > MOST_EDGES:
            raise Rejected(at, f"a number of edges that is not in 0 to {MOST_EDGES}")
        self.need(words, found)
        return found


@dataclass(frozen=True)
class Value:
    """What was read: a sequence, or a property."""

    term: Term
    is_sequence: bool
