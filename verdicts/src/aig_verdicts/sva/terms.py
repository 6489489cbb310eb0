"""Sequences and properties as terms. Equal terms are one object, and each has a number in the order of their making.

A sequence is a regular expression over *letters*: the values of all atoms at one edge of the clock. An *atom* is an
expression of the source. A property says which runs of letters it allows."""

from __future__ import annotations

import enum
from dataclasses import dataclass
from typing import Dict, FrozenSet, Iterable, List, Optional, Tuple

# So many terms are made for one assertion, and so many steps are taken, until it is rejected.
MOST_TERMS, MOST_STEPS = 4000, 60000


# How often at least, and at most; None without an end.
Times = Tuple[int, Optional[int]]


class TooMany(Exception):
    """An assertion needs more states than a limit, or more work to find them."""


class Form(enum.Enum):
    """What a term is. The second group are properties."""

    EMPTY = "empty"  # the sequence of no letter
    NONE = "none"  # that nothing matches
    ATOM = "atom"  # one letter, in which an atom is true, or false
    THEN = "then"  # one after the other
    EITHER = "either"
    BOTH = "both"  # over the same letters
    FUSED = "fused"  # the last letter of one is the first of the other
    REPEATED = "repeated"
    FIRST = "first"  # the first match alone

    TRUE = "true"
    FALSE = "false"
    SEQUENCE = "sequence"
    NOT = "not"
    AND = "and"
    OR = "or"
    IMPLIES = "implies"
    NEXT = "next"
    ALWAYS = "always"
    UNTIL = "until"


@dataclass(frozen=True, eq=False)
class Term:
    """A sequence or a property.

    name          of an atom, its text; `1` for the one that is always true
    sign          of an atom, whether it has to be true; of `until`, whether it is `until_with`
    least, most   how often, or when; no `most` where it has no end
    number        the place in the order of their making
    """

    form: Form
    parts: Tuple["Term", ...]
    name: str
    sign: bool
    least: int
    most: Optional[int]
    number: int


class Terms:
    """Makes terms, each once, in the simplest form that is found without search."""

    def __init__(self) -> None:
        self._known: Dict[Tuple[object, ...], Term] = {}
        self._nullable: Dict[Term, bool] = {}
        self._steps = 0
        self.empty, self.none = self._made(Form.EMPTY), self._made(Form.NONE)
        self.true, self.false = self._made(Form.TRUE), self._made(Form.FALSE)
        self.any = self.atom("1")
        self.all = self._made(Form.REPEATED, (self.any,))

    def step(self) -> None:
        """Counts a piece of work."""
        self._steps += 1
        if self._steps > MOST_STEPS:
            raise TooMany

    def _made(self, form: Form, parts: Tuple[Term, ...] = (), name: str = "", sign: bool = True,
              times: Times = (0, None)) -> Term:
        self.step()
        key = (form, parts, name, sign, times)
        if key not in self._known:
            if len(self._known) >= MOST_TERMS:
                raise TooMany
            self._known[key] = Term(form, parts, name, sign, *times, len(self._known))
        return self._known[key]

    def _several(self, form: Form, parts: Iterable[Term], without: Term, all_of_it: Optional[Term] = None) -> Term:
        """The parts in a term of a form, each once and in order; those of parts of the same form too. The term `without`
        changes nothing, and one may be all of it."""
        flat = {it for part in parts for it in (part.parts if part.form is form else (part,))} - {without}
        for _ in flat:
            self.step()
        found = tuple(sorted(flat, key=lambda it: it.number))
        if all_of_it is not None and all_of_it in found:
            return all_of_it
        if len(found) < 2:
            return found[0] if found else without
        return self._made(form, found)

    # -- sequences

    def atom(self, name: str, sign: bool = True) -> Term:
        return self._made(Form.ATOM, (), name, sign)

    def then(self, left: Term, right: Term) -> Term:
        if self.none in (left, right):
            return self.none
        if left is self.empty:
            return right
        if right is self.empty:
            return left
        if left.form is Form.THEN:
            return self.then(left.parts[0], self.then(left.parts[1], right))
        return self._made(Form.THEN, (left, right))

    def either(self, *parts: Term) -> Term:
        return self._several(Form.EITHER, parts, self.none)

    def both(self, left: Term, right: Term) -> Term:
        if self.none in (left, right):
            return self.none
        if left is self.all:
            return right
        if right is self.all or left is right:
            return left
        if self.empty in (left, right):
            return self.empty if self.nullable(left) and self.nullable(right) else self.none
        return self._made(Form.BOTH, (left, right))

    def fused(self, left: Term, right: Term) -> Term:
        if self.none in (left, right) or self.empty in (left, right):
            return self.none
        return self._made(Form.FUSED, (left, right))

    def repeated(self, part: Term, least: int, most: Optional[int]) -> Term:
        if most == 0 or part is self.empty:
            return self.empty
        if part is self.none:
            return self.empty if least == 0 else self.none
        return part if (least, most) == (1, 1) else self._made(Form.REPEATED, (part,), times=(least, most))

    def first(self, part: Term) -> Term:
        if self.nullable(part):
            return self.empty
        return part if part is self.none else self._made(Form.FIRST, (part,))

    def nullable(self, term: Term) -> bool:
        """Whether a sequence matches no letter at all."""
        if term not in self._nullable:
            self._nullable[term] = self._is_nullable(term)
        return self._nullable[term]

    def _is_nullable(self, term: Term) -> bool:
        self.step()
        if term.form is Form.EMPTY:
            return True
        if term.form in (Form.NONE, Form.ATOM, Form.FUSED):
            return False
        if term.form in (Form.THEN, Form.BOTH):
            return all(self.nullable(it) for it in term.parts)
        if term.form is Form.EITHER:
            return any(self.nullable(it) for it in term.parts)
        return term.form is Form.REPEATED and term.least == 0 or self.nullable(term.parts[0])

    def has_first(self, term: Term) -> bool:
        """Whether a sequence has a `first_match`."""
        self.step()
        return term.form is Form.FIRST or any(self.has_first(it) for it in term.parts)

    def is_bounded(self, term: Term) -> bool:
        """Whether each match of a sequence, or each failure and each success of a property, is within a bound."""
        self.step()
        if term.form is Form.REPEATED:
            return term.most is not None and self.is_bounded(term.parts[0])
        if term.form is Form.BOTH:
            return any(self.is_bounded(it) for it in term.parts)
        if term.form is Form.UNTIL or term.form is Form.ALWAYS and term.most is None:
            return False
        return all(self.is_bounded(it) for it in term.parts)

    # -- properties

    def sequence(self, part: Term) -> Term:
        return self._made(Form.SEQUENCE, (part,))

    def conjunction(self, *parts: Term) -> Term:
        return self._several(Form.AND, parts, self.true, self.false)

    def disjunction(self, *parts: Term) -> Term:
        return self._several(Form.OR, parts, self.false, self.true)

    def negation(self, part: Term) -> Term:
        if part in (self.true, self.false):
            return self.false if part is self.true else self.true
        return part.parts[0] if part.form is Form.NOT else self._made(Form.NOT, (part,))

    def implication(self, left: Term, right: Term) -> Term:
        if left is self.none:
            return self.true
        return right if left is self.any else self._made(Form.IMPLIES, (left, right))

    def next(self, count: int, part: Term) -> Term:
        return part if count == 0 else self._made(Form.NEXT, (part,), times=(count, None))

    def always(self, part: Term, least: int, most: Optional[int]) -> Term:
        return self._made(Form.ALWAYS, (part,), times=(least, most))

    def until(self, left: Term, right: Term, is_with: bool) -> Term:
        return self._made(Form.UNTIL, (left, right), sign=is_with)


def shown(term: Term) -> str:
    """A term in the words of the source."""
    inner = [shown(it) for it in term.parts]
    if term.form is Form.ATOM:
        return ("" if term.sign else "!") + (term.name if term.name.isidentifier() else f"({term.name})")
    if term.form is Form.REPEATED:
        most = "" if term.most == term.least else f":{'$' if term.most is None else term.most}"
        return f"{inner[0]}[*{term.least}{most}]"
    plain = {Form.EMPTY: "1[*0]", Form.TRUE: "1", Form.FALSE: "0", Form.NONE: "0"}
    return plain[term.form] if term.form in plain else _joined(term, inner)


def _joined(term: Term, inner: List[str]) -> str:
    infix = {Form.THEN: "##1", Form.FUSED: "##0", Form.BOTH: "intersect", Form.EITHER: "or", Form.AND: "and",
             Form.OR: "or", Form.IMPLIES: "|->", Form.UNTIL: "until_with" if term.sign else "until"}
    prefix = {Form.FIRST: "first_match", Form.NOT: "not", Form.NEXT: f"nexttime[{term.least}]", Form.ALWAYS: "always"}
    if term.form in prefix:
        return f"{prefix[term.form]}({inner[0]})"
    words = f" {infix.get(term.form, '')} ".join(inner)
    return f"({words})" if term.form in (Form.EITHER, Form.BOTH, Form.AND, Form.OR) else words


# The states that a letter leads to.
States = FrozenSet[Term]
