"""What a property asks of the rest of a run, after each letter: derivatives of terms, and the machine that they make.

The letter `None` satisfies each atom, whatever its sign, as the letter `top` of the standard does: a sequence that no
such letters match has failed for good."""

from __future__ import annotations

from dataclasses import dataclass
from typing import Callable, Dict, Iterator, List, NamedTuple, Optional, Tuple, Union

from .terms import Form, States, Term, Terms, TooMany

# So many states and leaves one assertion may have.
MOST_STATES, MOST_LEAVES = 300, 3000

Letter = Optional[Callable[[str], bool]]


class _Need(Exception):
    """An atom whose value a letter does not have yet."""

    def __init__(self, atom: str):
        super().__init__(atom)
        self.atom = atom


class Leaf(NamedTuple):
    """What a letter makes of a state: whether the property fails, or the cover is reached; whether a consequent was
    asked; and the next states."""

    is_hit: bool
    is_asked: bool
    states: States


@dataclass(frozen=True)
class Choice:
    """What comes next if an atom is true, and if it is false."""

    atom: str
    true: "Tree"
    false: "Tree"


Tree = Union[Leaf, Choice]


def leaves(tree: Tree) -> Iterator[Leaf]:
    if isinstance(tree, Leaf):
        yield tree
    else:
        yield from leaves(tree.true)
        yield from leaves(tree.false)


class Derivatives:
    """The rest of sequences and properties after a letter."""

    def __init__(self, terms: Terms):
        self._terms = terms
        self._can_match: Dict[Tuple[Term, int], bool] = {}
        self.is_asked = False

    # -- sequences

    def rest(self, term: Term, letter: Letter) -> Term:
        """What is left of a sequence after a letter."""
        terms, form = self._terms, term.form
        terms.step()
        if form in (Form.EMPTY, Form.NONE):
            return terms.none
        if form is Form.ATOM:
            return terms.empty if _is_true(term, letter) else terms.none
        if form is Form.EITHER:
            return terms.either(*[self.rest(it, letter) for it in term.parts])
        left = self.rest(term.parts[0], letter)
        if form is Form.THEN:
            after = terms.then(left, term.parts[1])
            return terms.either(after, self.rest(term.parts[1], letter)) if terms.nullable(term.parts[0]) else after
        if left is terms.none:
            return left
        if form is Form.BOTH:
            return terms.both(left, self.rest(term.parts[1], letter))
        if form is Form.FUSED:
            after = terms.fused(left, term.parts[1])
            return terms.either(after, self.rest(term.parts[1], letter)) if terms.nullable(left) else after
        if form is Form.REPEATED:
            return terms.then(left, self._again(term))
        return terms.first(left)

    def _again(self, term: Term) -> Term:
        """The repetitions after the first one."""
        least = 0 if self._terms.nullable(term.parts[0]) else max(term.least - 1, 0)
        return self._terms.repeated(term.parts[0], least, None if term.most is None else term.most - 1)

    def can_match(self, term: Term, after: int = 0) -> bool:
        """Whether letters that satisfy everything reach a match, after at least so many of them."""
        key = (term, after)
        if key not in self._can_match:
            self._can_match[key] = self._matches(term, after)
        return self._can_match[key]

    def _matches(self, term: Term, after: int) -> bool:
        seen = set()
        while term is not self._terms.none and (term, after) not in seen:
            if after == 0 and self._terms.nullable(term):
                return True
            seen.add((term, after))
            term, after = self.rest(term, None), max(after - 1, 0)
        return False

    # -- properties

    def after(self, term: Term, letter: Letter) -> Term:
        """What is left of a property after a letter. `is_asked` becomes true where it asks a consequent."""
        terms, form = self._terms, term.form
        terms.step()
        if form in (Form.TRUE, Form.FALSE):
            return term
        if form is Form.SEQUENCE:
            rest = self.rest(term.parts[0], letter)
            if terms.nullable(rest):
                return terms.true
            return terms.sequence(rest) if self.can_match(rest) else terms.false
        if form is Form.IMPLIES:
            return self._implication(term, letter)
        if form is Form.NEXT:
            return terms.next(term.least - 1, term.parts[0])
        if form is Form.ALWAYS:
            return self._always(term, letter)
        parts = [self.after(it, letter) for it in term.parts]
        if form is Form.NOT:
            return terms.negation(parts[0])
        if form is Form.UNTIL:
            if term.sign:
                return terms.conjunction(parts[0], terms.disjunction(parts[1], term))
            return terms.disjunction(parts[1], terms.conjunction(parts[0], term))
        return terms.conjunction(*parts) if form is Form.AND else terms.disjunction(*parts)

    def _implication(self, term: Term, letter: Letter) -> Term:
        rest, parts = self.rest(term.parts[0], letter), []
        if self._terms.nullable(rest):
            self.is_asked = True
            parts.append(self.after(term.parts[1], letter))
        for it in rest.parts if rest.form is Form.EITHER else (rest,):
            if self.can_match(it, 1):
                parts.append(self._terms.implication(it, term.parts[1]))
        return self._terms.conjunction(*parts)

    def _always(self, term: Term, letter: Letter) -> Term:
        most = None if term.most is None else term.most - 1
        rest = self._terms.true if term.most == 0 else self._terms.always(term.parts[0], max(term.least - 1, 0), most)
        now = self._terms.true if term.least else self.after(term.parts[0], letter)
        return self._terms.conjunction(now, rest)


def _is_true(atom: Term, letter: Letter) -> bool:
    if letter is None:
        return True
    return atom.sign if atom.name == "1" else letter(atom.name) == atom.sign


# What a letter makes of a state.
Step = Callable[[Term, Letter], Leaf]


class Machine:
    """The states of a property or of a cover, and for each a tree of what letters make of it. The first state is the
    start, which is always on."""

    def __init__(self, start: Term, step: Step, terms: Terms):
        self.states: List[Term] = [start]
        self.trees: List[Tree] = []
        self._step, self._terms = step, terms
        known = {start}
        for state in self.states:
            self._leaves = 0
            self.trees.append(self._tree(state, {}))
            for leaf in leaves(self.trees[-1]):
                new = sorted(leaf.states - known, key=lambda it: it.number)
                self.states += new
                known.update(new)
            if len(self.states) > MOST_STATES:
                raise TooMany

    def _tree(self, state: Term, values: Dict[str, bool]) -> Tree:
        """A tree over the atoms that have no value yet."""
        self._terms.step()

        def letter(atom: str) -> bool:
            if atom not in values:
                raise _Need(atom)
            return values[atom]

        try:
            leaf = self._step(state, letter)
        except _Need as need:
            true = self._tree(state, {**values, need.atom: True})
            false = self._tree(state, {**values, need.atom: False})
            return true if true == false else Choice(need.atom, true, false)
        self._leaves += 1
        if self._leaves > MOST_LEAVES:
            raise TooMany
        return leaf


def of_property(term: Term, terms: Terms) -> Machine:
    derivatives = Derivatives(terms)

    def step(state: Term, letter: Letter) -> Leaf:
        derivatives.is_asked = False
        after = derivatives.after(state, letter)
        is_asked = derivatives.is_asked or not _is_waiting(state)
        if after is terms.false:
            return Leaf(True, is_asked, frozenset())
        parts = after.parts if after.form is Form.AND else () if after is terms.true else (after,)
        return Leaf(False, is_asked, frozenset(parts))

    return Machine(term, step, terms)


def _is_waiting(term: Term) -> bool:
    """Whether a property waits for its antecedent, so that nothing was asked yet."""
    if term.form in (Form.NEXT, Form.ALWAYS, Form.AND):
        return all(map(_is_waiting, term.parts))
    return term.form is Form.IMPLIES


def of_cover(sequence: Term, terms: Terms) -> Machine:
    derivatives = Derivatives(terms)

    def step(state: Term, letter: Letter) -> Leaf:
        rest = derivatives.rest(state.parts[0], letter)
        parts = rest.parts if rest.form is Form.EITHER else (rest,)
        states = frozenset(terms.sequence(it) for it in parts if derivatives.can_match(it, 1))
        return Leaf(terms.nullable(rest), True, states)

    return Machine(terms.sequence(sequence), step, terms)
