"""Properties of the source as terms. They bind as in table 16-3 of IEEE 1800-2017:

    not, nexttime   and   or   iff   until, implies   |->, |=>, #-#, #=#   always, if"""

from __future__ import annotations

from dataclasses import dataclass
from typing import List, Optional, Tuple

from .arguments import with_arguments
from .expressions import HISTORY, PAST
from .known import Known, Value
from .model import Clock, Module, Named, clock_of
from .sequences import MOST_DEPTH, SequenceReader
from .terms import Term
from .words import LIVE, OTHER, Live, Rejected, Word, closing, has_any, stripped

_LIVENESS = "asks for liveness"
_ARROWS = ("|->", "|=>", "#-#", "#=#")


class PropertyReader(SequenceReader):
    """Reads words as a property or as a sequence."""

    def whole(self) -> Value:
        value = self.property()
        if self._at < len(self._words):
            raise Rejected(self.here(), "expected the end of the property")
        return value

    def instance(self, named: Named) -> Value:
        """A named property or sequence inside of another one."""
        words, clock, disable = _without_heading(self.known.module, named.body, named.word)
        if disable is not None:
            raise Rejected(named.word, "a property with disable iff inside of another one")
        if clock is not None and clock != self.clock:
            raise Rejected(named.word, "a second clock")
        return PropertyReader(self.known, words, self.clock, self.depth + 1).whole()

    # -- operators

    def property(self) -> Value:
        self._look()
        if self.text() == "always":
            self.take()
            least, most = self.range() if self.text() == "[" else (0, None)
            return self._made(self.terms.always(self.property_of(self.property()), least, most))
        if self.text() == "if":
            return self._if()
        left = self._until()
        if self.text() in _ARROWS:
            return self._arrow(left)
        return left

    def _look(self) -> None:
        if self.text() in LIVE:
            raise Live(self.here(), _LIVENESS)
        if self.text() in OTHER:
            raise Rejected(self.here(), "is not translated")

    def _made(self, term: Term) -> Value:
        return Value(term, False)

    def _if(self) -> Value:
        self.take("if")
        begin = self._at
        self.take("(")
        self._at = closing(self._words, begin) + 1
        words = self._words[begin + 1:self._at - 1]
        condition = self.atom(words)
        yes = self.terms.implication(condition, self.property_of(self.property()))
        if self.text() != "else":
            return self._made(yes)
        here = self.take()
        if has_any(words, frozenset({PAST})):
            raise Rejected(here, "of a condition with `$past`, which can be neither true nor false")
        is_constant = condition.name in ("1", "1'b0")
        other = self.terms.none if condition.name == "1" else self.terms.any if is_constant else \
            self.terms.atom(condition.name, not condition.sign)
        no = self.terms.implication(other, self.property_of(self.property()))
        return self._made(self.terms.conjunction(yes, no))

    def _arrow(self, left: Value) -> Value:
        here, terms = self.take(), self.terms
        if not left.is_sequence:
            raise Rejected(here, "has a property on its left, not a sequence")
        sequence = left.term
        if terms.nullable(sequence):
            raise Rejected(here, "the sequence on its left can be empty")
        if not self.derivatives.can_match(sequence):
            raise Rejected(here, "the sequence on its left is one that nothing can match")
        if here.text in ("|=>", "#=#"):
            sequence = terms.then(sequence, terms.any)
        right = self.property_of(self.property())
        if here.text in ("|->", "|=>"):
            return self._made(terms.implication(sequence, right))
        inner = terms.implication(sequence, terms.negation(self._bounded(right, here)))
        return self._made(terms.negation(self._bounded(inner, here)))

    def _until(self) -> Value:
        left, terms = self._iff(), self.terms
        self._look()
        if self.text() == "implies":
            here = self.take()
            right = self._until_after(here, ("until", "until_with"))
            return self._made(terms.disjunction(terms.negation(self._bounded(self.property_of(left), here)), right))
        if self.text() in ("until", "until_with"):
            here = self.take()
            right = self._until_after(here, ("implies",))
            return self._made(terms.until(self.property_of(left), right, here.text == "until_with"))
        return left

    def _until_after(self, here: Word, others: Tuple[str, ...]) -> Term:
        """What is on the right of `until` or `implies`, which do not mix without brackets."""
        begin = self._at
        right = self.property_of(self._until())
        level = 0
        for it in self._words[begin:self._at]:
            level += (it.text == "(") - (it.text == ")")
            if level == 0 and it.text in others:
                raise Rejected(here, f"beside `{it.text}` without brackets")
        return right

    def _iff(self) -> Value:
        left = self._or()
        if self.text() != "iff":
            return left
        here, terms = self.take(), self.terms
        one, other = (self._bounded(self.property_of(it), here) for it in (left, self._iff()))
        forward = terms.disjunction(terms.negation(one), other)
        return self._made(terms.conjunction(forward, terms.disjunction(terms.negation(other), one)))

    def _or(self) -> Value:
        left = self._and()
        while self.text() == "or":
            self.take()
            right = self._and()
            if left.is_sequence and right.is_sequence:
                left = Value(self.terms.either(left.term, right.term), True)
            else:
                left = self._made(self.terms.disjunction(self.property_of(left), self.property_of(right)))
        return left

    def _and(self) -> Value:
        left = self._unary()
        while self.text() == "and":
            here = self.take()
            right = self._unary()
            if left.is_sequence and right.is_sequence:
                left = self.both_end(left, right, here)
            else:
                left = self._made(self.terms.conjunction(self.property_of(left), self.property_of(right)))
        return left

    def _unary(self) -> Value:
        self._look()
        word = self.text()
        if word == "not":
            here = self.take()
            return self._made(self.terms.negation(self._bounded(self.property_of(self._unary()), here)))
        if word == "nexttime":
            self.take()
            count = self._count_of_next() if self.text() == "[" else 1
            return self._made(self.terms.next(count, self.property_of(self._unary())))
        if word in ("always", "if"):
            return self.property()
        if word in ("strong", "weak"):
            here = self.take()
            value = self.inner()
            if not value.is_sequence:
                raise Rejected(here, "of a property, not of a sequence")
            term = self.property_of(value)
            return self._made(self._bounded(term, here) if word == "strong" else term)
        return self.intersect()

    def _count_of_next(self) -> int:
        here = self.here()
        least, most = self.range()
        if least != most:
            raise Rejected(here, "a range that is not understood")
        return least

    # -- what a value has to be

    def _bounded(self, term: Term, here: Word) -> Term:
        """A property that is decided within a bound."""
        if not self.terms.is_bounded(term):
            raise Live(here, f"of a property without a bound {_LIVENESS}")
        return term

    def property_of(self, value: Value) -> Term:
        if not value.is_sequence:
            return value.term
        if self.terms.nullable(value.term):
            raise Rejected(self.here(), "a sequence before this that can be empty is no property")
        if not self.derivatives.can_match(value.term):
            raise Rejected(self.here(), "a sequence before this that nothing can match")
        return self.terms.sequence(value.term)


@dataclass
class Spec:
    """A property with its clock, the words of its `disable iff`, and the terms of it."""

    clock: Clock
    disable: Optional[List[Word]]
    value: Value
    reader: PropertyReader


def _without_heading(module: Module, words: List[Word],
                     here: Word) -> Tuple[List[Word], Optional[Clock], Optional[List[Word]]]:
    """A property without its clock and its `disable iff`, and these."""
    words, clock = _without_clock(module, words)
    if not words or words[0].text != "disable":
        return _expected(words, here), clock, None
    if len(words) < 3 or words[1].text != "iff" or words[2].text != "(":
        raise Rejected(words[0], "disable without iff (..)")
    end = closing(words, 2)
    disable, (words, second) = words[3:end], _without_clock(module, words[end + 1:])
    if second is not None and clock is not None:
        raise Rejected(here, "a second clock")
    if has_any(disable, HISTORY):
        raise Rejected(disable[0], "disable iff with a function of the past")
    return _expected(words, here), clock or second, disable


def _expected(words: List[Word], here: Word) -> List[Word]:
    if not words:
        raise Rejected(here, "an empty property")
    return words


def _without_clock(module: Module, words: List[Word]) -> Tuple[List[Word], Optional[Clock]]:
    if not words or words[0].text != "@":
        return words, None
    if len(words) < 2:
        raise Rejected(words[0], "expected a clock")
    end = closing(words, 1) if words[1].text == "(" else 1
    event = stripped(words[1:end + 1])
    if len(event) == 1 and event[0].text in module.blocks:
        return words[end + 1:], module.blocks[event[0].text]
    return words[end + 1:], clock_of(event, words[0])


def spec_of(known: Known, words: List[Word], here: Word) -> Spec:
    """The property of an assertion. One that is a named property as a whole has its clock and its `disable iff`."""
    module = known.module
    clock: Optional[Clock] = None
    disable: Optional[List[Word]] = None
    for depth in range(MOST_DEPTH):
        words, own_clock, own_disable = _without_heading(module, words, here)
        if disable is not None and own_disable is not None:
            raise Rejected(here, "disable iff twice")
        if clock is not None and own_clock not in (None, clock):
            raise Rejected(here, "a second clock")
        clock, disable = clock or own_clock, disable if own_disable is None else own_disable
        inner = stripped(words)
        named = module.named.get(inner[0].text)
        if named is None or len(inner) > 1 and (inner[1].text != "(" or closing(inner, 1) != len(inner) - 1):
            break
        words = with_arguments(named, inner).body
    else:
        raise Rejected(here, "a property that uses itself")
    clock = clock or module.clock
    if clock is None:
        raise Rejected(here, "a property without a clock")
    reader = PropertyReader(known, words, clock, 0)
    return Spec(clock, module.disable if disable is None else disable, reader.whole(), reader)

