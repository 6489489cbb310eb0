"""Sequences of the source as terms. They bind as in table 16-3 of IEEE 1800-2017: repetitions bind most, then `##`,
`throughout`, `within`, `intersect`."""

from __future__ import annotations

import re
from typing import List, Optional, Sequence, Tuple

from .arguments import with_arguments
from .expressions import PAST
from .known import Known, Value
from .machine import Derivatives
from .model import Clock, Named
from .terms import Form, Term
from .words import CLOSE, INFIX, OPEN, PREFIX, Kind, Rejected, Word, closing, has_any, split, stripped, text_of

# How deep properties may use each other.
MOST_DEPTH = 20
_ENDS = frozenset({",", ";"}) | INFIX | CLOSE | {"else"}
_ASSIGNS = frozenset({"++", "--", "=", "+=", "-=", "*=", "/=", "%=", "&=", "|=", "^="})
_NOT_READ = {
    **dict.fromkeys(("triggered", "matched", "ended", "dist", "inside"), "is not translated"),
    **dict.fromkeys(_ASSIGNS, "an assignment in a property"), "@": "a clock inside of an expression",
    "#": "a delay in a property",
}
_TRUE, _FALSE = re.compile(r"0*1|\d*'[bhd]0*1|'1"), re.compile(r"0+|\d*'[bhd]0+|'0")


class SequenceReader:
    """Reads words as a sequence. A subclass reads properties.

    clock  the one of the whole property
    depth  how many named properties and sequences these words are inside of
    """

    def __init__(self, known: Known, words: List[Word], clock: Clock, depth: int):
        self.known, self.terms, self.clock, self.depth = known, known.terms, clock, depth
        self.derivatives = Derivatives(known.terms)
        self._words, self._at = words, 0

    # -- words

    def text(self) -> str:
        return self._words[self._at].text if self._at < len(self._words) else ""

    def here(self) -> Word:
        return self._words[min(self._at, len(self._words) - 1)]

    def take(self, wanted: str = "") -> Word:
        if self._at >= len(self._words) or wanted and self.text() != wanted:
            raise Rejected(self.here(), f"expected {wanted or 'more'}")
        self._at += 1
        return self._words[self._at - 1]

    def property(self) -> Value:
        raise NotImplementedError

    def instance(self, named: Named) -> Value:
        raise NotImplementedError

    def _sequence(self, value: Value, here: Word) -> Term:
        if not value.is_sequence:
            raise Rejected(here, "of a property, not of a sequence")
        return value.term

    def _of_any_length(self, value: Value, here: Word) -> Term:
        """A sequence whose length an operator compares. The letters that satisfy everything end a `first_match` at
        once, so they do not show whether it can match there."""
        term = self._sequence(value, here)
        if self.terms.has_first(term):
            raise Rejected(here, "of a sequence with first_match is not translated")
        return term

    # -- operators

    def intersect(self) -> Value:
        left = self._within()
        while self.text() == "intersect":
            here = self.take()
            right = self._of_any_length(self._within(), here)
            left = Value(self.terms.both(self._of_any_length(left, here), right), True)
        return left

    def both_end(self, left: Value, right: Value, here: Word) -> Value:
        """`and` of sequences: one of them ends where both have ended."""
        terms, one, other = self.terms, self._of_any_length(left, here), self._of_any_length(right, here)
        shorter = terms.both(terms.then(one, terms.all), other)
        return Value(terms.either(shorter, terms.both(one, terms.then(other, terms.all))), True)

    def _within(self) -> Value:
        left = self._throughout()
        while self.text() == "within":
            here, terms = self.take(), self.terms
            inner = terms.then(terms.all, terms.then(self._of_any_length(left, here), terms.all))
            left = Value(terms.both(inner, self._of_any_length(self._throughout(), here)), True)
        return left

    def _throughout(self) -> Value:
        left = self._delays()
        if self.text() != "throughout":
            return left
        here = self.take()
        condition = self._sequence(left, here)
        if condition.form is not Form.ATOM:
            raise Rejected(here, "what is on its left is no expression")
        right = self._of_any_length(self._throughout(), here)
        return Value(self.terms.both(self.terms.repeated(condition, 0, None), right), True)

    def _delays(self) -> Value:
        if self.text() == "##":
            left = self.terms.any
        else:
            value = self._repeated()
            if self.text() != "##":
                return value
            left = self._sequence(value, self.here())
        while self.text() == "##":
            here = self.take()
            least, most = self._delay()
            left = self._delayed(left, least, most, self._sequence(self._repeated(), here))
        return Value(left, True)

    def _delayed(self, left: Term, least: int, most: Optional[int], right: Term) -> Term:
        terms, parts = self.terms, []
        if least == 0:
            parts.append(terms.fused(left, right))
            least = 1
        if most is None or most >= least:
            gap = terms.repeated(terms.any, least - 1, None if most is None else most - 1)
            parts.append(terms.then(left, terms.then(gap, right)))
        return terms.either(*parts)

    def _delay(self) -> Tuple[int, Optional[int]]:
        """The range after `##`."""
        text = self.text()
        if text == "[*":
            self.take()
            self.take("]")
            return 0, None
        if text == "[+]":
            self.take()
            return 1, None
        if text == "[":
            return self.range()
        begin = self._at
        self._at = closing(self._words, begin) + 1 if text == "(" else begin + 1
        count = self.known.number(self._words[begin:self._at], self.here())
        return count, count

    def range(self) -> Tuple[int, Optional[int]]:
        """A range in brackets."""
        end = closing(self._words, self._at)
        here, parts = self.here(), split(self._words[self._at + 1:end], ":")
        self._at = end + 1
        if len(parts) > 2 or not all(parts):
            raise Rejected(here, "a range that is not understood")
        least = self.known.number(parts[0], here)
        if len(parts) == 1:
            return least, least
        if [it.text for it in parts[1]] == ["$"]:
            return least, None
        most = self.known.number(parts[1], here)
        if most < least:
            raise Rejected(here, "a range that is empty")
        return least, most

    def _repeated(self) -> Value:
        value = self._primary()
        while self.text() in ("[*", "[+]", "[=", "[->"):
            here = self.here()
            part = self._sequence(value, here)
            least, most = self._count(here)
            if here.text in ("[*", "[+]"):
                value = Value(self.terms.repeated(part, least, most), True)
            else:
                value = Value(self._goto(part, least, most, here), True)
        return value

    def _count(self, here: Word) -> Tuple[int, Optional[int]]:
        if here.text == "[+]":
            self.take()
            return 1, None
        if here.text == "[*" and self._words[self._at + 1].text == "]":
            self._at += 2
            return 0, None
        return self.range()

    def _goto(self, part: Term, least: int, most: Optional[int], here: Word) -> Term:
        """`[->n]`, and `[=n]`: the expression is true so often, and false in between."""
        if part.form is not Form.ATOM or part.name == "1":
            raise Rejected(here, "needs an expression")
        if has_any(self.known.atoms[part.name], frozenset({PAST})):
            raise Rejected(here, "of an expression with `$past`, which can be neither true nor false")
        terms = self.terms
        others = terms.repeated(terms.atom(part.name, not part.sign), 0, None)
        found = terms.repeated(terms.then(others, part), least, most)
        return found if here.text == "[->" else terms.then(found, others)

    # -- primaries

    def _primary(self) -> Value:
        here, text = self.here(), self.text()
        if not text:
            raise Rejected(here, "expected more")
        if text == "@":
            raise Rejected(here, "a clock inside of a property")
        if text == "first_match":
            self.take()
            return Value(self.terms.first(self._sequence(self.inner(), here)), True)
        if text == "(" and self._has_signs(self._words[self._at + 1:closing(self._words, self._at)]):
            return self.inner()
        if text in self.known.module.named:
            return self._named(self.known.module.named[text])
        begin = self._at
        self._skip_expression()
        if self._at == begin:
            raise Rejected(here, "expected an expression")
        return Value(self.atom(self._words[begin:self._at]), True)

    def inner(self) -> Value:
        """What is between brackets."""
        end = closing(self._words, self._at)
        self.take("(")
        value = self.property()
        if self._at != end:
            is_assignment = self.text() == ","
            said = "an assignment in a sequence is not translated" if is_assignment else "expected )"
            raise Rejected(self.here(), said)
        self._at = end + 1
        return value

    def _skip_expression(self) -> None:
        """Goes to where an expression ends."""
        level = 0
        while self._at < len(self._words):
            it = self._words[self._at]
            if level == 0 and it.text in _ENDS:
                return
            is_call = it.text == "(" and self._at > 0 and self._words[self._at - 1].is_name
            if is_call or it.text in ("(", "{"):
                end = closing(self._words, self._at)
                self._look_inside(self._words[self._at:end])
                self._at = end + 1
                continue
            self._look_inside([it] if self._at == 0 or self._words[self._at - 1].text != "." else [])
            level += (it.text in OPEN) - (it.text in CLOSE)
            self._at += 1

    def _look_inside(self, words: Sequence[Word]) -> None:
        """That no part of an expression is a sequence or a property."""
        for it in words:
            if it.text in INFIX | PREFIX or it.text in self.known.module.named:
                raise Rejected(it, "a sequence or property inside of an expression")

    def _has_signs(self, words: Sequence[Word]) -> bool:
        """Whether words in brackets are more than an expression."""
        level = 0
        for it in words:
            if it.text == "," and level == 0:
                return True
            level += (it.text in OPEN) - (it.text in CLOSE)
            if it.kind is not Kind.TEXT and (it.text in INFIX | PREFIX or it.text in self.known.module.named):
                return True
        return False

    def _named(self, named: Named) -> Value:
        begin = self._at
        self._at += 1
        if self.text() == "(":
            self._at = closing(self._words, self._at) + 1
        if self.depth >= MOST_DEPTH:
            raise Rejected(self._words[begin], "a property that uses itself")
        return self.instance(with_arguments(named, self._words[begin:self._at]))

    # -- expressions

    def atom(self, words: Sequence[Word]) -> Term:
        """An expression. The sign of one that can be x stays in its text, as it may be neither true nor false."""
        words, sign = stripped(words), True
        for it in words:
            if it.text in _NOT_READ or it.kind is Kind.DIRECTIVE:
                raise Rejected(it, _NOT_READ.get(it.text, "a macro that is not known"))
        can_be_x = has_any(words, frozenset({PAST}))
        while not can_be_x and len(words) > 1 and words[0].text == "!" and _is_negation(words):
            words, sign = stripped(words[1:]), not sign
        text = text_of(words)
        is_true, is_false = bool(_TRUE.fullmatch(text)), bool(_FALSE.fullmatch(text))
        if is_true and sign or is_false and not sign:
            return self.terms.any
        if is_true or is_false:
            text, sign = "1'b0", True
        self.known.atoms.setdefault(text, list(words))
        return self.terms.atom(text, sign)


def _is_negation(words: List[Word]) -> bool:
    """Whether the first word, a `!`, is about all that follows."""
    return len(words) == 2 or words[1].text == "(" and closing(words, 1) == len(words) - 1
