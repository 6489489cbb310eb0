"""A plain reader and a plain checker of proofs with hints (LRAT, as text), by FORMATS.md, which share nothing with the
toolkit."""

import re

from library.plain_steps import LITERAL, MOST, NoStep, words_of

NUMBER = re.compile(rb"0|[1-9][0-9]*")


def is_hinted(data):
    """Whether the first line that is neither blank nor a comment is one of a proof with hints."""
    words = [*words_of(data)]
    first = [word for word, _, line in words if line == words[0][2]]
    return bool(first) and first[0][:1].isdigit() and (first[1:2] != [] and first[1][:1] == b"d" or b"0" in first[:-1])


class Words:
    """The words of a proof, one by one."""

    def __init__(self, data):
        self.data, self.words, self.next = data, [*words_of(data)], 0

    def peek(self):
        return self.words[self.next][:2] if self.next < len(self.words) else (b"", len(self.data))

    def take(self):
        word, place = self.peek()
        self.next += 1
        return word, place

    def list(self):
        """The numbers up to a 0, and where the step ends."""
        numbers = []
        while True:
            word, place = self.take()
            if word == b"0":
                return numbers, min(place + 2, len(self.data))
            if not LITERAL.fullmatch(word) or abs(int(word)) > MOST:
                # A minus that ends the file is a literal that is cut off.
                raise NoStep(len(self.data) if self.data[place:] == b"-" else place)
            numbers.append(int(word))


def hinted_steps(data):
    """Yields the steps of a proof: the number, whether clauses are deleted, the clause, and its hints or the numbers of
    the clauses that are deleted."""
    words = Words(data)
    while words.peek()[0]:
        word, place = words.take()
        if not NUMBER.fullmatch(word) or int(word) > MOST:
            raise NoStep(place)
        kind, after = words.peek()
        if not kind or kind[:1] == b"d" and kind != b"d":
            raise NoStep(after)
        if kind == b"d":
            words.take()
            numbers, end = words.list()
            if any(number < 0 for number in numbers):
                raise NoStep(end)
            yield int(word), True, [], numbers
        elif word == b"0":
            raise NoStep(place)
        else:
            clause, _ = words.list()
            yield int(word), False, clause, words.list()[0]


class HintedChecker:
    """The clauses of a formula by their numbers. A clause is a list of literals, as DIMACS spells them."""

    def __init__(self, clauses):
        self.clauses, self.next, self.refuted = {}, 1, False
        for clause in clauses:
            self.add(clause)

    def add(self, clause):
        if not self.refuted and clause:
            self.clauses[self.next] = frozenset(clause)
            self.next += 1
        self.refuted = self.refuted or not clause

    def delete(self, numbers):
        for number in numbers:
            self.clauses.pop(number, None)

    def may_have(self, number):
        """Whether the number is over all before it, and then it is the next clause's."""
        is_over = number >= self.next
        self.next = max(self.next, number)
        return is_over

    def follows(self, clause, hints, group=()):
        """Whether the clause follows by the hints before the first negative one, and those of a group."""
        true = set()
        for literal in clause:
            if literal in true:
                return True
            true.add(-literal)
        for some in (hints, group):
            for hint in some:
                if hint < 0:
                    break
                left = [literal for literal in self.clauses.get(hint, ()) if -literal not in true]
                if not left and hint in self.clauses:
                    return True
                if len(left) == 1:
                    true.add(left[0])
        return False

    def is_right_on_first(self, clause, hints):
        """Whether the clause is a resolution asymmetric tautology on its first literal, by its hints."""
        if not clause:
            return False
        for number, literals in self.clauses.items():
            if -clause[0] in literals:
                group = hints[hints.index(-number) + 1:] if -number in hints else ()
                if not self.follows([*clause, *(literals - {-clause[0]})], hints, group):
                    return False
        return True
