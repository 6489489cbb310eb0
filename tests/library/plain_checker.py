"""A plain checker of proofs, which shares nothing with the toolkit: by unit propagation, and by resolution asymmetric
tautologies on the first literal."""

import collections


class Checker:
    """The clauses of a formula, and what follows from them. A clause is a list of literals, as DIMACS spells them. What
    was found to be true stays so when its clauses are deleted."""

    def __init__(self, clauses):
        self.clauses, self.at = {}, collections.defaultdict(list)
        # The clauses of each literal: all, and those from which something may follow.
        self.of, self.readers = collections.defaultdict(set), collections.defaultdict(set)
        self.true, self.trail, self.next, self.number, self.refuted = set(), [], 0, 0, False
        for clause in clauses:
            self.add(clause)

    def add(self, clause):
        literals = frozenset(clause)
        self.number += 1
        self.clauses[self.number] = literals
        self.at[literals].append(self.number)
        for literal in literals:
            self.of[literal].add(self.number)
        if any(-literal in literals for literal in literals):
            return  # nothing follows from it
        for literal in literals:
            self.readers[literal].add(self.number)
        self.look(literals)
        self.refuted = self.refuted or not self.propagates()

    def look(self, literals):
        """What a clause says now: it is false, or makes its only literal that is open true."""
        found = 0
        for literal in literals:
            if literal in self.true:
                return
            if -literal not in self.true:
                if found:
                    return
                found = literal
        if found:
            self.true.add(found)
            self.trail.append(found)
        else:
            self.refuted = True

    def propagates(self):
        """Whether there is no conflict."""
        while self.next < len(self.trail) and not self.refuted:
            literal = self.trail[self.next]
            self.next += 1
            for number in self.readers[-literal]:
                self.look(self.clauses[number])
        return not self.refuted

    def delete(self, clause):
        numbers = self.at[frozenset(clause)]
        if numbers:
            number = numbers.pop()
            for literal in self.clauses.pop(number):
                self.of[literal].discard(number)
                self.readers[literal].discard(number)

    def follows(self, clause):
        """Whether the clause follows by unit propagation."""
        before = len(self.trail)
        for literal in clause:
            if -literal not in self.true:
                self.true.add(-literal)
                self.trail.append(-literal)
        is_false = any(-literal in self.true and literal in self.true for literal in clause)
        is_following = is_false or not self.propagates()
        for literal in self.trail[before:]:
            self.true.discard(literal)
        del self.trail[before:]
        self.next, self.refuted = before, False
        return is_following

    def is_right_on_first(self, clause):
        """Whether the clause is a resolution asymmetric tautology on its first literal: neither that nor its negation
        was found to be true, and each clause that has the negation gives, without it and with this clause, one that
        follows."""
        if not clause or clause[0] in self.true or -clause[0] in self.true:
            return False
        negation = -clause[0]
        return all(self.follows([*clause, *(self.clauses[number] - {negation})]) for number in self.of[negation])


def outcome_from(checker, steps, first=1):
    """None where the steps, whose numbers go on from the first, refute the clauses of a checker, else the number of the
    first step that does not follow, or 0 where none is wrong and they do not suffice. A step is whether its clause is
    deleted, and the clause."""
    for number, (is_deleted, clause) in enumerate(steps, first):
        if checker.refuted:
            return None
        if is_deleted:
            checker.delete(clause)
        elif not checker.follows(clause):
            return number
        else:
            checker.add(clause)
    return None if checker.refuted else 0


def outcome(clauses, steps):
    """The outcome of all steps of a proof about the clauses."""
    return outcome_from(Checker(clauses), steps)
