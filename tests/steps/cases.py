"""Cases of the program aig_tests, which prints lines for each: a mark for each step of a proof, and how it ends."""

from library.plain_checker import Checker
from library.plain_steps import NoStep, steps_of
from library.runs import shortened
from program.proofs import text_of

# with this word the program marks steps
WORD = "steps"
DELETED, FOLLOWS, ON_FIRST, WRONG = "d+*-"
REFUTED, OPEN = "refuted", "no refutation"


def case(variables, clauses, proof):
    """The bytes of a formula and a proof."""
    formula = text_of((False, clause) for clause in clauses)
    return b"%d %d %d\n%s%s" % (variables, len(formula), len(proof), formula, proof)


def printed(program, word, cases, count):
    """The lines that the program prints for these cases, so many; where it fails, as many that say how."""
    ended = program.run(word, input=b"".join(cases))
    lines = ended.out.decode().splitlines()
    if (ended.status, ended.err, len(lines)) != (0, b"", count):
        return [f"{len(lines)} lines of {count}, {shortened(ended)}"] * count
    return lines


def lines_of(program, cases):
    """The lines that mark the steps of these cases."""
    return printed(program, WORD, cases, len(cases))


def done(checker, step):
    """Does a step of a plain checker, and returns its mark."""
    is_deleted, clause = step
    if is_deleted:
        checker.delete(clause)
        return DELETED
    mark = FOLLOWS if checker.follows(clause) else ON_FIRST if checker.is_right_on_first(clause) else WRONG
    if mark != WRONG:
        checker.add(clause)
    return mark


def line_by(checker, steps, do):
    """The line of a case by a plain checker that does these steps, each in this way."""
    marks = ""
    while not checker.refuted:
        try:
            step = next(steps, None)
        except NoStep as fault:
            return f"{marks} text at {fault.place}"
        if step is None:
            return f"{marks} {OPEN}"
        marks += do(checker, step)
    return f"{marks} {REFUTED}"


def line_of(clauses, proof):
    """The line of a case by the plain reader and the plain checker."""
    return line_by(Checker(clauses), steps_of(proof), done)
