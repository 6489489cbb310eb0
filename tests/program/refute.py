"""Rows of `aig refute`: proofs by hand as text, in the binary form and with hints, those that are refused, and broken
ones."""

from library.circuits import TEXTS, write_all
from library.plain_steps import steps_of
from library.recipes import drat_of_frat
from library.runs import Ended, contents, refused, write
from program.rows import Rows

# Bad is (a | b) & (a | !b) & (!a | b) & (!a | !b), which is never 1. In the formula for one frame a is variable 2, b is
# variable 3, and the bad state is variable 10. Propagation leaves the four clauses of a and b.
NEVER = ("aag 9 2 0 0 7 1\n2\n4\n18\n6 5 3\n8 4 3\n10 5 2\n12 4 2\n14 9 7\n16 13 11\n18 16 14\n")

# Its formula has 23 clauses, so steps with hints have numbers from 24 on. The first one adds the literal of a, by the
# bad state, its gates, and both clauses that have b.
WITH_A = "24 2 0 2 21 22 15 16 5 8 0\n"
WITH_NO_CLAUSE = "25 0 24 2 21 18 19 11 14 0\n"
RENUMBERED = (WITH_A + WITH_NO_CLAUSE).replace("24 ", "27 ").replace("25 ", "28 ")
# The four clauses of a and b by hints, then two clauses of a variable of the proof's own, which implies a and b. A step
# that adds that variable has these two as candidates.
OF_BOTH = ("24 2 3 0 1 2 5 6 10 12 16 20 22 0\n25 2 -3 0 1 2 3 8 9 13 15 20 22 0\n26 -2 3 0 1 2 4 6 11 12 17 19 21 0\n"
           "27 -2 -3 0 1 2 3 7 9 14 17 18 21 0\n28 -11 2 0 0\n29 -11 3 0 0\n")

# Proofs that refute it.
PROOFS = (
    ("one literal", "2 0\n"),
    ("the empty clause too", "2 0\n0\n"),
    ("another literal", "-3 0\n"),
    ("a clause before it", "2 3 0\n2 0\n"),
    ("no newline at the end", "2 0"),
    ("blanks, tabs and empty lines", " \n\n\t2\t 0 \n"),
    ("a step over lines", "2\n0\n"),
    ("two steps on a later line", "2 3 0\n3 -3 0 2 0\n"),
    ("blanks after the first step", "2 3 0 \t\n2 0\n"),
    ("blanks after the first step, at the end", "2 0 \t"),
    ("a deletion first, with blanks after it", "d 2 3 0 \n2 0\n"),
    ("a comment after the first step's line", "2 3 0\nc\n2 0\n"),
    ("comments", "c one\n2 3\nc in a step\n0\nc\n2 0\n"),
    ("a comment without an end before steps", "2 0\nc"),
    ("a deletion of a clause that is not there", "d 2 3 0\n2 0\n"),
    ("a deletion of what was added", "2 3 0\nd 3 2 0\n2 0\n"),
    ("a deletion of what was added, twice", "2 3 0\nd 2 3 0\nd 3 2 0\n2 0\n"),
    ("a deletion of the empty clause", "d 0\n2 0\n"),
    ("a deletion over lines", "2 3 0\nd\n2 3\n0\n2 0\n"),
    ("a literal twice", "2 2 0\n"),
    ("a tautology", "2 -2 0\n2 0\n"),
    ("a variable of its own, for a conjunction", "-11 2 0\n-11 3 0\n11 -2 -3 0\n-11 0\n2 0\n"),
    ("variables of its own, with great numbers", "-2147483647 2 0\n2147483647 -2000000000 0\n2 0\n"),
    ("a variable of its own, deleted first", "d 12 0\n12 2 0\n-12 0\n2 0\n"),
    ("binary: a variable of its own", b"a\xfe\xff\xff\xff\x0f\x05\x00a\x04\x00"),
    ("what is behind the empty clause is not read", "2 0\nx\n"),
    ("hints", WITH_A + WITH_NO_CLAUSE),
    ("hints: no newline at the end", (WITH_A + WITH_NO_CLAUSE)[:-1]),
    ("hints: steps over lines", WITH_A.replace(" 21", "\n21") + WITH_NO_CLAUSE.replace(" ", "\n")),
    ("hints: two steps on the first line", WITH_A.replace("\n", " ") + WITH_NO_CLAUSE),
    ("hints: blanks, tabs and comments", "c one\n\n\t" + WITH_A.replace(" ", "\t ") + "c 24\n " + WITH_NO_CLAUSE),
    ("hints: a comment in a step", WITH_A.replace(" 21", "\nc 8 0\n21") + WITH_NO_CLAUSE),
    ("hints: gaps in the numbers",
     WITH_A.replace("24 ", "100 ") + WITH_NO_CLAUSE.replace("24 ", "100 ").replace("25 ", "2147483647 ")),
    ("hints that give nothing", WITH_A.replace(" 2 21", " 3 3 99 2147483647 2 21") + WITH_NO_CLAUSE.replace(" 14",
                                                                                                            " 14 1")),
    ("hints: a deletion of a clause that no hint names", WITH_A + "24 d 3 20 0\n" + WITH_NO_CLAUSE),
    ("hints: a deletion first", "1 d 3 0\n" + WITH_A + WITH_NO_CLAUSE),
    ("hints: a deletion of clauses that are not there",
     "0 d 24 99 2147483647 0\n" + WITH_A + "24 d 3 3 0\n0 d 0\n" + WITH_NO_CLAUSE),
    ("hints: a clause that has both signs", "24 3 -3 0 0\n24 d 24 0\n" + RENUMBERED),
    ("hints: a variable of its own, for a conjunction",
     "24 -11 2 0 0\n25 -11 3 0 0\n26 11 -2 -3 0 -24 -25 0\n" + RENUMBERED),
    ("hints: groups of candidates", OF_BOTH + "30 11 0 -28 24 25 -29 24 26 0\n31 0 30 28 29 27 0\n"),
    ("hints: groups in another order", OF_BOTH + "30 11 0 -29 24 26 -28 24 25 0\n31 0 30 28 29 27 0\n"),
    ("hints: hints before all groups", OF_BOTH + "30 11 0 24 -29 26 -28 25 0\n31 0 30 28 29 27 0\n"),
    ("hints: what is behind the empty clause is not read", WITH_A + WITH_NO_CLAUSE + "x\n"),
    ("binary: one literal", b"a\x04\x00"),
    ("binary: a negated literal", b"a\x05\x00"),
    ("binary: the empty clause too", b"a\x04\x00a\x00"),
    ("binary: a deletion first", b"d\x04\x06\x00a\x04\x00"),
    ("binary: a deletion that looks like text, with a zero byte", b"d\x09\x00a\x04\x00"),
    ("binary: what is behind the empty clause is not read", b"a\x04\x00?"),
)

# Proofs that are refused.
REFUSALS = (
    ("an empty file", "", "no refutation"),
    ("comments alone", "c\nc x\n", "no refutation"),
    ("a clause that follows, and no more", "2 3 0\n", "no refutation"),
    ("deletions alone", "d 2 0\n", "no refutation"),
    ("the empty clause at once", "0\n", "step 1"),
    ("a clause that does not follow", "5 0\n2 0\n", "step 1"),
    ("the second step", "2 3 0\n5 0\n", "step 2"),
    ("deletions count", "d 2 0\n0\n", "step 2"),
    ("a step without its end", "2", "text at 1"),
    ("a step without its end, and a newline", "2 \n", "text at 3"),
    ("a deletion without its clause", "d", "text at 1"),
    ("a deletion without its clause, and a blank", "d ", "text at 2"),
    ("a minus at the end", "2 -", "text at 3"),
    ("a minus at the end of a later step", "2 3 0\n-", "text at 7"),
    ("a minus at the end of a deletion", "2 3 0\nd -", "text at 9"),
    ("a minus at the end, and a newline", "2 -\n", "text at 2"),
    ("a letter", "2 x 0\n", "text at 2"),
    ("a letter in a number", "2x 0\n", "text at 0"),
    ("a leading zero", "02 0\n", "text at 0"),
    ("a plus", "+2 0\n", "text at 0"),
    ("a comma", "2,3 0\n", "text at 0"),
    ("a carriage return", "2 3 0\r\n", "text at 4"),
    ("a negated end", "2 -0\n", "text at 2"),
    ("a comment that is not at the beginning of a line", "2 3 0 c\n", "text at 6"),
    ("two steps on the first line", "2 -3 0 2 0\n", "step 1"),
    ("two steps on the first line, the first negated", "-2 3 0 2 0\n", "text at 7"),
    ("a step on the line of a deletion, which comes first", "d 2 3 0 \t2 0\n", "text at 9"),
    ("hints: a clause of the formula has the number", "1 2 0 3 4 0\n", "step 1"),
    ("hints: the last clause of the formula has it", WITH_A.replace("24 ", "23 "), "step 1"),
    ("hints: the step before has it", WITH_A + WITH_NO_CLAUSE.replace("25 ", "24 "), "step 2"),
    ("hints: a deletion, and no more", "2 d 1 0\n", "no refutation"),
    ("hints: an unfinished proof", WITH_A, "no refutation"),
    ("hints: one is missing", WITH_A.replace(" 8 ", " "), "step 1"),
    ("hints: one is of a clause that is deleted", "1 d 8 0\n" + WITH_A, "step 2"),
    ("hints: one comes too early", WITH_A.replace(" 22 15 ", " 15 22 "), "step 1"),
    ("hints: one is of the clause itself", WITH_A.replace(" 8 ", " 24 "), "step 1"),
    ("hints: they come after a negative one", WITH_A.replace(" 2 21", " -99 2 21"), "step 1"),
    ("hints: those of one candidate come after the other", OF_BOTH + "30 11 0 -28 24 26 -29 24 25 0\n", "step 7"),
    ("hints: one candidate has none", OF_BOTH + "30 11 0 -28 24 25 0\n", "step 7"),
    ("hints: there are none", "24 2 0 0\n", "step 1"),
    ("hints: the empty clause at once", "24 0 0\n", "step 1"),
    ("hints: a number without a step", WITH_A + "25", "text at 29"),
    ("hints: no list of hints", WITH_A + "25 0\n", "text at 32"),
    ("hints: a list that is cut off", "24 2 0 2 21", "text at 11"),
    ("hints: a letter among them", "24 2 0 x 0\n", "text at 7"),
    ("hints: a letter in a clause", WITH_A + "25 x 0 0\n", "text at 30"),
    ("hints: a letter in a deletion", "24 d 1 x 0\n", "text at 7"),
    ("hints: d and no blank", "24 d1 0\n", "text at 3"),
    ("hints: a word that is no number", WITH_A + "x 0 0\n", "text at 27"),
    ("hints: a number with a leading zero", "024 2 0 2 0\n", "text at 0"),
    ("hints: the number 0", "0 2 0 2 0\n", "text at 0"),
    ("hints: a number over all", "2147483648 2 0 2 0\n", "text at 0"),
    ("hints: a negative number", WITH_A + "-25 0 24 0\n", "text at 27"),
    ("hints: a hint over all", "24 2 0 2147483648 0\n", "text at 7"),
    ("hints: a carriage return", WITH_A.replace("\n", "\r\n"), "text at 25"),
    ("a minus alone", "2 - 0\n", "text at 2"),
    ("a letter after a minus", "2 3 0\n-x 0\n", "text at 6"),
    ("d and no blank in a later step", "2 3 0\nd1 2 0\n", "text at 6"),
    ("d within a step", "2 3 0\n2 d 0\n", "text at 8"),
    ("two minuses", "2 3 0\n--2 0\n", "text at 6"),
    ("a variable of its own, and no more", "2 11 0\n", "no refutation"),
    ("a variable of its own, negated", "-11 0\n", "no refutation"),
    ("a variable of its own, both signs", "11 0\n-11 0\n", "step 2"),
    ("two variables of its own", "-11 12 0\n-12 0\n", "step 2"),
    ("a variable over all numbers", "2 3 0\n99999999999999999999999 0\n", "text at 6"),
    ("a variable of its own in a deletion", "d 11 0\n", "no refutation"),
    ("a number that is 2 in 32 bits", "4294967298 0\n", "text at 0"),
    ("a number whose double is 4 in 32 bits", "2147483650 0\n", "text at 0"),
    ("a number that is 2 in 64 bits", "18446744073709551618 0\n", "text at 0"),
    ("a number whose double is 4 in 64 bits", "9223372036854775810 0\n", "text at 0"),
    ("a number that is 2 in 128 bits", "340282366920938463463374607431768211458 0\n", "text at 0"),
    ("a number that is 3 in 64 bits, negated", "2 3 0\n-18446744073709551619 0\n", "text at 6"),
    ("a number that is 0 in 64 bits", "2 18446744073709551616\n", "text at 2"),
    ("a number that is 2 in 64 bits, in a deletion", "d 18446744073709551618 0\n2 0\n", "text at 2"),
    ("a word before the clause", "a 2 0\n", "text at 6"),
    ("d and no blank, which is binary", "d1 2 0\n", "text at 7"),
    ("d and a newline, which is binary", "d\n2 3 0\n2 0\n", "text at 12"),
    ("binary: a step without its clause", b"a", "text at 1"),
    ("binary: a step without its end", b"a\x04", "text at 2"),
    ("binary: a number without its end", b"a\x84", "text at 2"),
    ("binary: a number with a group too many", b"a\x84\x00\x00", "text at 1"),
    ("binary: a number of six groups", b"a\x80\x80\x80\x80\x80\x01\x00", "text at 1"),
    ("binary: a number that is 4 in 32 bits", b"a\x84\x80\x80\x80\x10\x00", "text at 1"),
    ("binary: a number that is 4 in 64 bits", b"a\x84\x80\x80\x80\x80\x80\x80\x80\x80\x02\x00", "text at 1"),
    ("binary: the variable 0", b"a\x01\x00", "text at 1"),
    ("binary: a variable of its own, and no more", b"a\x04\x16\x00", "no refutation"),
    ("binary: a variable of its own in a deletion", b"d\x16\x00", "no refutation"),
    ("binary: a variable over all numbers", b"a\x80\x80\x80\x80\x10\x00", "text at 1"),
    ("binary: another letter", b"a\x04\x06\x00b\x04\x00", "text at 4"),
    ("binary: an unfinished proof", b"a\x04\x06\x00", "no refutation"),
    ("binary: a clause that does not follow", b"a\x04\x06\x00a\x0a\x00", "step 2"),
    ("text with a zero byte behind a deletion is binary", b"d 2 3 0\n\x00", "no refutation"),
    ("another letter", "b 2 0\n", "text at 0"),
)

FAULTS = (
    ("no frames", "--frames 0 never", "cnf: no frames"),
    ("no property", "--frames 1 --property 1 never", "cnf: property"),
    ("more frames than there may be", "--frames 65537 never", "cnf: limit"),
    ("a refused circuit", "--frames 2 cycle", "circuit: cycle 2"),
)

# Numbers of a step that does not follow, and the proofs it is in: what is proved, arguments, and the part of the
# message.
NUMBERS = (2, 3, 10, 256, 65537)
GOALS = (
    ("a run of some frames", "--frames 1 never proof", "proof"),
    ("a run before the induction step", "--frames 1 --step right kept_too proof", "proof"),
    ("the induction step", "--frames 1 --step proof kept_too right", "step proof"),
    ("a run that keeps the constraints", "--alive --frames 1 kept_to proof", "proof"),
    ("a certificate", "--certificate no_claim never proof", "proof"),
)

# A latch that keeps its value, which starts at 0 and is bad. In the step of one frame it is variable 2, and the formula
# is refuted by propagation alone.
KEPT = "aag 1 0 1 0 0 1\n2 2\n2\n"
# The same latch, and the conjunction that is never 1: the step needs a proof of its own.
NEVER_KEPT = ("aag 10 2 1 0 7 1\n2\n4\n6 6\n20\n8 5 3\n10 4 3\n12 5 2\n14 4 2\n16 11 9\n18 15 13\n20 18 16\n")
# The formula of its step has 45 clauses. In the later frame a is variable 4, and the bad state is variable 20.
STEP_HINTS = "46 4 0 3 43 44 37 38 27 30 0\n47 0 46 3 43 40 41 33 36 0\n"


# So many frames of candidates, and so many groups of hints.
FRAMES, GROUPS = 65_536, 400


def refute(program, tally, _):
    rows = Rows("refute", program, tally)
    write_all()
    write("never", NEVER)
    for name, proof in PROOFS:
        rows.gives(name, "refute --frames 1 never proof", "unreachable within 1\n", proof=proof)
    for name, proof, fault in REFUSALS:
        rows.refuses(name, "refute --frames 1 never proof", f"proof: {fault}", proof=proof)
    for name, words, fault in FAULTS:
        rows.refuses(name, f"refute {words} proof", fault, proof="2 0\n")
    rows.fails("no circuit", "refute --frames 1 nowhere proof", "circuit")
    rows.fails("no proof", "refute --frames 1 never nowhere", "proof")
    rows.fails("no proof of a refused circuit", "refute --frames 1 cycle nowhere", "proof")
    rows.fails("a folder in place of a proof", "refute --frames 1 never .", "proof")
    rows.gives("propagation alone, and a proof that is not read", "refute --frames 3 --property 0 constants proof",
               "unreachable within 3\n", constants="aag 0 0 0 0 0 2\n0\n1\n", proof="x")
    rows.fails("propagation alone, and a proof that cannot be read", "refute --frames 3 --property 0 constants .",
               "proof")
    rows.gives("propagation alone, and right hints", "refute --frames 3 --property 0 constants proof",
               "unreachable within 3\n", proof="3 0 1 2 0\n")
    rows.refuses("propagation alone, and wrong hints", "refute --frames 3 --property 0 constants proof",
                 "proof: step 1",
                 proof="3 0 1 0\n")
    rows.refuses("a state that is reached", "refute --frames 3 --property 1 constants proof", "proof: no refutation",
                 proof="")
    steps(rows)
    alive(rows)
    numbers(rows)
    looks(rows)
    groups(rows)
    broken(rows)
    frat(rows)


def numbers(rows):
    """The number of a step that does not follow, in a proof of each formula. All before it is right and changes
    nothing."""
    write("kept_too", NEVER_KEPT)
    write("kept_to", NEVER_KEPT_TO)
    write("no_claim", "aag 0 0 0 0 0\n")
    write("right", "2 0\n")
    for number in NUMBERS:
        for form, proof in ends_wrong(number):
            for goal, words, part in GOALS:
                rows.refuses(f"step {number} of {goal}, {form}", f"refute {words}", f"{part}: step {number}",
                             proof=proof)


def ends_wrong(number):
    """Each form of a proof in which only the last step, of this number, is wrong, and the proof."""
    pairs, more = divmod(number - 1, 2)
    yield "text", "2 -2 0\nd 2 -2 0\n" * pairs + "2 -2 0\n" * more + "0\n"
    yield "binary", b"a\x04\x05\0d\x04\x05\0" * pairs + b"a\x04\x05\0" * more + b"a\0"
    hinted = [f"{at} 2 -2 0 0\n0 d {at} 0\n" for at in range(100, 100 + pairs)]
    yield "hints", "".join([*hinted, "2147483646 2 -2 0 0\n" * more, "2147483647 0 0\n"])


def looks(rows):
    """The first RAT step over the looks that a proof has for such steps. Each frame has a clause `G -2 -3`, and the
    resolvent of four literals with `2 3` is blocked. By the rule of aig_sat's README."""
    write("blocked", "aag 3 0 2 0 1 1\n2 2 2\n4 4 4\n6\n6 4 2\n")
    formula = rows.program.run("cnf", "--frames", str(FRAMES), "blocked").out.splitlines()
    words = sum(line.count(b" ") + 3 for line in formula if line[:1] not in (b"c", b"p"))
    left, step = (1 << 24) + words, 1
    while left + 2 * 256 >= FRAMES * 5:
        left, step = left + 2 * 256 + 5 - FRAMES * 5, step + 1
    for name, count, fault in (("before", step - 1, "no refutation"), ("at", 2 * step, f"step {step}")):
        proof = "".join(f"{1_000_000 + at} 2 3 0 0\n" for at in range(count))
        rows.refuses(f"{name} the last look", f"refute --frames {FRAMES} blocked proof", f"proof: {fault}", proof=proof)


def groups(rows):
    """A RAT step with groups of two hints, in any order. Of two groups of a clause the first one counts."""
    write("false", "aag 0 0 0 0 0 1\n0\n")
    words, numbers = "refute --frames 1 false proof", range(11, 11 + GROUPS)
    made = "10 50 0 0\n" + "".join(f"{number} -100 {number + 200} 50 0 10 0\n" for number in numbers)
    end = f"{11 + GROUPS} 100 51 0 %s 0\n{12 + GROUPS} 0 1 2 0\n"
    backwards = "".join(f" -{number} 10" for number in reversed(numbers))
    for name, hints in (("backwards", backwards), ("twice, the second one wrong", f"{backwards} -11 11")):
        rows.gives(f"groups, {name}", words, "unreachable within 1\n", proof=made + end % hints)
    rows.refuses("groups, twice, the first one wrong", words, f"proof: step {GROUPS + 2}",
                 proof=made + end % f"-11 11 {backwards}")


def frat(rows):
    """The script of examples/README.md makes DRAT of FRAT, which has an unfinished proof here and its end."""
    wanted = [(False, [2, 3]), (True, [3, 2]), (False, [2]), (False, [])]
    for name, hints in (("without hints", ""), ("with hints", " l 3 1 0")):
        write("design.frat", f"o 1 -1 0\no 2 10 0\na 21 2 3 0{hints}\nd 21 3 2 0\na 22 2 0{hints}\na 23 0{hints}\n"
                             "f 1 -1 0\nf 23 0\n")
        said = drat_of_frat(rows.program)
        rows.tally.compare(f"refute: FRAT {name}", (said, [*steps_of(contents("design.drat"))]), ("", wanted))
        rows.gives(f"FRAT {name}", "refute --frames 1 never design.drat", "unreachable within 1\n")


def steps(rows):
    """Proofs of the induction step too."""
    rows.gives("a latch that keeps 0, by induction", "refute --frames 1 --step step kept proof", "unreachable\n",
               kept=KEPT, proof="",
               step="")
    rows.gives("other files of the step", "refute --step proof --property 0 --frames 3 kept proof", "unreachable\n")
    write("kept_too", NEVER_KEPT)
    for name, proof, step in (("text", "2 0\n", "c two frames\n4 0\n"), ("binary", b"a\x04\x00", b"a\x08\x00"),
                              ("one of each", b"a\x04\x00", "4 0\n"), ("hints", WITH_A + WITH_NO_CLAUSE, STEP_HINTS),
                              ("hints of the step", "2 0\n", STEP_HINTS),
                              ("hints of the proof", WITH_A + WITH_NO_CLAUSE, "4 0\n")):
        rows.gives(f"two proofs: {name}", "refute --frames 1 --step step kept_too proof", "unreachable\n", proof=proof,
                   step=step)
    for name, proof, step, fault in (("the proof first", "x", "x", "proof: text at 0"),
                                     ("the step's", "2 0\n", "x", "step proof: text at 0"),
                                     ("the step's, which does not follow", "2 0\n", "0\n", "step proof: step 1"),
                                     ("the step's, which is not finished", "2 0\n", "", "step proof: no refutation"),
                                     ("the step's, with other hints", "2 0\n", WITH_A, "step proof: step 1")):
        rows.refuses(f"two proofs, refused: {name}", "refute --frames 1 --step step kept_too proof", fault, proof=proof,
                     step=step)
    rows.refuses("a step that fails", "refute --frames 1 --step step loose proof", "step proof: no refutation",
                 loose="aag 1 0 1 0 0 1\n2 3\n2\n", proof="", step="")
    rows.refuses("a step over its limit", "refute --frames 65536 --step step bad_input proof", "cnf: limit", step="x")
    rows.refuses("a step of no frames", "refute --frames 0 --step step bad_input proof", "cnf: no frames")
    rows.fails("no proof of the step", "refute --frames 1 --step nowhere kept proof", "step proof")


# The conjunction that is never 1 as a constraint, with a bad state that is always 1, and without one.
NEVER_KEPT_TO = NEVER.replace("7 1\n2\n4\n18\n", "7 1 1\n2\n4\n1\n18\n")
NO_STATE = NEVER.replace("7 1\n2\n4\n18\n", "7 0 1\n2\n4\n18\n")
# The formula that a run of one frame keeps it has 29 clauses: variable 12 says so, by variable 11 and the constraint.
ALIVE_HINTS = "30 2 0 2 27 24 21 22 15 16 5 8 0\n31 0 30 2 27 24 21 18 19 11 14 0\n"
# A latch that starts at 1, is 0 after that, and has to be 1: a run has one frame.
SHORT = "aag 1 0 1 0 0 0 1\n2 0 1\n2\n"


def alive(rows):
    """Proofs that no run keeps the constraints."""
    for name, circuit in (("a bad state", NEVER_KEPT_TO), ("no bad state", NO_STATE)):
        for said, proof in (("text", "2 0\n"), ("binary", b"a\x04\x00"), ("hints", ALIVE_HINTS)):
            rows.gives(f"constraints that contradict, {name}: {said}", "refute --alive --frames 1 kept_to proof",
                       "no run of 1 frames\n", kept_to=circuit, proof=proof)
        rows.refuses(f"constraints that contradict, {name}: no proof", "refute --frames 1 --alive kept_to proof",
                     "proof: no refutation", proof="")
        rows.refuses(f"constraints that contradict, {name}: what does not follow",
                     "refute --frames 1 --alive kept_to proof",
                     "proof: step 1", proof="0\n")
    rows.gives("a run that ends", "refute --alive --frames 2 short proof", "no run of 2 frames\n", short=SHORT,
               proof="x")
    rows.refuses("a run before its end", "refute --alive --frames 1 short proof", "proof: no refutation", proof="")
    rows.refuses("no constraint", "refute --alive --frames 3 constants proof", "proof: no refutation")
    rows.refuses("no frames of a run", "refute --alive --frames 0 short proof", "cnf: no frames")
    rows.refuses("a run of more frames than there may be", "refute --alive --frames 65537 short proof", "cnf: limit")
    rows.refuses("a run of a refused circuit", "refute --alive --frames 1 cycle proof", "circuit: cycle 2")
    for words in ("--property 0", "--step proof", "--certificate proof"):
        got = rows.run("refute", "--alive", "--frames", "1", *words.split(" "), "short", "proof")
        rows.tally.check(f"refute: --alive with {words}", got.status == 2 and not got.out, got)


def broken(rows):
    """Proofs that are cut, or changed at a byte. No proof refutes a formula that an assignment satisfies."""
    allowed = [Ended(0, b"unreachable within 1\n", b"")]
    refusals = ("no refutation", *(f"step {at}" for at in range(1, 9)), *(f"text at {at}" for at in range(64)))
    refusals = [refused(f"proof: {text}") for text in refusals]
    write("reached", NEVER.replace("14 9 7\n", "14 9 9\n"))
    for proof in (b"2 3 0\nd 3 2 0\nc x\n2 0\n0\n", b"a\x04\x06\x00d\x06\x04\x00a\x04\x00a\x00",
                  (WITH_A + WITH_NO_CLAUSE).encode()):
        changed = [proof[:at] for at in range(len(proof))]
        changed += [proof[:at] + bytes([byte]) + proof[at + 1:] for at in range(len(proof)) for byte in b"\x00 0-adc9\x7f\xff"]
        for each in changed:
            write("proof", each)
            ended = rows.run("refute", "--frames", "1", "never", "proof")
            rows.tally.check(f"refute: {each}", ended in allowed + refusals, ended)
            ended = rows.run("refute", "--frames", "1", "reached", "proof")
            rows.tally.check(f"refute: {each}, of a state that is reached", ended in refusals, ended)
