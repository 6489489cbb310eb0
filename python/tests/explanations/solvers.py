"""Proofs and models of SAT solvers that are rejected: the text of the message, and the lines that explain it."""

from explanations.common import COUNTER, WITNESS, CR_LF, GZIP, UNPACK, FORMULA, WRITE_AGAIN

# For one frame its formula has variables 1 to 10, the last of which is the bad state. No input of it is bad, and no
# clause that these proofs add follows by propagation.
NEVER = "aag 9 2 0 0 7 1\n2\n4\n18\n6 5 3\n8 4 3\n10 5 2\n12 4 2\n14 9 7\n16 13 11\n18 16 14\n"
NO_STEP = "this is no step of a proof in DRAT or LRAT, or the file is cut off"
NO_UNIT = ("the clause that this step adds does not follow by unit propagation, nor is it a resolution asymmetric"
           " tautology")
NO_HINTS = "the clause of this step does not follow by its hints, or its number is not greater than all before it"
TOO_SHORT = "the proof ends before it refutes the formula"
TO_ITS_END = "have the solver write DRAT, or LRAT as text, to its end"
SAME = "it has to be about the formula of aig cnf for the same K, P and CIRCUIT; an older aig wrote one with other numbers"
ORDER = "its hints number the clauses of the formula from 1, in the order in which aig cnf prints them"
DRAT = "aig reads DRAT and LRAT: have the solver write one of them"
OF_FRAT = "aig reads DRAT (cadical without --frat); to make DRAT of it see \"Proof\" in man aig-formats"
SOLVED = "a proof is a file of its own, as in: cadical FORMULA PROOF"

# A proof; the fault; the lines that explain it.
PROOFS = (
    ("a letter", "2 3 0\nd 2 x 0\n", "text at 10", NO_STEP,
     "line 2, column 5: found `x`", "step 2, in line 2, deletes the clause `2 x`", TO_ITS_END),
    ("a proof that is cut off", "2 3", "text at 3", NO_STEP,
     "line 1, column 4: the file ends here", "step 1, in line 1, adds the clause `2 3`", TO_ITS_END),
    ("a binary proof that is cut off", b"a\x04\x07", "text at 3", NO_STEP,
     "byte 3: the file ends here", "step 1, at byte 0, adds the clause `2 -3`", TO_ITS_END),
    ("a byte that is no kind of step", b"a\x04\x06\x00x", "text at 4", NO_STEP,
     "byte 4: found `x`", TO_ITS_END),
    ("a clause that does not follow", "c one\n2 3 0\nc two\n-10 5 0\n", "step 2", NO_UNIT,
     "step 2, in line 4, adds the clause `-10 5`", SAME),
    ("a step over lines", "2 3 0\n\n-10\n5\n0\n", "step 2", NO_UNIT,
     "step 2, in line 3, adds the clause `-10 5`", SAME),
    ("a binary clause that does not follow", b"d\x04\x00a\x15\x0a\x00", "step 2", NO_UNIT,
     "step 2, at byte 3, adds the clause `-10 5`", SAME),
    ("a long clause", "-10 " + "5 " * 40 + "0\n", "step 1", NO_UNIT,
     "step 1, in line 1, adds the clause `-10 " + "5 " * 28 + "..`", SAME),
    ("an end before the refutation", "2 3 0\nd 2 3 0\n", "no refutation", TOO_SHORT, "its number of steps: 2", SAME),
    ("an empty file", "", "no refutation", TOO_SHORT, "its number of steps: 0", "the file is empty", WRITE_AGAIN),
    ("gzip", b"\x1f\x8b\x08", "text at 0", NO_STEP, "line 1, column 1: found `\\x1f\\x8b\\x08`",
     GZIP, UNPACK),
    ("a formula", FORMULA, "text at 10", NO_STEP, "line 2, column 1: found `p`",
     "the file is a CNF formula",
     "run a solver on it, and name the file that the solver writes"),
    ("a model", "s SATISFIABLE\nv 1 0\n", "text at 0", NO_STEP, "line 1, column 1: found `s`",
     "the file is what a solver prints: its answer, or a model", SOLVED),
    ("values alone", "v 1 0\n", "text at 0", NO_STEP, "line 1, column 1: found `v`",
     "the file is what a solver prints: its answer, or a model", SOLVED),
    ("FRAT", "o 1 2 0\n", "text at 0", NO_STEP, "line 1, column 1: found `o`",
     "the file is a proof in FRAT",
     OF_FRAT),
    ("hints that are too few", "c one\n9 d 1 3 0\n24 2 0 2 21 22 0\n", "step 2", NO_HINTS,
     "step 2, in line 3, numbered 24, adds the clause `2`", SAME, ORDER),
    ("hints of a number that there is", "21 -10 5 0 3 4 0\n", "step 1", NO_HINTS,
     "step 1, in line 1, numbered 21, adds the clause `-10 5`", SAME, ORDER),
    ("hints over lines", "24\t2 0 2\n21 22 15 16 5 8 0 25\n2 3\n0 24\n0 24 0 24\n0\n", "step 3", NO_HINTS,
     "step 3, in line 5, numbered 24, adds the clause ``", SAME, ORDER),
    ("hints and no refutation", "9 d 1 2 0\n", "no refutation", TOO_SHORT, "its number of steps: 1", SAME),
    ("hints that are cut off", "24 2 3 0 2 21", "text at 13", NO_STEP, "line 1, column 14: the file ends here",
     "step 1, in line 1, numbered 24, adds the clause `2 3`", TO_ITS_END),
    ("a letter among hints", "24 d 3 0\n24 2 3 0 2 x 0\n", "text at 20", NO_STEP, "line 2, column 12: found `x`",
     "step 2, in line 2, numbered 24, adds the clause `2 3`", TO_ITS_END),
    ("a letter in a deletion by numbers", "24 d 3 x 0\n", "text at 7", NO_STEP, "line 1, column 8: found `x`",
     "step 1, in line 1, deletes the clauses numbered `3 x`", TO_ITS_END),
    ("a letter for a number", "24 d 3 0\nx 2 0 0\n", "text at 9", NO_STEP, "line 2, column 1: found `x`", TO_ITS_END),
    ("an addition numbered 0", "24 d 3 0\n0 2 0 1 0\n", "text at 9", NO_STEP, "line 2, column 1: found `0`",
     "wanted: the number of the clause that the step adds, which is greater than 0", TO_ITS_END),
    ("an addition numbered 0, which comes first", "0 2 3 0 1 0\n", "text at 0", NO_STEP, "line 1, column 1: found `0`",
     "wanted: the number of the clause that the step adds, which is greater than 0", TO_ITS_END),
    ("a deletion of a negative number", "24 d -3 0\n25 2 0 1 0\n", "text at 10", NO_STEP,
     "line 1, column 6: found `-3`", "step 1, in line 1, deletes the clauses numbered `-3`",
     "wanted: the number of a clause, which has no sign", TO_ITS_END),
    ("the second negative number of a deletion", "9 d 1 -7 2 -3 0 25 2 0 0\n", "text at 16", NO_STEP,
     "line 1, column 7: found `-7`", "step 1, in line 1, deletes the clauses numbered `1 -7 2 -3`",
     "wanted: the number of a clause, which has no sign", TO_ITS_END),
    ("a negative number at the end of the file", "9 d 1 0\n9 d 1\n-7 0", "text at 18", NO_STEP,
     "line 3, column 1: found `-7`", "step 2, in line 2, deletes the clauses numbered `1 -7`",
     "wanted: the number of a clause, which has no sign", TO_ITS_END),
    ("a negative number, and blanks", "9 d -1 0   \n\nc one\n  25 2 0 0\n", "text at 9", NO_STEP,
     "line 1, column 5: found `-1`", "step 1, in line 1, deletes the clauses numbered `-1`",
     "wanted: the number of a clause, which has no sign", TO_ITS_END),
    ("a negative number, and another step at the place", "9 d 1 0\n24 2 x\n", "text at 13", NO_STEP,
     "line 2, column 6: found `x`", "step 2, in line 2, numbered 24, adds the clause `2 x`", TO_ITS_END),
    ("a minus sign in a deletion", "9 d 1 - 0\n", "text at 6", NO_STEP, "line 1, column 7: found `-`",
     "step 1, in line 1, deletes the clauses numbered `1 -`",
     "wanted: the number of a clause, which has no sign", TO_ITS_END),
    ("VeriPB", "pseudo-Boolean proof version 2.0\n", "text at 0", NO_STEP, "line 1, column 1: found `pseudo-Boolean`",
     "the file is a proof of VeriPB", DRAT),
    ("CR LF", "\r\n2 0\r\n", "text at 0", NO_STEP, "line 1, column 1: found `\\x0d`",
     CR_LF, "only LF ends a line: tr -d '\\r' < FILE > NEW"),
)

# Proofs of which other tests say where they are refused; the last lines of the explanation.
KINDS_OF_PROOFS = (
    ("a circuit", COUNTER, "the file is a circuit", "the circuit comes first: aig refute --frames K CIRCUIT PROOF"),
    ("FRAT without original clauses", "a 9 1 2 0\n", "the file is a proof in FRAT", OF_FRAT),
    ("FRAT in binary", b"o\x02\x04\x06\x00a\x2a\x04\x00f\x2a\x04\x00", "the file is a proof in FRAT",
     OF_FRAT),
    ("FRAT in binary without original clauses", b"a\x2a\x04\x06\x00l\x02\x04\x00a\x2c\x04\x00l\x2a\x00",
     "the file is a proof in FRAT", OF_FRAT),
    ("LRAT in binary", b"a\x2a\x15\x0a\x00\x06\x08\x00d\x02\x00a\x2c\x04\x00\x2a\x00",
     "the file is a proof in LRAT, in its binary form",
     "aig reads LRAT only as text: have the solver write it as text"),
    ("a binary proof with a byte too many", b"a\x04\x06\x00\x06\x00a\x04\x00", "byte 4: found `\\x06`", TO_ITS_END),
    ("a binary proof with a zero too many", b"a\x04\x06\x00\x00a\x04\x00", "byte 4: found `\\x00`", TO_ITS_END),
    ("a variable of its own, and a letter", "2 3 0\n11 x 0\n", "step 2, in line 2, adds the clause `11 x`", TO_ITS_END),
    ("an unfinished proof with a variable of its own", "11 2 0\n", "its number of steps: 1", SAME),
    ("hints, and a variable that the formula does not have", "24 -10 11 0 2 0\n",
     "step 1, in line 1, numbered 24, adds the clause `-10 11`",
     "the formula has 10 variables, and this step names variable 11", SAME, ORDER),
    ("a variable that the formula does not have", "-10 11 0\n",
     "the formula has 10 variables, and this step names variable 11", SAME),
    ("a variable of the binary form that the formula does not have", b"a\x15\x80\x02\x00",
     "the formula has 10 variables, and this step names variable 128", SAME),
)

# Input 2 is a constraint, and there is no bad state property.
KEPT = "aag 1 1 0 0 0 0 1\n2\n2\n"

SAME_MODEL = "it has to be of the formula of aig cnf for the same K, P, CIRCUIT and --step"

# A model of the formula of examples/bad_input for one frame; the fault; the lines that explain it.
MODELS = (
    ("a letter", "v -1\nv x 0\n", "text at 7", "line 2, column 3: found `x`",
     "wanted: a literal of the formula, or the 0 that ends the literals", SAME_MODEL),
    ("a variable that the formula does not have", "-1 -99 0\n", "text at 3", "line 1, column 4: found `-99`",
     "its variable is not one of the formula, or its negation is named before",
     "the formula has 2 variables, and that of --step 3", SAME_MODEL),
    ("a variable that the formula of the step has", "v 3 0\n", "text at 2", "line 1, column 3: found `3`",
     "its variable is not one of the formula, or its negation is named before",
     "the formula has 2 variables, and that of --step 3", SAME_MODEL),
    ("a word after the 0 with such a variable", "-1 0 99\n", "text at 5", "line 1, column 6: found `99`",
     "wanted: nothing after the 0 but comments, which are lines that begin with c", SAME_MODEL),
    ("both values", "s SATISFIABLE\nv -1 1 0\n", "text at 19", "line 2, column 6: found `1`",
     "its variable is not one of the formula, or its negation is named before", SAME_MODEL),
    ("no 0", "v -1", "text at 4", "line 1, column 5: the file ends here", "wanted: the 0 that ends the literals",
     SAME_MODEL),
    ("a word after the 0", "-1 0 -1\n", "text at 5", "line 1, column 6: found `-1`",
     "wanted: nothing after the 0 but comments, which are lines that begin with c", SAME_MODEL),
    ("an empty file", "", "text at 0", "line 1, column 1: the file ends here", "wanted: the 0 that ends the literals",
     "the file is empty", WRITE_AGAIN),
    ("a formula", "c one\np cnf 2 3\n", "text at 6", "line 2, column 1: found `p`",
     "wanted: a literal of the formula, or the 0 that ends the literals", "the file is a CNF formula",
     "run a solver on it, and name the file that the solver writes"),
    ("a circuit", COUNTER, "text at 0", "line 1, column 1: found `aag`",
     "wanted: a literal of the formula, or the 0 that ends the literals", "the file is a circuit",
     "--model names what the solver printed, and CIRCUIT the circuit"),
    ("what may be a proof", "o 12\n", "text at 0", "line 1, column 1: found `o`",
     "wanted: a literal of the formula, or the 0 that ends the literals", "the file may be a solver's proof",
     "aig refute checks a proof; --model names what the solver printed"),
    ("LRAT in binary", b"a\x2a\x15\x0a\x00\x06\x08\x00d\x02\x00a\x2c\x04\x00\x2a\x00", "text at 0",
     "line 1, column 1: found `a*\\x15`", "wanted: a literal of the formula, or the 0 that ends the literals",
     "the file may be a solver's proof", "aig refute checks a proof; --model names what the solver printed"),
    ("a witness", WITNESS, "text at 2", "line 2, column 1: found `b0`",
     "wanted: a literal of the formula, or the 0 that ends the literals", "the file is a witness",
     "name the file that the solver writes"),
    ("CR LF", "-1\r\n0\r\n", "text at 0", "line 1, column 1: found `-1\\x0d`",
     "wanted: a literal of the formula, or the 0 that ends the literals", CR_LF,
     "only LF ends a line: tr -d '\\r' < FILE > NEW"),
    ("no model", "UNSAT", "unsatisfiable",
     "the solver says that no run reaches the bad state within K frames; aig refute checks its proof", SAME_MODEL),
    ("no answer", "s UNKNOWN", "unknown", "the solver gave up before it found an answer", SAME_MODEL),
)
