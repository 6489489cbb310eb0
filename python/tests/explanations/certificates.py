"""Certificates that are rejected, and proofs and models with one: the message, and the lines that explain it."""

from explanations.common import FORMAT, WRITE_AGAIN
from explanations.solvers import NO_STEP, NO_UNIT, TOO_SHORT, TO_ITS_END
from library.runs import write

# A ring, a certificate for it, and one without a claim that it needs.
RING = "aag 4 0 3 0 1 1\n2 6 1\n4 2\n6 4\n8\n8 4 2\n"
NO_TWO = "aag 5 3 0 0 2 2\n2\n4\n6\n8\n10\n8 6 2\n10 6 4\ni0 = 2\ni1 = 4\ni2 = 6\n"
WANTED = "wanted: `= LIT`, where LIT is a literal of CIRCUIT: aig info --names CIRCUIT prints its inputs and latches"
MAPPED = "aag 3 2 0 0 1\n2\n4\n6 4 2\nc\n"
WANTED_MAPPING = ("wanted: a line `MAPPING N`, then N lines of two literals: one of an input or latch of the certificate, each"
                  " once, and one of CIRCUIT")
SAME_CERTIFIED = "the formula of aig cnf --certificate for the same P, CERTIFICATE and CIRCUIT"
OTHER_NUMBERS = "; an older aig wrote one with other numbers"
WHICH_FAILS = ("or the certificate is wrong: give a solver's model to aig witness --certificate --model to see which claim"
               " fails")

# A certificate of the ring; the message; the lines that explain it.
CERTIFICATES = (
    ("a text", "aag 1 1 0 0 0\n2\nx", "certificate: text at 16", "line 3, column 1: found 'x'",
     "wanted: a symbol (i l o b c j f), a comment (c), or the end of the file (in the symbols)"),
    ("an empty file", "", "certificate: text at 0", "line 1, column 1: the file ends here", FORMAT, "the file is empty",
     WRITE_AGAIN),
    ("a cycle", "aag 1 0 0 0 1\n2 2 1\n", "certificate: cycle 1", "gate 0 (line 2), of variable 1, is on a cycle",
     "each of these gates reads the next: 2 -> 2", "a cycle has to go through a latch"),
    ("a reset that is another latch", "aag 2 0 2 0 0\n2 2\n4 4 2\nl1 q\n", "certificate: reset 2",
     "latch 1 `q` (line 3) has the reset 2", "wanted: 0, 1, or its own literal 4, which means uninitialised"),
    ("a mapping without a number", MAPPED + "by hand\nMAPPING\n", "certificate: comment",
     "line 2 of its comment is `MAPPING`", WANTED_MAPPING),
    ("a mapping that ends", MAPPED + "MAPPING 2\n2 2", "certificate: comment", "line 3 of its comment is ``", WANTED_MAPPING),
    ("a mapping of a gate", MAPPED + "MAPPING 2\n2 2\n6 4\n", "certificate: comment", "line 3 of its comment is `6 4`",
     WANTED_MAPPING),
    ("a mapping to no literal", MAPPED + "MAPPING 2\n2 10\n4 4\n", "certificate: comment",
     "line 2 of its comment is `2 10`", WANTED_MAPPING),
    ("a mapping with two lines of an input", MAPPED + "MAPPING 3\n4 4\n2 2\n5 3\n", "certificate: comment",
     "line 4 of its comment is `5 3`", WANTED_MAPPING),
    ("a mapping of other bytes", MAPPED + "MAPPING 1\n\x1b[31m\n", "certificate: comment",
     "line 2 of its comment is `\\x1b[31m`", WANTED_MAPPING),
    ("a name of no variable", "aag 1 1 0 0 0\n2\ni0 = 10\n", "certificate: symbol i0", "the symbol of i0 is `= 10`", WANTED),
    ("a name of no literal", "aag 2 0 2 0 0\n2 2\n4 4\nl1 = \x1b[31m\n", "certificate: symbol l1",
     "the symbol of l1 is `= \\x1b[31m`", WANTED),
    ("a long name", "aag 1 1 0 0 0\n2\ni0 = " + "7" * 70 + "\n", "certificate: symbol i0",
     "the symbol of i0 is `= " + "7" * 58 + "..`", WANTED),
)



def certificates(rows):
    """Rows of certificates, and of proofs and models with one."""
    write("ring", RING)
    write("claims", NO_TWO)
    write("proof", "0\n")
    for command, word in (("strengthen --to aag --certificate f ring", "strengthen"), ("cnf --certificate f ring", "cnf"),
                          ("refute --certificate f ring proof", "cnf"), ("witness --certificate f --model proof ring", "cnf")):
        words = command.split(" ")
        for name, certificate, text, *lines in CERTIFICATES:
            write("f", certificate)
            rows.row(f"a certificate, {name}: {words[0]}", words, text, lines)
        write("f", NO_TWO)
        rows.row(f"a certificate, of another property: {words[0]}", [words[0], "--property", "12", *words[1:]],
                 f"{word}: property", ["P is 12, counted from 0", "the circuit has bad state properties: 1, outputs: 0"])
        write("f", "aag 1 1 0 0 0\n2\n")
        rows.row(f"a certificate, over the limit: {words[0]}", ["many_bad" if word == "ring" else word for word in words],
                 f"{word}: limit", ["a circuit has at most 4,194,303 variables and entries of a kind: the strengthened circuit,"
                                    " and for a formula the one of its two frames, would have more"])
    refute = ["refute", "--certificate", "claims", "ring"]
    rows.row("a certificate, and a proof that does not refute", [*refute, write("f", "")], "proof: no refutation",
             [TOO_SHORT, "its number of steps: 0", "the file is empty", WRITE_AGAIN])
    rows.row("a certificate, and an unfinished proof", [*refute, write("f", "-5 3 0\n")], "proof: no refutation",
             [TOO_SHORT, "its number of steps: 1", f"it has to be about {SAME_CERTIFIED}{OTHER_NUMBERS}", WHICH_FAILS])
    rows.row("a certificate, and a proof of another formula", [*refute, write("f", "14 0\n")], "proof: step 1",
             [NO_UNIT, "step 1, in line 1, adds the clause `14`", f"it has to be about {SAME_CERTIFIED}{OTHER_NUMBERS}", WHICH_FAILS])
    rows.row("a certificate, and no proof", [*refute, write("f", "x\n")], "proof: text at 0",
             [NO_STEP, "line 1, column 1: found `x`", TO_ITS_END])
    witness = ["witness", "--certificate", "claims", "--model", "f", "ring"]
    of_model = f"it has to be of {SAME_CERTIFIED}"
    for name, model, text, *lines in (
            ("that says that there is none", "s UNSATISFIABLE\n", "model: unsatisfiable",
             "the solver says that the certificate is right; aig refute checks its proof", of_model),
            ("without an answer", "s UNKNOWN\n", "model: unknown", "the solver gave up before it found an answer", of_model),
            ("of a variable too many", "2 -15 0\n", "model: text at 2", "line 1, column 3: found `-15`",
             "its variable is not one of the formula, or its negation is named before", of_model),
            ("whose run breaks nothing", "2 -3 -4 0\n", "witness: no run",
             "no frame of the run that the model names breaks a claim", of_model)):
        write("f", model)
        rows.row(f"a certificate, and a model {name}", witness, text, lines)
