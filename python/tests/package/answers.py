"""Each answer is about the property, the frames and the file that were asked for, and no answer is taken from a program
that is killed."""

import os

import aig
from library import runs
from library.dump_reader import Dump
from package.common import CHAIN, CLAIMS_0, CONFIRMED, NO_CLAIM, STAYS, example, raised, running

# Rows of which the one at frame 0 has d[1], the one at frame 1 d[2], and so on, and the last has none.
ROWS = ["0" * (frame + 1) + "1" + "0" * (11 - frame) for frame in range(12)] + ["0" * 13]
# The latches a and b take the inputs, and the bad state is (a | b) & (a | !b) & (!a | b) & (!a | !b). Propagation shows
# that the resets are not bad. For the step it needs the clause of the first input at frame 0.
NEVER = "aag 11 2 2 0 7 1\n2\n4\n6 2\n8 4\n22\n10 9 7\n12 8 7\n14 9 6\n16 8 6\n18 13 11\n20 17 15\n22 20 18\n"
# A circuit with names, and what it is with parts that are cut.
CUT = "aag 4 1 2 0 1 1 2\n2\n4 8 1\n6 4\n8\n2\n6\n8 4 2\ni0 i\nl0 first\nl1 second\nb0 bad\nc1 held\n"
NAMES = "i0 i\nl0 first\nl1 second\nb0 bad\nc1 held\n"
CUTS = (
    ("nothing", {}, CUT),
    ("a latch and a gate", {"free": ["second", 8]},
     "aag 6 3 2 0 1 1 2\n2\n10\n12\n4 8 1\n6 10\n8\n2\n6\n8 12 1\n" + NAMES),
    ("an initial value", {"starts": ["first"]}, "aag 4 1 2 0 1 1 2\n2\n4 8 4\n6 4\n8\n2\n6\n8 4 2\n" + NAMES),
    ("constraints", {"constraints": ["held", 0]}, "aag 4 1 2 0 1 1 2\n2\n4 8 1\n6 4\n8\n1\n1\n8 4 2\n" + NAMES),
)


def many(program, tally, _):
    """A circuit with 13 properties, of which the property P is first reached at frame P, but for the first: each answer
    is about the property and the number of frames that were asked for."""
    chain, rows = aig.Circuit(CHAIN), ROWS
    trace = chain.simulate(rows)
    tally.compare("a vector of 13 bits", trace.vector("d"), [2 << frame for frame in range(12)] + [0])
    tally.compare("a vector of 12 bits", trace.vector("q"), [0] + [1 << frame for frame in range(12)])
    tally.compare("a bit, an output and a value", (trace["d[10]"], trace["o12"], trace["q[11]", 12]),
                  ("0" * 9 + "1" + "0" * 3, "0" * 12 + "1", 1))
    found = ((12, chain.witness(rows, 12)), (11, chain.witness(rows, "p11")), (1, chain.witness(rows)))
    for position, witness in found:
        tally.compare(f"the witness of property {position}", (witness.position, witness.property, witness.rows),
                      (position, f"p{position}", rows[:position + 1]))
        tally.compare("its start and its verdict", (witness.start, chain.check(witness)), ("0" * 12, "confirmed"))
        tally.compare("of this property", chain.check(witness, position).witness.text, witness.text)
        other = (position + 1) % 13
        error = raised(chain.check, witness, other)
        tally.compare("of another", error.reason, f"of b{position}, not b{other}")
    witness = chain.witness(rows, 12).text.decode()
    for line, text in (("initial 11", witness.replace("0" * 12 + "\n", "0" * 11 + "1\n", 1)),
                       ("constraint 3 0", witness.replace(rows[3], "1" * 13)),
                       ("not bad", witness.replace("b12", "b11"))):
        verdict = chain.check(text)
        tally.compare(line, (verdict.line, bool(verdict), verdict.confirmed), (line, False, False))
        tally.compare("no witness", verdict.witness, None)
    tally.check("a witness that is none", raised(chain.check, witness[:-2], 12).part == "witness")
    for position in (0, 12):
        formula = chain.cnf(12, position)
        tally.compare("the formula", formula.text.split(b"\n")[0].split()[-1], b"p%d" % position)
        tally.compare("its frames", max(frame for _, frame in formula.inputs), 11)
        tally.compare("unreachable", chain.refute(12, proof_of(formula), f"p{position}"), "unreachable within 12")
    tally.compare("a proof of another property", raised(chain.refute, 12, b"0\n", 11).part, "proof")
    tally.compare("a proof of fewer frames", raised(chain.refute, 13, proof_of(chain.cnf(12, 12)), 12).part, "proof")
    step = chain.cnf(1, 0, step=True)
    tally.compare("an induction", chain.refute(1, b"0\n", 0, step=proof_of(step)), "unreachable")
    tally.compare("no induction", raised(chain.refute, 1, b"0\n", 12, step=b"0\n").part, "step proof")
    tally.compare("selected", chain.select([12, "p3"]).properties, ["p12", "p3"])
    tally.compare("outputs as properties", chain.select([12], source="outputs").witness(rows).rows, rows)
    outputs = chain.select(["p7"], target="outputs")
    tally.compare("properties as outputs", outputs.simulate(rows)["p7"], "0" * 7 + "1" + "0" * 5)
    tally.compare("unrolled", chain.unroll(3).info()["inputs"], 39)
    cut = aig.Circuit(CUT)
    for name, options, text in CUTS:
        tally.compare(f"cut: {name}", cut.cut(**options).file.decode(), text)
    tally.compare("cut: an input", raised(cut.cut, ["i"]).reason, "line 1")
    certified = chain.certified(NO_CLAIM, 12)
    first = chain.certified(NO_CLAIM)
    error = raised(certified.refute, proof_of(first.cnf()))
    tally.check("a certificate of another property", isinstance(error, aig.AigError) and error.part == "proof", error)
    tally.compare("that of the first", first.refute(proof_of(first.cnf())), "unreachable")
    tally.compare("the claims", chain.certified(NO_CLAIM, "p12").strengthened().simulate(rows)["o0"], trace["o12"])


def asked(_, tally, __):
    """Each option, each row and each name of a call reaches the program."""
    chain, wraps, never = aig.Circuit(CHAIN), example("wraps.aag"), aig.Circuit(NEVER)
    formula = chain.certified(NO_CLAIM, 12).cnf()
    tally.compare("the formula of a certificate", formula.text.split(b"\n")[0],
                  b"c aig cnf --certificate --property 12 p12")
    tally.compare("the frames of a step", max(frame for _, frame in never.cnf(4, step=True).inputs), 4)
    tally.compare("of constraints", max(frame for _, frame in chain.cnf_alive(3).inputs), 2)
    tally.compare("an induction whose step needs a proof", never.refute(1, b"", step=b"2 0\n"), "unreachable")
    tally.compare("its proofs, changed over", raised(never.refute, 1, b"2 0\n", step=b"").part, "step proof")
    tally.compare("property 0", raised(chain.witness, ROWS, 0).reason, "no run")
    tally.check("an output is no property", isinstance(raised(chain.cnf, 1, "o12"), KeyError))
    needed = [row.replace("0", "x") for row in ROWS]
    needed = [row[:-1] + "0" if row[-1] == "x" else row[:-2] + "01" for row in needed]
    tally.compare("reduced: the last 0 keeps the constraint", chain.witness(ROWS, 12).reduced().rows, needed)
    whole = chain.witness(ROWS, 12)
    tally.compare("its values", (whole.concrete, whole.reduced().concrete.rows,
                                 whole.reduced().reduced().concrete.rows),
                  (None, ROWS, ROWS))
    tally.compare("no values are known", aig.Witness(chain, whole.reduced().text).reduced().concrete, None)
    tally.compare("why, to a depth", wraps.witness(["1"] * 4).why("count", depth=0),
                  ["at 3, not explained: count=2'h3"])
    for name, wave in (("rows", chain.wave(ROWS)), ("a witness", chain.witness(ROWS, 12).wave())):
        tally.compare(f"the dump of {name}", Dump(wave).of("inputs"), ROWS)
    tally.compare("unrolled for 12 frames", chain.unroll(12).info()["inputs"], 156)
    odd = aig.Circuit("aag 9 9 0 0 0\n2\n4\n6\n8\n10\n12\n14\n16\n18\ni0 a.b[0]\ni1 axb[0]\ni2 axb[1]\ni3 c[1]\ni4 c[2] u.c[4]\n"
                      "i5 up[1]\ni6 up[0]\ni7 e[1] u.c[5]\ni8 e[3]\n")
    trace = odd.simulate(["011011010", "100010011"])
    tally.compare("vectors whose names are alike", (trace.vector("a.b"), trace.vector("axb")), ([0, 1], [3, 0]))
    tally.compare("entries by position", [chain.find(12 - at, letter).place for at, letter in enumerate("iobl")],
                  ["i12", "o11", "b10", "l9"])
    tally.compare("a row by names", chain.rows([{"d[10]": 1, "i2": 0}]), b"xx0xxxxxxx1xx\n")
    tally.compare("no bit 0", trace.vector("c"), [2, 2])
    tally.compare("further names", (trace.vector("u.c"), trace["u.c[4]"], trace["e[1]"]), ([3, 3], "11", "11"))
    tally.compare("a bit is missing", raised(trace.vector, "e").args, ("there is no vector 'e'",))
    tally.compare("falling indices", raised(trace.vector, "up").args,
                  ("'up' has falling indices: its bit 1 may be the least significant one",))


def zeros(_, tally, __):
    """A property, a frame and a depth of 0 are not left out."""
    wraps = example("wraps.aag")
    rows = ["1"] * 6
    tally.compare("frame 0", wraps.why("count", rows, frame=0), ["at 0, by reset: count=2'h0"])
    first = wraps.witness(rows).why("count", frame=1)[0]
    tally.compare("frame 1 of a witness", first.split(":")[0], "count=2'h1 at 1, by 0")


def models(_, tally, __):
    """Formulas as lists, and models of runs with zeros and ones: as text, as numbers and as truth values."""
    chain = aig.Circuit(CHAIN)
    formula = chain.cnf(5, 4)
    lines = [line.split() for line in formula.text.decode().splitlines() if line[:1] not in "cp"]
    tally.compare("the clauses", formula.clauses, [[int(word) for word in words[:-1]] for words in lines])
    tally.compare("clause by clause", list(formula), formula.clauses)
    tally.compare("how many", len(lines), formula.size)
    large = chain.cnf(20, 12)
    tally.check("over 1,000", len(large.clauses) == large.size > 1000, (len(large.clauses), large.size))
    rows = ROWS[:5]
    values = {variable: rows[frame][at] == "1" for (at, frame), variable in formula.inputs.items()}
    numbers = [variable if value else -variable for variable, value in sorted(values.items())]
    truths = [values.get(variable) for variable in range(formula.variables + 1)]
    text = "s SATISFIABLE\nv " + " ".join(map(str, numbers)) + " 0\n"
    for name, model in (("numbers", numbers), ("truth values", truths), ("text", text), ("bytes", text.encode())):
        tally.compare(f"a model as {name}", formula.witness(model).rows, rows)
    tally.compare("values that are missing", formula.witness(numbers[1:]).rows[0][1:], rows[0][1:])


def proof_of(formula):
    """A proof by unit propagation: that the bad state is at no frame, frame by frame."""
    frames = [line.split() for line in formula.text.decode().split("\n") if line.startswith("c b ")]
    return "".join(f"{-int(words[2])} 0\n" for words in frames).encode() + b"0\n"


def killed(program, tally, _):
    """A program that is killed, or ends with another status, gives no answer, whatever it printed before."""
    wraps, certified = example("wraps.aag"), aig.Circuit(STAYS).certified(CLAIMS_0)
    ends = {"killed": "kill -9 $$", "status 1": "exit 1", "status 2": "exit 2", "status 3": "exit 3",
            "status 5": "exit 5", "status 1 and a message": "echo 'aig: x: y' >&2; exit 1",
            "status 0 and a message": "echo 'aig: x: y' >&2; exit 0"}
    for name, end in ends.items():
        runs.write("ended", f"#!/bin/sh\necho unreachable\n{end}\n")
        os.chmod("ended", 0o755)
        with running("ended"):
            calls = (("refute", wraps.refute, (3, b"")), ("refute_alive", wraps.refute_alive, (3, b"")),
                     ("certified", certified.refute, (b"",)), ("check", wraps.check, (CONFIRMED,)),
                     ("to", wraps.to, ("aag",)), ("rows", wraps.simulate, (["1"],)))
            for call, function, words in calls:
                error = raised(function, *words)
                wanted = aig.AigError if "message" in name else RuntimeError
                if (name, call) != ("status 1", "check"):  # that of a verdict
                    tally.check(f"{name}: {call}", isinstance(error, wanted), error)
