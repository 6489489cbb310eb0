"""Rows on the property that is asked for: 2 of three, and 12 of 13. In each circuit every other property has another
answer, so a program that takes another one says something else."""

import itertools

from at_random.cones import Asked
from library.circuits import write_all
from library.dimacs import read_formula
from library.plain_checker import outcome
from library.runs import Ended, refused, write
from program.proofs import Conjunctions
from program.rows import Rows

# The property that is asked for, and how many there are.
ASKED = ((2, 3), (12, 13))

# Four latches, as literals. One is never 1, one is 1 from frame 1 on, one from frame 2 on, and one at frame 0 alone.
LATCHES = "2 2\n4 1\n6 4\n8 0 1\n"
NEVER, LATER, FIRST, ALWAYS = 2, 6, 8, 1

# A certificate that claims nothing: the property is to be inductive.
NO_CLAIM = "aag 0 0 0 0 0\n"

# What is asked for, the literal of the property, that of all others, and the answer. Propagation alone finds each
# refutation, so empty proofs serve. Where a row is refused, a program that looks at another property, in one of the two
# proofs or in both, prints `unreachable` of a state that a run reaches.
REFUTED = (
    ("--frames 2", NEVER, ALWAYS, "unreachable within 2"),
    ("--frames 2", FIRST, NEVER, "proof: no refutation"),
    ("--frames 2 --step step", NEVER, ALWAYS, "unreachable"),
    ("--frames 2 --step step", NEVER, LATER, "unreachable"),
    ("--frames 2 --step step", FIRST, NEVER, "proof: no refutation"),
    ("--frames 2 --step step", LATER, NEVER, "step proof: no refutation"),
    ("--certificate claims", NEVER, ALWAYS, "unreachable"),
    ("--certificate claims", NEVER, LATER, "unreachable"),
    ("--certificate claims", FIRST, NEVER, "proof: no refutation"),
    ("--certificate claims", LATER, NEVER, "proof: no refutation"),
)

# Eleven of 13 properties, in an order of their own.
ELEVEN = (12, 0, 11, 1, 10, 2, 9, 3, 8, 4, 7)


def refutations(rows, asked, count):
    """Circuits of latches whose proofs are empty, and one whose properties have each a proof of its own."""
    write("proof", "")
    write("step", "")
    write("claims", NO_CLAIM)
    for words, literal, others, answer in REFUTED:
        bad = [others] * count
        bad[asked] = literal
        write("circuit", f"aag 4 0 4 0 0 {count}\n{LATCHES}" + "".join(f"{each}\n" for each in bad))
        name = f"property {asked} of {count}, literal {literal} and others {others}: {words}"
        wanted = Ended(0, f"{answer}\n".encode(), b"") if answer.startswith("unreachable") else refused(answer)
        rows["refute"].ends(name, f"refute {words} --property {asked} circuit proof", wanted)
    # Property P reads the first P inputs, and then the two of its own conjunction. A proof is the first of these two, at
    # the last frame: one about another property refutes nothing, or is another step there.
    made = Conjunctions(count, count)
    text = made.circuit([made.all_of(end, at) for at, end in enumerate(made.ends)])
    write("circuit", text)
    at_start, at_step = [at + 2 for at in range(count)], [2 * at + 4 for at in range(count)]
    words = f"refute --frames 1 --property {asked}"
    for other in range(count):
        name = f"property {asked} of {count}, a proof about property {other}"
        wanted = shown(text, "within", asked, at_start[other], "unreachable within 1")
        rows["refute"].ends(name, f"{words} circuit proof", wanted, proof=f"{at_start[other]} 0\n")
        rows["refute"].ends(f"{name}, of the step", f"{words} --step step circuit proof",
                            shown(text, "step", asked, at_step[other], "unreachable"), proof=f"{at_start[asked]} 0\n",
                            step=f"{at_step[other]} 0\n")


def shown(text, goal, asked, literal, line):
    """What a proof of this one literal shows of a property, by the plain checker."""
    _, _, clauses = read_formula(Asked(text, goal, 1, asked).text())
    number = outcome(clauses, [(False, [literal])])
    if number is None:
        return Ended(0, f"{line}\n".encode(), b"")
    part = "step proof" if goal == "step" else "proof"
    return refused(f"{part}: step {number}" if number else f"{part}: no refutation")


def formula(asked, frames, is_step, options=None):
    """The formula of a circuit whose properties are its inputs, in their order, and which was asked for by these options."""
    options = options or f"{'--step ' if is_step else ''}--frames {frames}"
    lines = [f"c aig cnf {options} --property {asked} "]
    frames += is_step
    bad = [2 + frame for frame in range(frames)]
    lines += [f"c i {literal} {frame} {asked} " for frame, literal in enumerate(bad)]
    lines += [f"c b {literal} {frame}" for frame, literal in enumerate(bad)]
    goals = [[-literal] for literal in bad[:-1]] + [bad[-1:]] if is_step else [bad]
    lines += [f"p cnf {1 + frames} {1 + len(goals)}", "-1 0"]
    lines += [" ".join(map(str, [*goal, 0])) for goal in goals]
    return "".join(line + "\n" for line in lines)


def row_of(count, ones, rest="0"):
    return "".join("1" if at in ones else rest for at in range(count))


def witness_of(asked, lines):
    return f"1\nb{asked}\n\n" + "".join(line + "\n" for line in lines) + ".\n"


def model_of(values):
    """A solver's model whose run has these values at the property's input."""
    literals = (at + 2 if value == "1" else -at - 2 for at, value in enumerate(values))
    return "s SATISFIABLE\nv -1 " + " ".join(map(str, literals)) + " 0\n"


def of_inputs(rows, asked, count):
    """Formulas, witnesses and verdicts of a circuit whose properties are its inputs, in their order."""
    inputs = "".join(f"{2 * at + 2}\n" for at in range(count))
    write("circuit", f"aag {count} {count} 0 0 0 {count}\n{inputs}{inputs}")
    name = f"property {asked} of {count}"
    option = f"--property {asked}"
    for step in ("", "--step "):
        for frames in (1, 2):
            rows["cnf"].gives(f"{name}, {frames} frames {step}", f"cnf {step}--frames {frames} {option} circuit",
                              formula(asked, frames, step != ""))
    write("claims", NO_CLAIM)
    certified_formula = formula(asked, 2, False, "--certificate")
    rows["cnf"].gives(f"{name}, with a certificate", f"cnf --certificate claims {option} circuit", certified_formula)
    strengthened = f"{inputs}{2 * asked + 2}\n{2 * asked + 2}\n"
    rows["strengthen"].gives(name, f"strengthen --to aag --certificate claims {option} circuit",
                             f"aag {count} {count} 0 1 0 1\n{strengthened}")
    only, others = row_of(count, {asked}), row_of(count, set(range(count)) - {asked})
    each = [row_of(count, {at}) for at in range(count)]
    others_first = witness_of(asked, [others, only])
    # Options, the rows of the stimulus, and the witness, or nothing where no frame reaches the property.
    for options, stimulus, wanted in (
            (f"{option} ", [others, only, only], others_first),
            (f"{option} ", each, witness_of(asked, each[:asked + 1])),
            (f"{option} ", each[::-1], witness_of(asked, each[:asked - 1:-1])),
            ("", [row_of(count, ()), only], witness_of(asked, [row_of(count, ()), only])),
            (f"{option} ", [others, others], None)):
        write("rows", "".join(line + "\n" for line in stimulus))
        written(rows, f"{name}, {options}a stimulus of {stimulus[0]}", f"witness {options}circuit rows", wanted)
    # The other inputs are not read.
    reached = [row_of(count, (), "x")[:asked] + value + row_of(count, (), "x")[asked + 1:] for value in "01"]
    for words in (f"--frames 2 {option}", f"--step --frames 1 {option}"):
        for values, wanted in (("01", witness_of(asked, reached)), ("00", None)):
            write("model", model_of(values))
            written(rows, f"{name}, a model of {values}", f"witness --model model {words} circuit", wanted)
    # The run is one of the strengthened circuit, which has one property.
    for values, wanted in (("01", witness_of(0, reached)), ("00", None)):
        words = f"witness --model model --certificate claims {option} circuit"
        rows["witness"].ends(f"{name}, a model of {values}, with a certificate", words,
                             refused("witness: no run") if wanted is None else Ended(0, wanted.encode(), b""),
                             model=model_of(values))
    rows["check"].gives(f"{name}, which is not reached", "check circuit found", "not bad\n", 1,
                        found=witness_of(asked, [only, others]))
    needed = [row_of(count, (), "x"), row_of(count, {asked}, "x")]
    rows["reduce"].gives(name, "reduce circuit found", witness_of(asked, needed), found=others_first)


def written(rows, name, words, wanted):
    """The witness is written, and it is confirmed; or there is no run."""
    if wanted is None:
        rows["witness"].refuses(name, words, "witness: no run")
        return
    rows["witness"].gives(name, words, wanted)
    rows["check"].gives(name, "check circuit found", "confirmed\n", found=wanted)


def selected(kept, count, section, to):
    """The file in which these of the properties are kept. The property at P is input P, negated, by the name nP."""
    places = "0 0 0 {}" if section == "b" else "0 {} 0"
    inputs = "".join(f"{2 * at + 2}\n" for at in range(count)) if to == "aag" else ""
    names = {at: f"{section}{kept.index(at)} n{at}\n" for at in kept}
    return (f"{to} {count} {count} {places.format(len(kept))}\n{inputs}" + "".join(f"{2 * at + 3}\n" for at in kept)
            + "".join(names[at] for at in sorted(names)))


def selections(rows, kept, count):
    """Each property by its position, by its name, and by either in turn."""
    for section, options in (("b", ""), ("o", "--from outputs --as outputs ")):
        write("circuit", selected(range(count), count, section, "aag"))
        for to, spelled in itertools.product(("aag", "aig"), (("",), ("n",), ("", "n"))):
            words = options + " ".join(f"--property {spelled[place % len(spelled)]}{at}" for place,
                                       at in enumerate(kept))
            rows["select"].gives(f"{len(kept)} of {count}, to {to}: {words}", f"select {words} --to {to} circuit",
                                 selected(kept, count, section, to))


def properties(program, tally, _):
    rows = {name: Rows(f"properties, {name}", program, tally)
            for name in ("refute", "cnf", "strengthen", "witness", "check", "reduce", "select")}
    write_all()
    for asked, count in ASKED:
        refutations(rows, asked, count)
        of_inputs(rows, asked, count)
        selections(rows, (asked, ), count)
    for kept in (ELEVEN[:9], ELEVEN[:10], ELEVEN, range(12, -1, -1)):
        selections(rows, kept, 13)
