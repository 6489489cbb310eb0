"""Proofs in DRAT that tests/hints/drat2lrat.cpp turns into LRAT, with --trim and without it. `aig refute` takes them
for each of its goals, and for no other formula. aig_tests takes those of formulas that no circuit has. Another
checker in C++ takes them too, also where no hint may give nothing. Of a random proof it names the first step that is
wrong, as aig_tests does. Then come its messages and statuses."""

import os
from typing import List, NamedTuple, Sequence

from hints.programs import built, proof_tests, ran
from library.big_proofs import FOLDER, clauses_of
from library.families import Added, cook, dimacs, pigeons, searched
from library.runs import EXAMPLES, contents, refused, write
from program.proofs import SPELLINGS
from program.refute import NEVER_KEPT_TO
from program.rows import Rows
from steps.at_random import with_proofs
from steps.cases import DELETED, ON_FIRST, OPEN, REFUTED, WRONG, case, lines_of
from steps.extended import STYLES

# How many random formulas.
RANDOM = 100


class Goal(NamedTuple):
    """What a proof is, the arguments of `cnf` and `refute`, the files, and arguments that make another formula."""

    name: str
    options: List[str]
    circuit: str
    proof: str
    others: Sequence[str] = ()


# The goals of proofs that come with the examples.
GOALS = (
    ("wraps", ["--frames", "3"], f"{EXAMPLES}/wraps.aag", f"{EXAMPLES}/wraps.drat", ["--frames", "4"]),
    ("ring", ["--certificate", f"{EXAMPLES}/ring.cert.aag"], f"{EXAMPLES}/ring.aag", f"{EXAMPLES}/ring.drat",
     ["--certificate", f"{EXAMPLES}/delay.cert.aag"]),
    ("queue", ["--certificate", f"{EXAMPLES}/queue.cert.aag", "--property", "1"], f"{EXAMPLES}/queue.aig",
     f"{EXAMPLES}/queue.drat", ["--certificate", f"{EXAMPLES}/queue.cert.aag", "--property", "0"]),
    ("alive", ["--alive", "--frames", "1"], "never_kept_to", "never.drat", ["--alive", "--frames", "2"]),
)


def both(tally, name, formula, proof):
    """The translation and the trimmed one, which the second checker takes, also with --strict."""
    made = []
    for form, words in (("whole", []), ("trimmed", ["--trim"])):
        lrat = f"{form}.lrat"
        tally.compare(f"translated: {name}, {form}", ran("drat2lrat", *words, formula, proof, lrat), (0, "", ""))
        for more in ([], ["--strict"]):
            tally.compare(f"translated: {name}, {form}, by lrat_check {' '.join(more)}",
                          ran("lrat_check", *more, formula, lrat)[:2], (0, "refuted\n"))
        made.append((form, lrat))
    return made


def of_circuit(rows, goal):
    """A proof about a circuit."""
    name, options, circuit, proof, others = goal
    formula = f"{name}.cnf"
    write(formula, rows.run("cnf", *options, circuit).out)
    told = rows.run("refute", *options, circuit, proof)
    rows.tally.compare(f"translated: {name}, in DRAT", (told.status, told.err), (0, b""))
    for form, lrat in both(rows.tally, name, formula, proof):
        rows.tally.compare(f"translated: {name}, {form}, by aig", rows.run("refute", *options, circuit, lrat), told)
        if others:
            ended = rows.run("refute", *others, circuit, lrat)
            rows.tally.check(f"translated: {name}, {form}, of another formula", ended.status == 1, ended)


def circuits(rows):
    write("never_kept_to", NEVER_KEPT_TO)
    write("never.drat", "2 0\n")
    for goal in GOALS:
        of_circuit(rows, Goal(*goal))
    for name, file in (("parity", "parity.text"), ("parity", "parity.binary"), ("long", "long.binary")):
        of_circuit(rows, Goal(name, ["--frames", "1"], f"{FOLDER}/{name}.aag", f"{FOLDER}/{file}.drat"))
    induction(rows)


def induction(rows):
    """The proofs of an induction, each of them in both forms."""
    circuit, options = f"{EXAMPLES}/queue.aig", ["--frames", "1", "--property", "1"]
    files = {}
    for role, more in (("base", []), ("step", ["--step"])):
        write(f"{role}.cnf", rows.run("cnf", *more, *options, circuit).out)
        proof = f"{EXAMPLES}/queue.{role}.drat"
        files[role] = [proof]
        for form, lrat in both(rows.tally, f"the {role} of an induction", f"{role}.cnf", proof):
            os.replace(lrat, f"{role}.{form}")
            files[role].append(f"{role}.{form}")
    for base in files["base"]:
        for step in files["step"]:
            rows.gives(f"an induction by {base} and {step}",
                       f"refute --frames 1 --property 1 --step {step} {circuit} {base}", "unreachable\n")


def families():
    for holes in (5, 10):
        variables, clauses, _ = pigeons(holes)
        yield f"pigeons in {holes} holes", variables, clauses, [*cook(holes)]
    for holes in (4, 5):
        variables, clauses, _ = pigeons(holes)
        for style in STYLES:
            added = Added(variables, clauses, style)
            yield (f"pigeons in {holes} holes, {style}", variables, clauses,
                   [*added.steps, *searched([*map(list, added.clauses)])])


def own_variables(tally, checker):
    """Refutations with variables of their own, in both forms of DRAT."""
    for name, variables, clauses, steps in families():
        write("f.cnf", dimacs(variables, clauses))
        for form, spelled in SPELLINGS:
            write("f.drat", spelled(steps))
            for way, lrat in both(tally, f"{name}, {form}", "f.cnf", "f.drat"):
                line = lines_of(checker, [case(variables, clauses, contents(lrat))])[0]
                marks, _, end = line.partition(" ")
                is_right = WRONG not in marks and ON_FIRST in marks and end == REFUTED
                tally.check(f"translated: {name}, {form}, {way}, by aig_tests", is_right, line[-40:])
                tally.check(f"translated: {name}, {form}, {way}: deletions", (DELETED in marks) == (
                    way == "trimmed" or any(is_deleted for is_deleted, _ in steps)), marks[-40:])


def random_proofs(tally, checker, seed):
    """Proofs of random formulas: right steps, deletions of clauses of all kinds, wrong steps and changed bytes."""
    counts = {"refuted": 0, "step": 0, "text": 0, OPEN: 0}
    for number in range(RANDOM):
        formula = with_proofs(seed, number)
        for place, (whole, wanted) in enumerate(zip(formula.cases, formula.wanted)):
            sizes, _, data = whole.partition(b"\n")
            variables, size, _ = map(int, sizes.split())
            end = end_of(wanted)
            counts[end if end == OPEN else end.split(" ")[0]] += 1
            one(tally, checker, f"translated: seed {seed}, formula {number}, proof {place}",
                (variables, data[:size], data[size:]), end)
    tally.check("translated: proofs with each end", min(counts.values()) > 5, counts)
    return counts


def end_of(line):
    """How the check of a proof in DRAT ends by the line of aig_tests, which goes on after a wrong step."""
    marks, _, end = line.partition(" ")
    return f"step {marks.index(WRONG) + 1}" if WRONG in marks else end


def one(tally, checker, name, case_of, end):
    variables, clauses, proof = case_of
    write("f.cnf", clauses)
    write("f.drat", proof)
    for words in ([], ["--trim"]):
        status, out, err = ran("drat2lrat", *words, "f.cnf", "f.drat", "f.lrat")
        said = err.partition("proof: ")[2].strip() if status else REFUTED
        # It may name another byte of a step that is none.
        is_same = said.startswith("text at") if end.startswith("text at") else said == end
        tally.check(f"{name}, {words}", is_same and not out, f"{said!r}, wanted {end!r}: {clauses!r} {proof!r}")
        tally.compare(f"{name}, {words}: a file", os.path.exists("f.lrat"), status == 0)
        if status == 0:
            lrat = contents("f.lrat")
            line = lines_of(checker, [b"%d %d %d\n%s%s" % (variables, len(clauses), len(lrat), clauses, lrat)])[0]
            tally.check(f"{name}, {words}, by aig_tests", WRONG not in line and line.endswith(REFUTED), line)
            tally.compare(f"{name}, {words}, by lrat_check", ran("lrat_check", "f.cnf", "f.lrat")[0], 0)
            os.remove("f.lrat")


def messages(tally):
    """What drat2lrat says of files and arguments, and its statuses."""
    write("f.cnf", "p cnf 2 4\n1 2 0\n-1 2 0\n1 -2 0\n-1 -2 0\n")
    write("f.drat", "1 0\n0\n")
    write("f.lrat", "5 1 0 1 3 0\n6 0 5 2 4 0\n")
    usage = ran("drat2lrat", "--help")
    tally.check("translated: --help", usage[0] == 0 and usage[1].startswith("usage: drat2lrat [--trim]"), usage)
    tally.compare("translated: --version", ran("drat2lrat", "--version"), (0, "drat2lrat 1\n", ""))
    for words in ((), ("f.cnf", ), ("f.cnf", "f.drat"), ("f.cnf", "f.drat", "out", "more")):
        tally.compare(f"translated: {words}", ran("drat2lrat", *words), (2, "", usage[1]))
    write("open.cnf", "p cnf 1 1\n1")
    write("wrong.drat", "5 0\n-5 0\n")
    for name, words, status, said in (
            ("no formula", ("nowhere", "f.drat", "out"), 3, "nowhere: No such file or directory"),
            ("no proof", ("f.cnf", "nowhere", "out"), 3, "nowhere: No such file or directory"),
            ("a folder", (".", "f.drat", "out"), 3, ".: Is a directory"),
            ("no folder to write", ("f.cnf", "f.drat", "nowhere/out"), 3, "nowhere/out: No such file or directory"),
            ("a full disk", ("f.cnf", "f.drat", "/dev/full"), 3, "/dev/full: No space left on device"),
            ("a proof in LRAT", ("f.cnf", "f.lrat", "out"), 1, "proof: text at 5"),
            ("a circuit as formula", (f"{EXAMPLES}/wraps.aag", "f.drat", "out"), 1, "formula: text at 0"),
            ("a formula without its last end", ("open.cnf", "f.drat", "out"), 1, "formula: text at 11"),
            ("a wrong step", ("f.cnf", "wrong.drat", "out"), 1, "proof: step 2"),
            ("an empty proof", ("f.cnf", os.devnull, "out"), 1, "proof: no refutation")):
        tally.compare(f"translated: {name}", ran("drat2lrat", *words), (status, "", f"drat2lrat: {said}\n"))
        tally.check(f"translated: {name}: nothing is written", not os.path.exists("out"))
    write("empty.cnf", "p cnf 1 2\n1 0\n0\n")
    tally.compare("translated: the empty clause", ran("drat2lrat", "empty.cnf", os.devnull, "out"), (0, "", ""))
    tally.compare("translated: the proof of the empty clause", contents("out"), b"3 0 2 0\n")


def translated(program, tally, chosen):
    rows = Rows("translated", program, tally)
    checker = proof_tests(program)
    built("drat2lrat")
    circuits(rows)
    own_variables(tally, checker)
    counts = random_proofs(tally, checker, chosen.seed)
    messages(tally)
    return (f"random proofs: {counts[REFUTED]} right, {counts['step']} with a wrong step, {counts['text']} no text, "
            f"{counts[OPEN]} too short: ")
