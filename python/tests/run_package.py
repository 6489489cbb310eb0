#!/usr/bin/env python3
"""Runs the package `aig` of Python on the built program. With --installed it is the package that pip installed.

The parts: the session of python/README.md line by line (`readme`, with cadical); each call of the package, with names
that are odd or ambiguous, each kind of row, gates after all sections, models as each solver gives them, right and wrong
proofs and certificates, edits and replies of a bench, 50,000 lines at once and a row that is longer than a pipe
(`names`, `rows`, `arrays` with numpy, `files`, `verdicts`, `certificates`, `bench`, `replies`); a circuit with 13
properties, of which each answer is about the one that was asked for (`many`, `asked`, `zeros`, `models`); a program
that is killed after it printed a verdict (`killed`); `aig.solve` with cadical (`solvers`), with a small solver
(`small`), and ended by a bound or another thread (`bounds`); verdicts beside the texts that they were (`texts`); benches
in the library beside those in a process, and calls that are wrong (`live`); where
the library is looked for, and libraries of other versions (`libraries`); benches by names, in the library and in a
process: vectors (`vectors`), outputs that were set (`moved`), buffers (`buffers`, `numpy`), what the prompt answers too
(`prompt`), and the notebook and the program of examples/ (`notebook`, `lift`); two circuits side by side (`miters`); what notebooks show
(`notebooks`); a bench whose
program is killed, no program, no memory, four threads, and a system without memory files (`failures`, `threads`,
`folders`); and, where it is asked for, what mypy says of the package (`types`)."""

import contextlib
import doctest
import os
import pickle
import re
import shutil
import sys
from fractions import Fraction
from pathlib import Path

PYTHON = Path(__file__).resolve().parent.parent
sys.path[:0] = [str(PYTHON.parent / "tests"), str(PYTHON.parent / "tools")]
from library import runs, supervised  # noqa: E402
from library.runs import EXAMPLES  # noqa: E402
from library.supervised import SCRIPT_SECONDS  # noqa: E402

if "--installed" not in sys.argv:
    sys.path.insert(0, str(PYTHON / "src"))
import aig  # noqa: E402
from package import answers, bench, failures, live, miters, named, notebooks, replies, searches  # noqa: E402
from package.common import CLAIMS_0, CLAIMS_1, CONFIRMED, PROOF_OF_0, STAYS  # noqa: E402
from package.common import example, need, raised, running  # noqa: E402


def readme(_, tally, __):
    need("cadical")
    for path in Path(EXAMPLES).glob("*.aag"):
        shutil.copy(path, ".")
    failed, tried = doctest.testfile(str(PYTHON / "README.md"), module_relative=False)
    tally.check("README.md runs", failed == 0 and tried > 15, f"{failed} of {tried} failed")
    test = doctest.DocTestFinder().find(aig, "aig")[0]
    tally.compare("the docstring of the package runs", doctest.DocTestRunner().run(test).failed, 0)
    shown = set(re.findall(r"`(\w+)`|`\.(\w+)\(|`aig\.(\w+)", (PYTHON / "README.md").read_text()))
    names = {name for row in shown for name in row}
    for name in ("Circuit", "Trace", "Witness", "Verdict", "Formula", "Bench", "AigError", "EditError"):
        tally.check(f"README.md has {name}", name in names)


def names(_, tally, __):
    counter, wraps = example("counter.aag"), example("wraps.aag")
    tally.compare("a negated name", counter.literal("!enable"), 3)
    tally.compare("a place", counter.find("o4").name, "wrap")
    tally.check("an output by its name is no property", isinstance(raised(counter.cnf, 1, "wrap"), KeyError))
    for message, call, words in (("there is no signal 'nothing'", counter.literal, ("nothing",)),
                                 ("there is no bad 1", wraps.cnf, (3, 1)), ("there is no inputs 9", counter.find, (9,)),
                                 ("there is no signal ''", counter.literal, ("",))):
        error = raised(call, *words)
        tally.check(message, isinstance(error, KeyError) and error.args == (message,), error)
    odd = aig.Circuit("aag 2 2 0 1 0\n2\n4\n2\ni0 !a b\ni1 i0\no0 twice\n")
    tally.compare("odd names", [odd.literal(name) for name in ("!a b", "!!a b", "i0", "!i0", "twice")], [2, 3, 4, 5, 2])
    tally.compare("no names", aig.Circuit("aag 2 2 0 0 0\n2\n4\n").literal("i1"), 4)
    negated = aig.Circuit("aag 1 1 0 1 0\n2\n3\n")
    tally.compare("a negated output", [negated.literal(name) for name in ("o0", "!o0")], [3, 2])
    both = aig.Circuit("aag 2 2 0 0 0\n2\n4\ni0 a\ni1 a\n")
    tally.compare("one name of two literals", str(raised(both.literal, "a")),
                  '"\'a\' names i0 and i1: use one of these"')
    tally.compare("a name that is not UTF-8", aig.Circuit(b"aag 1 1 0 0 0\n2\ni0 \xff\n").inputs, ["\udcff"])


class Number:
    """A number that is no int, as those of numpy."""

    __hash__ = None

    def __init__(self, value):
        self.value = value

    def __int__(self):
        return self.value

    def __eq__(self, other):
        return self.value == other


def rows(_, tally, __):
    counter = example("counter.aag")
    kinds = (["1x", "01"], [[1, None], [False, True]], [{"enable": 1}, {"enable": 0, "clear": 1}], b"1x\n01\n")
    tally.compare("four kinds of rows", {counter.rows(kind) for kind in kinds}, {b"1x\n01\n"})
    tally.compare("no rows", len(counter.simulate([])), 0)
    for value in (2, -1, Fraction(1, 2), "2", "01", [1], b"1"):
        error = raised(counter.simulate, [[value, 0]])
        tally.check(f"no value: {value!r}", isinstance(error, ValueError) and repr(value) in str(error), error)
    numbers = [[Number(1), 0], [Number(0), aig.X], ["x", True]]
    tally.compare("numbers of other types", counter.rows(numbers), b"10\n0x\nx1\n")
    tally.check("x is read from a file as itself", pickle.loads(pickle.dumps(aig.X)) is aig.X)
    tally.compare("x shown", (f"{aig.X}", repr(aig.X)), ("x", "X"))
    error = raised(counter.simulate, ["1"])
    tally.compare("a short row", (error.part, error.reason), ("stimulus", "length of line 1"))
    tally.check("its explanation", "\n" in error.explanation and "/proc" not in error.explanation, error.explanation)
    trace = counter.simulate(["10"] * 3)
    tally.compare("a signal", trace["count[0]"], "010")
    tally.compare("a vector", trace.vector("count"), [0, 1, 2])
    unknown = counter.simulate(["10", "x0", "10"])
    tally.compare("an unknown vector", [value is aig.X for value in unknown.vector("count")], [False, False, True])
    tally.check("no vector", isinstance(raised(trace.vector, "enable"), KeyError))
    tally.check("x is neither true nor false", isinstance(raised(bool, unknown["count[0]", 2]), ValueError))
    toggle = aig.Circuit("aag 1 0 1 1 0\n2 3\n2\n")
    tally.compare("a circuit without inputs", toggle.simulate([""] * 3)["o0"], "010")


def arrays(_, tally, __):
    need("numpy")
    import numpy

    counter = example("counter.aag")
    trace = counter.simulate(numpy.array([[1, 0]] * 3))
    tally.compare("states", trace.array("states")[:, 0].tolist(), [0, 1, 0])
    tally.compare("x is -1", counter.simulate(["xx"] * 2).array("states")[1, 0], -1)
    given = numpy.array([[1, -1], [0, 1]])
    tally.compare("inputs", counter.simulate(given).array("inputs").tolist(), given.tolist())
    tally.compare("rows", counter.rows(given), b"1x\n01\n")
    tally.compare("rows of truth values", counter.rows(given == 1), b"10\n01\n")
    tally.check("a value that is none", isinstance(raised(counter.rows, numpy.array([[2, 0]])), ValueError))


def files(_, tally, __):
    counter = example("counter.aag")
    tally.compare("binary", counter.to("aig"), Path(f"{EXAMPLES}/counter.aig").read_bytes())
    tally.compare("its inputs", aig.Circuit(counter.to("aig")).inputs, ["enable", "clear"])
    counter.save("saved.aag")
    counter.save("saved.aig")
    tally.compare("saved", [Path(f"saved.{it}").read_bytes() for it in ("aag", "aig")],
                  [counter.to("aag"), counter.to("aig")])
    tally.compare("facts", (counter.info()["gates"], counter.info()["format"]), (17, "aag"))
    tally.compare("gates", len(counter.gates), 17)
    sections = aig.Circuit("aag 4 1 1 1 1 1 1 2 1\n2\n4 6\n4\n6\n5\n1\n2\n4\n2\n6\n3\n6 2 4\n")
    tally.compare("gates after all sections", sections.gates, [(6, 2, 4)])
    tally.compare("sections", [entry.place for entry in sections.entries], "i0 l0 o0 b0 c0 j0 j1 f0".split())
    tally.compare("selected", counter.select(["wrap"], source="outputs").properties, ["wrap"])
    tally.compare("unrolled", counter.unroll(3).info()["latches"], 0)


def verdicts(_, tally, __):
    wraps = example("wraps.aag")
    witness = wraps.witness(["1"] * 4, "wraps")
    tally.compare("a witness", (witness.property, witness.start, witness.text.decode()), ("wraps", "00", CONFIRMED))
    tally.check("confirmed", bool(wraps.check(witness)) and wraps.check(CONFIRMED).confirmed)
    tally.compare("not bad", wraps.check("1\nb0\n00\n0\n.\n"), aig.Verdict("not bad"))
    tally.check("a wave", b"$enddefinitions" in witness.wave() and b"$enddefinitions" in wraps.wave(["1"]))
    tally.compare("reduced", wraps.witness(["1"] * 6).reduced().rows, ["1"] * 4)
    reason = ["count=2'h1 at 1, by 0: enable=1 count=2'h0", "at 0, by reset: count=2'h0"]
    tally.compare("why, over rows", wraps.why("count", ["1"] * 6, frame=1), reason)
    tally.compare("why, of a witness", wraps.witness(["1"] * 6).why("count", frame=1), reason)
    tally.compare("why, to a depth", wraps.why("count", ["1"] * 6, depth=0), ["at 5, not explained: count=2'h1"])
    error = raised(wraps.why, "cuont", ["1"])
    tally.check("why, of no name", (error.part, error.reason) == ("why", "name") and "enable" not in error.explanation)
    tally.compare("no run", raised(wraps.witness, ["0"]).reason, "no run")
    proof = Path(f"{EXAMPLES}/wraps.drat").read_bytes()
    tally.compare("unreachable within 3", wraps.refute(3, proof, "wraps"), "unreachable within 3")
    error = raised(wraps.refute, 4, proof)
    tally.compare("a wrong proof", (error.part, error.reason), ("proof", "step 1"))
    tally.compare("a wrong step", raised(wraps.refute, 3, proof, step=b"").part, "step proof")
    model = Path(f"{EXAMPLES}/wraps.model").read_bytes()
    contradict = aig.Circuit("aag 1 1 0 0 0 0 2\n2\n2\n3\n")
    tally.compare("constraints that contradict", [contradict.refute_alive(frames, b"") for frames in (1, 3)],
                  ["no run of 1 frames", "no run of 3 frames"])
    tally.check("constraints that some run keeps", isinstance(raised(wraps.refute_alive, 2, b""), aig.AigError))
    tally.check("a formula of constraints", contradict.cnf_alive(2).size > 2)
    one = aig.Circuit("aag 1 1 0 0 0 0 1\n2\n2\n")
    kept = one.cnf_alive(2)
    run = kept.witness(range(1, kept.variables + 1))
    tally.compare("a run that keeps the constraints", (run.rows, run.property), (["1", "1"], "b0"))
    tally.compare("checked", [one.check_alive(it, 2) for it in (run, "1\nb0\n\n1\n0\n.\n")],
                  ["alive", "constraint 1 0"])
    tally.compare("of all frames", one.check_alive("1\nb0\n\n1\n.\n"), "alive")
    tally.compare("of the first frame", one.check_alive("1\nb0\n\n1\n0\n.\n", 1), "alive")
    formula = wraps.cnf(4)
    numbers = [int(word) for word in model.split() if word.lstrip(b"-").isdigit() and word != b"0"]
    truths = [None] + [number in numbers for number in range(1, formula.variables + 1)]
    tally.compare("models", {formula.witness(it).text for it in (model, model.decode(), numbers, truths)},
                  {CONFIRMED.encode()})
    tally.compare("the formula, clause by clause", list(formula), formula.clauses)
    tally.compare("inputs of the formula", sorted(formula.inputs), [(0, frame) for frame in range(4)])
    tally.compare("clauses", (len(formula.clauses), formula.size), (62, 62))


def certificates(_, tally, __):
    stays = aig.Circuit(STAYS)
    certified = stays.certified(CLAIMS_0)
    tally.compare("strengthened", len(certified.strengthened().properties), 1)
    tally.compare("shown", repr(certified), f"<Certified {stays!r}>")
    tally.compare("the formula", certified.cnf().variables, 8)
    tally.compare("a right certificate", certified.refute(PROOF_OF_0), "unreachable")
    wrong = stays.certified(aig.Circuit(CLAIMS_1))
    tally.compare("a wrong certificate", raised(wrong.refute, PROOF_OF_0).part, "proof")
    witness = wrong.cnf().witness("v -1 -2 -3 -4 -5 -6 -7 -8 0\n")
    tally.check("the claim that is wrong", bool(wrong.strengthened().check(witness)), witness.text)
    tally.compare("a run of the strengthened circuit", witness.circuit.file, wrong.strengthened().file)
    tally.compare("no certificate", raised(stays.certified(b"").cnf).part, "certificate")


def types(_, tally, __):
    need("mypy")
    words = ["mypy", "--strict", "--python-version", "3.9", "--cache-dir", os.devnull, str(PYTHON / "src" / "aig")]
    done = supervised.run(words, capture_output=True, timeout=SCRIPT_SECONDS)
    tally.compare("mypy", (done.returncode, done.stdout.decode().splitlines()[:-1]), (0, []))


PARTS = {
    "readme": readme, "names": names, "rows": rows, "arrays": arrays, "files": files, "verdicts": verdicts,
    "certificates": certificates, "many": answers.many, "asked": answers.asked, "zeros": answers.zeros,
    "models": answers.models,
    "killed": answers.killed, "solvers": searches.solvers, "small": searches.small, "bounds": searches.bounds,
    "texts": searches.texts, "miters": miters.miters, "notebooks": notebooks.notebooks, "bench": bench.bench,
    "live": live.live, "libraries": live.libraries, "vectors": named.vectors, "moved": named.moved,
    "buffers": named.buffers, "numpy": named.arrays_of_numpy, "prompt": named.prompt, "notebook": named.notebook, "lift": named.lift,
    "replies": replies.replies,
    "failures": failures.failures, "threads": failures.threads, "folders": failures.folders, "types": types,
}


def options(parser):
    parser.add_argument("--installed", action="store_true", help="the package that pip installed")


def of_package(part):
    """The part, where the package runs the program that is tested; with --installed the one that pip installed."""
    def run(program, tally, chosen):
        with contextlib.nullcontext() if chosen.installed else running(program.path):
            return part(program, tally, chosen)

    return run


if __name__ == "__main__":
    runs.main(__doc__, {name: of_package(part) for name, part in PARTS.items()}, ("types",), options)
