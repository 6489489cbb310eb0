"""`aig.solve` and its bounds, and verdicts."""

import os
import re
import threading
from pathlib import Path

import aig
from library import runs
from package.common import STAYS, chain_of, example, need, raised, small_solver

PYTHON = Path(__file__).resolve().parent.parent.parent


def solvers(_, tally, __):
    """`aig.solve` with cadical, and without a solver."""
    need("cadical")
    step = aig.Circuit(STAYS).cnf(1, step=True)
    solved = aig.solve(step)
    tally.check("the step", (solved.proof is None) != (solved.model is None))
    error = raised(aig.solve, step, "no-such")
    tally.check("no solver", isinstance(error, FileNotFoundError) and "no-such" in str(error), error)
    error = raised(aig.solve, step, "false")
    tally.check("a solver that fails", isinstance(error, RuntimeError) and "false ended with" in str(error), error)
    for name in ("prove", "certify", "verdicts"):
        error = raised(getattr, aig, name)
        tally.check(f"aig.{name}", isinstance(error, AttributeError) and "aig_verdicts" in str(error), error)


def small(_, tally, __):
    """A model and a proof by a small solver, which is there where cadical is not."""
    small_solver("small")
    chain = aig.Circuit(chain_of(4))
    formula = chain.cnf(4, 3)
    solved = aig.solve(formula, "./small")
    tally.compare("a model", (formula.witness(solved.model).position, solved.proof), (3, None))
    solved = aig.solve(chain.cnf(3, 3), "./small")
    tally.compare("a proof", (solved.model, chain.refute(3, solved.proof, 3)), (None, "unreachable within 3"))


def bounds(_, tally, __):
    """Searches that are ended: by a bound, and by another thread."""
    formula = example("wraps.aag").cnf(3)
    for name, body in {"slow": "sleep 60", "gives_up": "exit 0",
                       "counts": 'case "$*" in *"-c 7"*) exit 0;; esac; exit 1'}.items():
        runs.write(name, f"#!/bin/sh\n{body}\n")
        os.chmod(name, 0o755)
    for name, limits in (("slow", {"seconds": 0.2}), ("gives_up", {"seconds": 5}), ("counts", {"conflicts": 7})):
        tally.compare(f"solve: {name}", aig.solve(formula, f"./{name}", **limits), (None, None))
    tally.check("no bound, no answer", isinstance(raised(aig.solve, formula, "./gives_up"), RuntimeError))
    tally.check("another bound", isinstance(raised(aig.solve, formula, "./counts", conflicts=8), RuntimeError))
    stop = aig.Stop()
    timer = threading.Timer(0.3, stop)
    timer.start()
    error = raised(aig.solve, formula, "./slow", stop=stop)
    timer.join()
    tally.check("solve is stopped", isinstance(error, aig.Stopped), error)


def texts(program, tally, _):
    """Verdicts beside the texts that they were before."""
    found = aig.Verdict("unreachable within 3", "bound", 3)
    line = "unreachable within 3"
    tally.compare("equal to its line", (found == line, found != "unreachable", f"{found}", {found: 1}[line]),
                  (True, True, line, 1))
    tally.compare("what was found", [(it.unreachable, it.confirmed) for it in (found, aig.Verdict("unreachable"))],
                  [(False, False), (True, False)])
    tally.compare("equal to another", [found == other for other in (aig.Verdict(line), aig.Verdict("x"), 3)],
                  [True, False, False])
    tally.compare("shown", repr(found), "Verdict(line='unreachable within 3', by='bound', frames=3)")
    tally.compare("shown as before", repr(aig.Verdict("confirmed")), "Verdict(line='confirmed')")
    tally.compare("shown with all", repr(aig.Verdict("unreachable", vacuous="no run of 1 frames", notes=["n"])),
                  "Verdict(line='unreachable', vacuous='no run of 1 frames', notes=['n'])")
    truths = {"confirmed": True, "unreachable": True, line: True, "no run of 3 frames": True, "undecided": False,
              "not bad": False, "initial 0": False, "constraint 0 0": False}
    tally.compare("true or false", {line: bool(aig.Verdict(line)) for line in truths}, truths)
    roles = {"base": b"1", "step": b"2", "certificate": b"3"}
    files = (roles, {}, {"proof": b""}, {"shorter": b"4", "witness": b"5"})
    of_files = [aig.Verdict("", files=each) for each in files]
    tally.compare("its proofs", [(it.proof, it.step, it.certificate) for it in of_files],
                  [(b"1", b"2", b"3"), (None, None, None), (b"", None, None), (b"4", None, None)])
    version = re.search(r'VERSION = "(.*)"', (PYTHON / "make_wheel.py").read_text())
    tally.compare("the version of the wheel", aig.__version__, version and version[1])
    said = program.run("--version")  # a program without proofs says so on standard error
    tally.compare("the version of the program", (said.out + said.err).split()[:2], [b"aig", aig.__version__.encode()])
