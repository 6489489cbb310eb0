"""`prove` and `certify`, their bounds, and the verdicts that they return."""

import os
import shutil
import threading

import aig
from aig_verdicts import certify, prove
from library import runs
from package.common import CHAIN, CLAIMS_0, CLAIMS_1, STAYS, chain_of, example, need, raised, small_solver


def solvers(_, tally, __):
    """`prove` and `certify` with cadical."""
    need("cadical")
    wraps, stays, chain = example("wraps.aag"), aig.Circuit(STAYS), aig.Circuit(CHAIN)
    found = prove(wraps, "wraps")
    tally.compare("a bug", (found, found.by, found.frames, found.witness.rows), ("confirmed", "run", 4, ["1"] * 4))
    tally.compare("no shorter one", wraps.refute(3, found.proof), "unreachable within 3")
    bound = prove(wraps, "wraps", frames=3)
    tally.compare("no bug within 3", (bound, bound.frames, bool(bound)), ("unreachable within 3", 3, True))
    tally.compare("its proof", wraps.refute(3, bound.proof), "unreachable within 3")
    holds = prove(stays)
    tally.compare("no bug", (holds, holds.by, holds.unreachable, holds.confirmed, holds.witness),
                  ("unreachable", "induction", True, False, None))
    tally.compare("its proofs", stays.refute(holds.frames, holds.proof, step=holds.step), "unreachable")
    for position in (0, 11, 12):
        found = prove(chain, f"p{position}", frames=12)
        tally.compare(f"property {position}", (found.line, found.witness and found.witness.position),
                      {0: ("unreachable", None), 11: ("confirmed", 11), 12: ("unreachable within 12", None)}[position])
    tally.check("no frames", isinstance(raised(prove, wraps, frames=0), ValueError))
    tally.compare("one frame", prove(wraps, frames=1), "unreachable within 1")
    tally.compare("20 frames", prove(aig.Circuit(chain_of(24)), 24), "unreachable within 20")
    contradict = aig.Circuit("aag 2 2 0 0 0 1 2\n2\n4\n4\n2\n3\n")
    both = prove(contradict, frames=2)
    tally.compare("vacuous", (both.line, both.vacuous), ("unreachable", "no run of 2 frames"))
    tally.compare("its proof", both.witness or contradict.refute_alive(2, both.files["alive"]), both.vacuous)
    tally.compare("not vacuous", prove(chain, 0).vacuous, "")
    certified = stays.certified(CLAIMS_0)
    found = certify(certified)
    tally.compare("certified", (found, found.by), ("unreachable", "certificate"))
    tally.compare("its certificate", found.certificate, certified.certificate)
    tally.compare("its proof is checked", certified.refute(found.proof), "unreachable")
    witness = certify(stays.certified(CLAIMS_1))
    tally.compare("a wrong certificate", (witness.property, witness.circuit.check(witness).line), ("b0", "confirmed"))
    error = raised(prove, stays, 0, 1, "no-such")
    tally.check("no solver", isinstance(error, FileNotFoundError) and "no-such" in str(error), error)
    tally.compare("a solver that fails to prove", prove(stays, solver=shutil.which("false")), "undecided")
    tally.check("options for prove", isinstance(raised(prove, stays, solver=["cadical", "--sat"]), ValueError))


def small(_, tally, __):
    """Each verdict by a small solver, which is there where cadical is not, and what shows it."""
    small_solver("small")
    chain, stays = aig.Circuit(chain_of(4)), aig.Circuit(STAYS)
    for position, wanted in ((0, ("unreachable", "induction", 1, "")), (3, ("confirmed", "run", 4, "")),
                             (4, ("unreachable within 4", "bound", 4, ""))):
        found = prove(chain, f"p{position}", frames=4, solver="./small")
        tally.compare(f"property {position}", (found.line, found.by, found.frames, found.vacuous), wanted)
        said = chain.refute(found.frames - (position == 3), found.proof, position, step=found.step)
        tally.compare(f"its proof, {position}", said, {3: "unreachable within 3"}.get(position, found.line))
        tally.compare(f"its run, {position}", found.witness and found.witness.position, 3 if position == 3 else None)
    free = aig.Circuit("aag 5 3 0 0 2 1\n2\n4\n6\n10\n8 7 5\n10 9 2\n")
    run = prove(free, frames=1, solver="./small").witness
    tally.compare("the values of a run", [one in ("x", other) and other in "01" for one, other in
                                          zip(run.rows[0], run.concrete.rows[0])], [True] * 3)
    tally.compare("they are those of a run", (run.rows[0].count("x"), free.check(run.concrete).line), (1, "confirmed"))
    last = aig.Circuit("aag 1 1 0 0 0 13\n2\n" + "0\n" * 12 + "2\n")
    tally.compare("property 12 of 13", prove(last, 12, frames=1, solver="./small").line, "confirmed")
    contradict = aig.Circuit("aag 2 2 0 0 0 1 2\n2\n4\n4\n2\n3\n")
    both = prove(contradict, frames=2, solver="./small")
    tally.compare("vacuous", (both.line, both.vacuous), ("unreachable", "no run of 2 frames"))
    tally.compare("its proof", contradict.refute_alive(2, both.files["alive"]), both.vacuous)
    certified = stays.certified(CLAIMS_0)
    found = certify(certified, "./small")
    tally.compare("certified", (found, found.by), ("unreachable", "certificate"))
    tally.compare("its certificate", found.certificate, certified.certificate)
    tally.compare("its proof is checked", certified.refute(found.proof), "unreachable")
    witness = certify(stays.certified(CLAIMS_1), "./small")
    tally.compare("a wrong certificate", witness.circuit.check(witness).line, "confirmed")


def bounds(_, tally, __):
    """Searches that are ended: by a bound, and by another thread."""
    wraps = example("wraps.aag")
    written = {"slow": "sleep 60", "gives_up": "exit 0", "counts": 'case "$*" in *"-c 7"*) exit 0;; esac; exit 1',
               "lies": "echo 0 > proof; exit 20"}
    for name, body in written.items():
        runs.write(name, f"#!/bin/sh\n{body}\n")
        os.chmod(name, 0o755)
    found = prove(wraps, solver="./slow", seconds=1)
    tally.compare("prove", (found, bool(found), found.files, len(found.notes)), ("undecided", False, {}, 1))
    tally.check("prove: after so many seconds", "did not end in 1 s" in found.notes[0], found.notes)
    found = prove(wraps, solver="./counts", conflicts=7)
    tally.check("prove: the bound is that of the solver", "within its bounds" in found.notes[0], found.notes)
    certified = aig.Circuit(STAYS).certified(CLAIMS_0)
    for name, limits in (("gives_up", {"seconds": 5}), ("counts", {"conflicts": 7})):
        found = certify(certified, f"./{name}", **limits)
        tally.compare(f"certify: {name}", (found, len(found.notes)), ("undecided", 1))
    error = raised(certify, aig.Circuit(STAYS).certified(CLAIMS_1), "./lies")
    tally.check("certify: a wrong proof", isinstance(error, aig.AigError) and error.part == "proof", error)
    calls = (("prove", prove, (wraps, 0, 20, "./slow")), ("certify", certify, (certified, "./slow")))
    for name, call, words in calls:
        stop = aig.Stop()
        timer = threading.Timer(0.3, stop)
        timer.start()
        error = raised(call, *words, stop=stop)
        timer.join()
        tally.check(f"{name} is stopped", isinstance(error, aig.Stopped), error)
