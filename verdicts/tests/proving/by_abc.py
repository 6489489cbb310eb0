"""`prove` with a program in the place of ABC: what it knows is an answer once `aig` has checked it."""

import aig
from aig_verdicts import prove
from bundles.common import FEW, SMALL_SOLVER, tool
from bundles.searches import FALSE, KNOWS
from package.common import STAYS, raised

# That no run reaches a state where the latch is 1, as ABC writes it.
ZERO = FALSE.replace("- 1", "1 1")


def by_abc(_, tally, __):
    """A run that is longer than the search goes, an invariant, and a wrong one, where the solver has no answer about
    inductions."""
    few, stays = aig.read(FEW), aig.Circuit(STAYS)
    none = tool("none", "exit 3")
    knows = tool("knows", KNOWS.format(2))
    for name, program, wanted in (("without", None, ("undecided", "", None)), ("with", knows, ("confirmed", "run", 3))):
        found = prove(few, "two", frames=1, solver=none, abc=program)
        tally.compare(f"a run, {name} it", (found.line, found.by, found.frames), wanted)
        tally.compare(f"its witness, {name} it", found.witness and len(found.witness.rows), wanted[2])
    no_step = tool("no_step", f'grep -q "^c aig cnf --step" cnf && exit 3; exec {SMALL_SOLVER} "$@"')
    for name, program, wanted in (
            ("no", None, ("unreachable within 1", "bound")), ("an", tool("zero", ZERO), ("unreachable", "certificate")),
            ("a wrong", tool("wrong", FALSE), ("unreachable within 1", "bound"))):
        found = prove(stays, frames=1, solver=no_step, abc=program)
        tally.compare(f"{name} invariant", (found.line, found.by), wanted)
        if found.certificate:
            tally.compare("its proof", stays.certified(found.certificate).refute(found.proof), "unreachable")
        tally.compare(f"{name} invariant: notes", any("a certificate that is wrong" in it for it in found.notes),
                      name == "a wrong")
    ones = aig.Circuit("aag 3 1 1 0 1 1\n2\n4 7 1\n5\n6 2 5\n")  # latch 4 starts at 1 and stays so
    found = prove(ones, frames=1, solver=no_step, abc=tool("zero", ZERO))
    tally.compare("an invariant of a latch that starts at 1", (found.line, found.by), ("unreachable", "certificate"))
    error = raised(prove, stays, solver=none, abc="no-such-abc")
    tally.check("a program that is missing", isinstance(error, FileNotFoundError) and "no-such-abc" in str(error), error)
