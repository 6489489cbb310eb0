"""Solvers that are right but for one question: no verdict rests on their word."""

from __future__ import annotations

from pathlib import Path

from aig_verdicts.audit.checked import Claim, Wrong, sum_of
from aig_verdicts.search.decide import decide
from aig_verdicts.search.task import Bounds, Programs, Task
from aig_verdicts.audit.recheck import check_claim
from aig_verdicts.audit.row import name_of
from aig.tools import Stop
from bundles.common import FEW, SMALL_SOLVER, tool
from bundles.many import circuit, position

FRAMES = 3
# The seconds of each question: more than a solver that is right needs on a busy machine.
SECONDS = 1000.0
# What a solver says at one question: that there is no model, with a proof of nothing, or that there is this model.
LIES = {
    "no model": 'for last; do :; done; echo 0 > "$last"; exit 20',
    "no proof": 'for last; do :; done; : > "$last"; exit 20',
    "a model": 'echo "s SATISFIABLE"; echo "v 1 -2 3 0"; exit 10',
}
# Two constraints that contradict each other in frame 1, when the latch is 1, and a property that is never reached.
CONTRADICTS = b"aag 2 1 1 0 0 1 2\n2\n4 1\n0\n2\n5\n"
# For a circuit, a position and a number of frames: the verdict that is true, and how many questions the search asks.
TRUE = {
    "a run": (circuit(), position("cover", 0), FRAMES, "confirmed", 5),
    "a run that may wait": (FEW.read_bytes(), 2, FRAMES, "confirmed", 6),
    "a run that may wait for longer": (FEW.read_bytes(), 2, FRAMES + 1, "confirmed", 5),
    "an induction": (circuit(), position("induction", 0), FRAMES, "unreachable", 2),
    "a bound": (circuit(), position("bound", 0), FRAMES, f"unreachable within {FRAMES}", 6),
    "a run of the constraints": (circuit(), -1, FRAMES, "alive", 1),
    "no run of the constraints": (CONTRADICTS, -1, FRAMES, f"no run of {FRAMES} frames", 1),
}
# An invariant that is none.
INVARIANT = 'printf ".i 1\\n.o 1\\n.ilb l0\\n.ob inv\\n- 1\\n.e\\n" > inv.pla; echo "Property proved"'


def lies(_, tally, __):
    """At each question in turn another answer: the verdict is the true one, a smaller bound, or none, and its files
    show it."""
    for name, (text, at, frames, true, count) in TRUE.items():
        tally.compare(f"lies: {name}, without one", found_by(text, at, frames, SMALL_SOLVER).verdict, true)
        for lie, body in LIES.items():
            for question in range(count if lie == "no model" else min(count, 2)):
                found = found_by(text, at, frames, liar(body, question))
                bounds = [f"unreachable within {it}" for it in range(1, bound_of(true))]
                is_less = found.verdict in ("undecided", *bounds)
                tally.check(f"lies: {name}, {lie} at {question}", found.verdict == true or is_less, found.verdict)
                tally.compare(f"lies: {name}, {lie} at {question}: shown", why_wrong(text, found), "")
    abc = tool("abc.sh", INVARIANT)
    for question in range(4):
        text, at = circuit(), position("run", 0)
        found = found_by(text, at, FRAMES, liar(LIES["no model"], question), abc)
        tally.compare(f"lies: a wrong invariant, at {question}",
                      (found.verdict == "unreachable", why_wrong(text, found)), (False, ""))


def liar(body, question):
    """A solver that is right but for one question."""
    asked = Path("asked").resolve()
    asked.write_text("")
    words = f'echo x >> {asked}; [ $(wc -l < {asked}) = {question + 1} ] && {{ {body}; }}'
    return tool("liar", f'{words}\nexec {SMALL_SOLVER} "$@"')


def bound_of(true):
    """Above the bounds that are true as well."""
    return {"confirmed": FRAMES, "unreachable": FRAMES + 1}.get(true, FRAMES)


def found_by(text, at, frames, solver, abc=None):
    return decide(Task.of(text, at, Bounds(frames=frames, seconds=SECONDS), Programs(solver, abc)))


def why_wrong(text, found):
    """What `aig` says against what was found."""
    files = {name_of(found.position, role): data for role, data in found.files.items()}
    named = tuple((role, name_of(found.position, role)) for role in found.files)
    claim = Claim(found.position, found.by, found.frames, named)
    if not found.by:
        return "" if found.verdict == "undecided" else f"nothing shows {found.verdict}"
    try:
        checked = check_claim(claim, text, files.__getitem__, Stop())
    except Wrong as error:
        return str(error)
    if found.checked is None or not found.checked.is_about(claim, sum_of(text), found.files):
        return "its check is about something else"
    return "" if checked.line == found.verdict else "another line"
