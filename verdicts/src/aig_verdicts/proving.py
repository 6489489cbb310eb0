"""The verdict on a property of a circuit: `prove` and `certify`. They ask solvers, and the toolkit checks what these say."""

from __future__ import annotations

from dataclasses import replace
from typing import Dict, Optional, Union

from aig.certified import Certified
from aig.circuit import Circuit
from aig.entries import Signal
from aig.runs import Witness
from aig.solver import CADICAL, NO_BOUND, Solver, found as found_program, solve
from aig.tools import Stop, Stopped
from aig.verdict import Verdict

from .audit.checked import Checked, Rejected, check, sum_of
from .audit.hints import by_name, claim_of
from .search.decide import decide
from .search.task import Bounds, Found, Programs, Task


def prove(
    circuit: Circuit, property: Signal = 0, frames: int = 20, solver: Solver = CADICAL, *, abc: Optional[str] = None,
    seconds: Optional[float] = None, conflicts: int = 0, stop: Optional[Stop] = None,
) -> Verdict:
    """The verdict on a property: a shortest run of at most so many frames, a proof by induction, an invariant that ABC
    finds if its program is named, or a proof that no run of so many frames reaches it. The toolkit checks them all.

    The bounds are for one question to a solver or to ABC. If they end the search, the verdict is `undecided`, or of
    fewer frames. `stop` ends it when it is called, from a signal or another thread: `prove` then raises `aig.Stopped`.
    """
    if frames < 1:
        raise ValueError("a run has one frame at least")
    bounds = Bounds(frames=frames, conflicts=conflicts, seconds=NO_BOUND if seconds is None else seconds)
    programs = Programs(_as_cadical(solver), abc and found_program(abc))

    def found(position: int) -> Found:
        ended = decide(Task.of(circuit.file, position, bounds=bounds, programs=programs), stop)
        if ended.stopped:
            raise Stopped
        return ended

    found_of_it = found(circuit.position(property))
    verdict = _verdict(circuit, found_of_it)
    if verdict.line.startswith("unreachable") and circuit.info()["constraints"]:
        alive = found(-1)
        if alive.checked is not None and alive.checked.by == "alive":
            return _verdict(circuit, found_of_it, alive)
        return replace(verdict, notes=[*verdict.notes, *alive.notes])
    return verdict


def certify(
    certified: Certified, solver: Solver = CADICAL, *, seconds: Optional[float] = None, conflicts: int = 0,
    stop: Optional[Stop] = None,
) -> Union[Witness, Verdict]:
    """The verdict `unreachable`, if the certificate shows that no run reaches the property. Else a witness of the
    strengthened circuit, which shows which claim of the certificate is wrong. The toolkit checks both. If a bound ends
    the search, the verdict is `undecided`."""
    formula = certified.cnf()
    found = solve(formula, solver, seconds=seconds, conflicts=conflicts, stop=stop)
    if found.model is not None:
        return formula.witness(found.model)
    if found.proof is None:
        return Verdict("undecided", notes=["the solver found no answer within its bounds"])
    files = {"certificate": certified.certificate, "proof": found.proof}
    checked = _check_of(certified, files, stop or Stop())
    return Verdict(checked.line, by=checked.by, files=files, checked=checked)


def _check_of(certified: Certified, files: Dict[str, bytes], stop: Stop) -> Checked:
    """The check of a certificate and its proof."""
    claim = claim_of(certified.position, "certificate", 0, files)
    try:
        return check(claim, certified.circuit.file, by_name(claim, files), stop)
    except Rejected as rejected:
        raise rejected.error from None


def _verdict(circuit: Circuit, found: Found, alive: Optional[Found] = None) -> Verdict:
    """The verdict of a search, by the checks that it made. `alive` says that no run keeps the constraints."""
    checked, vacuous, files = found.checked, "", dict(found.files)
    if checked is None:
        return Verdict("undecided", notes=list(found.notes))
    if checked.circuit != sum_of(circuit.file):
        raise RuntimeError("the check is about another circuit")
    if alive is not None and alive.checked is not None:
        vacuous, files = alive.checked.line, {**files, **alive.files}
    witness = Witness(circuit, files["witness"], files.get("concrete")) if "witness" in files else None
    return Verdict(checked.line, checked.by, checked.frames or None, witness, vacuous, files, list(found.notes),
                   checked)


def _as_cadical(solver: Solver) -> str:
    """The program of a solver that takes the options of cadical."""
    words = [solver] if isinstance(solver, str) else list(solver)
    if words[1:] not in ([], ["-q"]):
        raise ValueError("name a solver that takes the options of cadical, as a text without options")
    return found_program(words[0])
