"""Why a proof or a model of a SAT solver is rejected."""

from __future__ import annotations

from typing import NamedTuple, Optional, Sequence, Union

from .files import Hidden
from .kinds import kind_at, push
from .lines import Lines, first, place
from .steps import BINARY, HINTED, TEXT, Goal, Walk, number_of
from .unrolled import variables

FORMULAS = {
    "runs": "for the same K, P and CIRCUIT",
    "alive": "--alive for the same K and CIRCUIT",
    "step": "--step for the same K, P and CIRCUIT",
    "certificate": "--certificate for the same P, CERTIFICATE and CIRCUIT",
}
# What a solver says that has no model, and which formula its model has to be of.
MODELS = {
    "runs": ("no run reaches the bad state within K frames; aig refute checks its proof",
             "for the same K, P, CIRCUIT and --step"),
    "alive": ("no run keeps all constraints for K frames; aig refute --alive checks its proof",
              "--alive for the same K and CIRCUIT"),
    "certificate": ("the certificate is right; aig refute checks its proof",
                    "--certificate for the same P, CERTIFICATE and CIRCUIT"),
}
# Kinds of files that are not said of a model: an answer is one, and the others are proofs.
KINDS_OF_MODELS = {"answer": None, "frat": "proof", "binary lrat": "proof"}


class Formula(NamedTuple):
    """The formula of a run: what it is about, its options of `aig cnf`, and the circuit if it is seen again."""

    about: str
    options: Sequence[str]
    circuit: Optional[bytes]

    def variables(self, is_step: bool) -> Optional[int]:
        return None if self.circuit is None else variables(self.circuit, ["--step"] * is_step + [*self.options])


def why_rejected(fault: str, spelling: str) -> str:
    """Why a proof is rejected, in general. Without a spelling it is not seen again."""
    if fault.startswith("text"):
        return "this is no step of a proof in DRAT or LRAT, or the file is cut off"
    if fault == "no refutation":
        return "the proof ends before it refutes the formula"
    return {
        HINTED: "the clause of this step does not follow by its hints, or its number is not greater than all before it",
        "": "the clause that this step adds was not found to follow",
    }.get(spelling, "the clause that this step adds does not follow by unit propagation, nor is it a resolution"
                    " asymmetric tautology")


def goal_of(fault: str) -> Goal:
    """Where a proof is rejected."""
    kind, _, number = fault.partition(" ")
    if kind == "step":
        return Goal(step=int(number))
    return Goal(byte=int(number.split()[-1])) if kind == "text" else Goal()


def push_proof(lines: Lines, proof: Union[bytes, Hidden], formula: Formula, fault: str) -> None:
    """Why a proof is rejected, which may not be seen again."""
    if isinstance(proof, Hidden):
        lines.add(why_rejected(fault, ""), *proof.lines)
        push_about(lines, formula.about, fault, "")
        return
    walk = Walk(proof, goal_of(fault))
    known = kind_at(proof, walk.word)
    lines.add(why_rejected(fault, walk.spelling))
    if fault.startswith("text"):
        push_word(lines, walk)
        if not walk.is_first_word:
            push_step(lines, walk)
    elif fault.startswith("step"):
        push_step(lines, walk)
        if known is None:
            push_variables(lines, walk, formula)
    else:
        lines.add(f"its number of steps: {walk.step.number}")
    if known:
        push(lines, known, "proof")
    else:
        if walk.wanted:
            lines.add(f"wanted: {walk.wanted}")
        push_about(lines, formula.about, fault, walk.spelling)


def push_word(lines: Lines, walk: Walk) -> None:
    """The word that is rejected, or the end of the file."""
    at = walk.at if walk.is_over else len(walk.data)
    where = f"byte {at}" if walk.spelling == BINARY else place(walk.data, at)
    lines.add(f"{where}: found `{first(walk.word)}`" if walk.is_over else f"{where}: the file ends here")


def push_step(lines: Lines, walk: Walk) -> None:
    """The last step that was read, if there is one."""
    step = walk.step
    if not step.number:
        return
    where = f"at byte {step.at}" if walk.spelling == BINARY else f"in line {walk.data.count(10, 0, step.at) + 1}"
    what = ("deletes" if step.is_deletion else "adds") + " the clause"
    if walk.spelling == HINTED:
        what = "deletes the clauses numbered" if step.is_deletion else f"numbered {step.own}, adds the clause"
    lines.add(f"step {step.number}, {where}, {what} `{first(step.clause)}`")


def push_variables(lines: Lines, walk: Walk, formula: Formula) -> None:
    """The step that is rejected may name a variable that the formula does not have. A proof may have such variables,
    but one about another formula has them too."""
    count = formula.variables(formula.about == "step") if formula.about in ("runs", "step") else None
    if count is not None and count < walk.step.greatest:
        lines.add(f"the formula has {count} variables, and this step names variable {walk.step.greatest}")


def push_about(lines: Lines, about: str, fault: str, spelling: str) -> None:
    """Which formula the proof has to be about, or what the solver has to write."""
    if fault.startswith("text"):
        lines.add("have the solver write DRAT, or LRAT as text, to its end")
        return
    lines.add(f"it has to be about the formula of aig cnf {FORMULAS[about]}; an older aig wrote one with other numbers")
    if fault.startswith("step") and spelling == HINTED:
        lines.add("its hints number the clauses of the formula from 1, in the order in which aig cnf prints them")
    if about == "certificate":
        lines.add("or the certificate is wrong: give a solver's model to aig witness --certificate --model to see which"
                  " claim fails")


def push_model(lines: Lines, model: Union[bytes, Hidden], formula: Formula, fault: str) -> None:
    """Why a solver's model is rejected."""
    said, same = MODELS[formula.about]
    if fault == "unsatisfiable":
        lines.add(f"the solver says that {said}")
    elif fault == "unknown":
        lines.add("the solver gave up before it found an answer")
    elif isinstance(model, Hidden):
        lines.add(*model.lines)
    elif push_model_text(lines, model, formula, int(fault.split()[-1])):
        return
    lines.add(f"it has to be of the formula of aig cnf {same}")


def push_model_text(lines: Lines, model: bytes, formula: Formula, at: int) -> bool:
    """What is wrong at a place of a model. Returns whether the file is something else."""
    walk = Walk(model, Goal(byte=at), TEXT)
    variable = number_of(walk.word)
    is_literal = walk.is_over and walk.step.number <= 1 and variable > 0
    push_word(lines, walk)
    if not walk.is_over:
        lines.add("wanted: the 0 that ends the literals")
    elif walk.step.number > 1:
        lines.add("wanted: nothing after the 0 but comments, which are lines that begin with c")
    elif is_literal:
        lines.add("its variable is not one of the formula, or its negation is named before")
    else:
        lines.add("wanted: a literal of the formula, or the 0 that ends the literals")
    count = formula.variables(False) if is_literal and formula.about == "runs" else None
    if count is not None and count < variable:
        lines.add(f"the formula has {count} variables, and that of --step {formula.variables(True)}")
    known = kind_at(model, walk.word)
    kind = KINDS_OF_MODELS.get(known, known) if known else None
    if kind:
        push(lines, kind, "model")
    return kind is not None
