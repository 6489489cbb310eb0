"""The words and sentences that state a verdict: tables, pages and terminals print these, and no others. decisions.py has
what they are about. In a sentence `..` is code, and **..** is bold. Who audits a `recheck` reads this file, too."""

from __future__ import annotations

from typing import Callable, Final, List, Mapping, NamedTuple, Optional, Sequence

from .cycles import Moment
from .pieces import Needs, folded
from .pieces import is_own as is_own_register
from .row import LEFT_OUT, Row

# The result of a row that a simulator denies.
DISAGREES: Final = "disagrees"
DENIED = "denied by the simulator"
# What is said of the sources.
SAME_CIRCUIT, NOT_COMPARED = "Yosys makes the same circuit of the sources", "Not compared with the sources"
EQUAL_CIRCUIT = "Yosys makes a circuit of the sources that does the same"
NOT_SIMULATED = "Not compared with a simulator"
# Why a row is vacuous, or may be.
NEVER_ASKED = "its condition is never true: nothing is asserted in any run"
PERHAPS_ASKED = "whether its condition is ever true is not decided"
CONDITION_NOT_ASKED = "whether it has a condition that is never true was not asked"
IN_DOUBT = "in doubt"
PERHAPS_KEPT = "whether some run keeps the assumptions is not decided"
# What is said of a property of the input that has no verdict, and why it has none.
NOT_LOOKED_AT = "not looked at"
LIVE, JUSTICE = "it asks for liveness", "a justice property asks for liveness"
ELSEWHERE = "it is in no instance below the top module, or under an `if` or `ifdef` that is constant"


class Group(NamedTuple):
    """How the page calls all rows of a result, and what they say."""

    title: str
    sentence: str


# In the order of the page. What was left out has no group.
GROUPS = {
    "fails": Group("Fails", "A run of the design violates the assertion."),
    "never": Group("Never reached", "No run of any length does what the cover asks for."),
    DISAGREES: Group("Denied", "In a simulator of the sources this does not happen. Until somebody has looked at both "
                     "sides, there is no verdict."),
    "vacuous": Group("Vacuous", "Nothing violates the assertion, but only because nothing is asked of any run. Most "
                     "often an assumption or a condition is wrong."),
    "undecided": Group("Undecided", "No verdict. The notes say what ended the search."),
    "bounded": Group("Within a bound", "No run of so many frames does it. Of longer runs nothing is known."),
    "holds": Group("Holds", "No run of any length violates the assertion."),
    "reached": Group("Reached", "A run does what the cover asks for."),
}
# What rows of each kind are called, and how many there are of a result, in the order of the last line.
COUNTED = {
    "assert": ("assertion", {"fails": "fail", DISAGREES: DENIED, "holds": "hold",
                             "bounded": "hold for the frames searched", "vacuous": "vacuous",
                             "undecided": "undecided", LEFT_OUT: LEFT_OUT}),
    "cover": ("cover", {"reached": "reached", DISAGREES: DENIED, "never": "never reached",
                        "bounded": "not reached within the bound", "vacuous": "vacuous",
                        "undecided": "undecided", LEFT_OUT: LEFT_OUT}),
}


class Remark(NamedTuple):
    """What has to be said beside a result: what it is about, a sentence that may have names of a design, and whether it
    is a warning."""

    head: str
    text: str
    is_warning: bool = False


def counted(count: object, name: str) -> str:
    """A number of things."""
    return f"{count} {name}" if count == 1 else f"{count} {name}{'es' if name.endswith('ch') else 's'}"


def words(result: str, row: Row) -> str:
    """The words of a result."""
    if result == "bounded":
        return f"{'not reached' if row.kind == 'cover' else 'holds'} within {row.frames}"
    return in_words(result)


def in_words(result: str) -> str:
    """The words of a result that has no bound."""
    return "never reached" if result == "never" else result


def way(row: Row) -> str:
    """How a verdict was found."""
    shown = {"run": f"run of {row.frames}", "induction": f"induction of {row.frames}", "certificate": "invariant"}
    return shown.get(row.by, "")


# -- a run


def mark(row: Row) -> str:
    """What happens at the last frame of a run, in one word."""
    return "reached" if row.kind == "cover" else "fails"


def happens(row: Row) -> str:
    """The same with its subject."""
    return "the cover is reached" if row.kind == "cover" else "the assertion fails"


def fact(row: Row, moment: Optional[Moment]) -> str:
    """What a run does, and when."""
    seen = row.frames - 1
    when = f" at {moment}" if moment else ""
    if moment is None or moment.number != seen:
        when += f", seen at frame {seen}"
    return f"{row.name} {'is reached' if row.kind == 'cover' else 'fails'}{when}"


def of_run(row: Row, moment: Optional[Moment]) -> str:
    """The same as sentences, and whether the run is the shortest one."""
    said, seen = happens(row).capitalize(), row.frames - 1
    if moment is None:
        when = f"{said}, as frame {seen} of the run shows, whatever the x are."
    elif moment.number == seen:
        when = f"{said} at {moment}, whatever the x are."
    else:
        when = f"{said} at {moment}, whatever the x are: the clock's edge at its end samples these values, and the property is 1 at frame {seen}."
    if row.frames == 1:
        return when
    if "shorter" in row.files:
        return f"{when} No run of {counted(seen, 'frame')} does: that is checked too."
    return f"{when} **A shorter run may exist.**"


# -- a proof


def of_proof(row: Row, is_constrained: bool) -> str:
    """What a proof shows: of which runs, and where the property is 1."""
    runs = "run that begins as the resets allow" + (" and keeps all assumptions" if is_constrained else "")
    what = f"property `b{row.position}` of `circuit.aig`"
    meaning = "where the cover happens" if row.kind == "cover" else "where the assertion is violated"
    if row.by == "bound":
        return (f"In no {runs} is {what} 1 within the first {counted(row.frames, 'frame')}. "
                f"Longer runs were not decided. It is 1 {meaning}.")
    return f"In no {runs}, of any length, is {what} ever 1. It is 1 {meaning}."


def how(row: Row, sizes: Mapping[str, str]) -> str:
    """How a proof shows it. Of each role it has the size of its file; of a certificate how many parts it has."""
    if row.by == "induction" and row.frames == 1:
        return (f"By induction: it is 1 at no start (proof of {sizes['base']}), and after no step from a frame where "
                f"it was 0 (proof of {sizes['step']}).")
    if row.by == "induction":
        return (f"By induction of {row.frames} frames: it is 1 in the first {row.frames} frames of no run (proof of "
                f"{sizes['base']}), and never right after {row.frames} frames in which it was 0 (proof of "
                f"{sizes['step']}).")
    if row.by == "certificate":
        return (f"By an invariant: a certificate of {sizes['certificate']}, and a proof of {sizes['proof']} that it is "
                "right.")
    ended = f"No induction of up to {counted(row.frames, 'frame')} and no invariant was found."
    return f"Proof of {sizes['base']}. {'The notes say what ended the search.' if row.notes else ended}"


# -- what a proof needs


def of_needs(needs: Needs) -> str:
    """What a proof needs, in short."""
    if needs.is_trivial:
        return "nothing: trivial"
    is_own = needs.registers and all(map(is_own_register, needs.registers))
    registers = "its own registers alone" if is_own else _counted(len(folded(needs.registers)), "register")
    said = f"{registers}, {_counted(len(needs.assumptions), 'assumption')}" if needs.of_any else registers
    return f"{said}; {_of_every(needs)}" if needs.every else said


def _of_every(needs: Needs) -> str:
    """How much of that every proof needs."""
    shown, every = folded(needs.registers), needs.of_every
    found = len({*shown} & {*folded(every.registers)}) + len(every.assumptions)
    if found == len(shown) + len(needs.assumptions):
        return "each of these is needed"
    return f"{found} of these {'is' if found == 1 else 'are'} needed"


def _counted(count: int, name: str) -> str:
    return counted(count, name) if count else f"no {name}"


def of_core(needs: Needs) -> str:
    """The same as sentences."""
    if needs.is_trivial:
        return ("**It needs nothing**: with any next states and resets of all registers, and without assumptions, the "
                "property is never 1. It may say less than it seems to.")
    if not needs.registers:
        return ("**It needs no register**: its proof is about a circuit in which all registers may be anything. "
                "It follows from the assumptions below alone.")
    return ("Its proof is about a circuit in which all other registers may be anything, and no other assumption is "
            "made: **all of these together** are not needed.")


# What the page says of the pieces that every proof needs.
EVERY = ("**Every proof needs** what has a thick border: a run reaches the property where that alone is cut, and `aig check` "
         "confirmed it.")
# What the page says of all proofs together. It is filled with the number of proofs.
UNNEEDED = ("**All of these together** may be anything: `aig refute` checked the proofs of {} on circuits in which they "
            "are. Rows that fail may depend on them.")
OTHER_PROOFS = "**Of {} more, only a proof of the whole circuit is known**, so they may need some of these."
LINES = ("The number is how many rows need a register that the line declares or writes, or an assumption that it makes; "
         "**none** is where no proof does. Registers are found in the text by the names that Yosys gave them. That is for "
         "display, and nothing checks it.")


def no_proof_needs(found: Needs, proofs: int, others: int) -> str:
    """The assumptions that no proof needs, on a terminal."""
    if not found.assumptions or proofs == 0:
        return ""
    of = "no proof needs" if others == 0 else f"none of the {proofs} proofs whose needs are known needs"
    these = "this assumption" if len(found.assumptions) == 1 else "these assumptions"
    return f"{of} {these}: {', '.join(found.assumptions)}"


# -- the assumptions


def never_kept(frames: int) -> str:
    """Why a row is vacuous: the assumptions contradict each other."""
    return f"no run keeps the assumptions for {frames} frames"


def kept_for(frames: int) -> str:
    """Why a row may be vacuous: the run that keeps the assumptions is shorter than the search, and comes back to no state."""
    return f"the assumptions are known to be kept for {counted(frames, 'frame')}, which is less than was searched"


def of_assumptions(rows: Sequence[Row], comes_back: Callable[[Row], bool]) -> List[str]:
    """The longest run that keeps the assumptions, and whether their own run shows that they can be kept for ever."""
    runs = [row for row in rows if row.by in ("run", "kept")]
    if not runs:
        return []
    longest = max(runs, key=lambda row: row.frames)
    found = [f"A run of {counted(longest.frames, 'frame')} keeps the assumptions: `{longest.files['witness']}`."]
    for kept in [row for row in runs if row.by == "kept"][:1]:
        found.append(f"`{kept.files['witness']}` comes back to a state, so they can be kept for ever."
                     if comes_back(kept) else "**Whether a run keeps them for ever is not known.**")
    return found


def short_runs(alive: Row) -> str:
    """The same of a run that comes back to no state, on a terminal: rows may be about short runs alone."""
    return f"the assumptions are kept for {alive.frames} frames; whether for more is not known, so `holds` may be about so many frames alone"


# -- what to believe


def is_proved(aig: str) -> bool:
    """Whether the program that checked the verdicts is proved, by what it says of itself. If it says nothing, it is not."""
    return " (proved" in aig


PROVED = ("**Checked by a verified program.** Each verdict on this page is a line that `aig` printed about `circuit.aig`. "
          "Each function of `aig` is proved to meet its contract, so no solver, model checker or script has to be "
          "trusted for these lines. Anybody checks all of them again, with `aig` alone: `sh recheck.sh` or "
          "`aig-verdicts recheck FOLDER`.")
UNPROVED = ("**Checked by a program that is not proved.** Each verdict on this page is a line that `aig` printed about "
            "`circuit.aig`. That `aig` was built without its proofs: have a proved one check all lines again, by "
            "`sh recheck.sh` or `aig-verdicts recheck FOLDER`.")
NOT_PROVED = ("**Not proved.** That the circuit is the design's rests on Yosys; so do the names and the places of "
              "assertions. This page, its waveforms and the grouping into vacuous and not are made by a tested program "
              "in Python. Assumptions are taken as they are written.")
