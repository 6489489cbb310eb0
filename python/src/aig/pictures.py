"""Pictures for notebooks."""

from __future__ import annotations

from typing import TYPE_CHECKING, List, Optional

if TYPE_CHECKING:
    from .runs import Trace, Witness
    from .verdict import Verdict

MOST_LANES = 24


def svg_of_witness(witness: Witness) -> str:
    """The run of a witness, with the causes of its property in thick lines."""
    from .waves.runs import Told, story
    from .waves.svg import waveform

    concrete = witness.concrete.text if witness.concrete else None
    told = story(Told(witness.circuit), witness.text, "", concrete)
    return waveform(told.lanes, told.run.frames, told.run.frames - 1, f"run to {witness.property}", "reached")


def svg_of_trace(trace: Trace, before: Optional[Trace] = None) -> str:
    """The inputs, latches and outputs of a run. Thick lines are values that another run before does not have."""
    from .waves.signals import Names, labels
    from .waves.svg import Lane, waveform

    signals = Names(trace.entries.all).all
    lanes: List[Lane] = []
    for label, (_, letter, positions) in zip(labels(signals[:MOST_LANES]), signals):
        values, others = (["".join(row[at] for at in reversed(positions)) for row in run.section(letter)] if run else []
                          for run in (trace, before))
        keys = frozenset(at for at, value in enumerate(values) if before and others[at : at + 1] != [value])
        lanes.append(Lane(label, values, keys))
    left = len(signals) - len(lanes)
    return waveform(lanes, len(trace), None, f"run of {len(trace)} frames" + (f", {left} more signals" if left else ""))


def scrolling(svg: str) -> str:
    """A picture as part of a page: it scrolls where it is too wide."""
    return f'<div style="overflow-x:auto">{svg}</div>'


def html_of_verdict(verdict: Verdict) -> str:
    """A verdict, what it was found by, and its run."""
    from .letters import escape

    ways = {"run": f": run of {verdict.frames}", "induction": f": induction of {verdict.frames}",
            "certificate": ": certificate"}
    vacuous = f"<p>Vacuous: {escape(verdict.vacuous)} keeps the constraints.</p>" if verdict.vacuous else ""
    notes = f"<p>{'; '.join(map(escape, verdict.notes))}</p>" if verdict.notes else ""
    picture = scrolling(verdict.witness.svg()) if verdict.witness else ""
    return f"<p><b>{escape(verdict.line)}</b>{ways.get(verdict.by, '')}</p>{vacuous}{notes}{picture}"
