#!/usr/bin/env python3
"""Runs aig-verdicts with `aig` alone: bundles that Yosys, cadical and ABC made once are re-checked, forged and flipped;
solvers that crash, hang or lie are scripts of the shell, and one that does neither is written in Python."""

import os

import paths  # noqa: F401
from bundles import (
    attacks, checking, comparing, concrete, cores, crashing, cuts, deciding, denying, dying, emptied, ends, engines,
    equal, folding, hinted, judging, late, lots, lying, many, many_rows, needed, rechecking, remaking, replaying,
    reusing, rows, searches, tampering, zips,
)
from library import runs


def on_program(part):
    """The part, where the package runs the program that is tested."""
    def checked(program, tally, chosen):
        os.environ["AIG_PROGRAM"] = program.path
        return part(program, tally, chosen)
    checked.__doc__ = part.__doc__
    return checked


PARTS = {part.__name__.rstrip("_"): on_program(part) for part in (
    tampering.bits, tampering.forgers, tampering.older, tampering.alive, tampering.harmless, tampering.files,
    tampering.texts,
    zips.zips, zips.hostile_zips, zips.script, zips.shipped,
    folding.folding,
    searches.found, searches.tools, searches.abc, searches.words, searches.demo,
    engines.engines, engines.depths, concrete.concrete,
    hinted.form, hinted.hints, hinted.later, hinted.failures,
    attacks.folders_of_others, attacks.sizes, attacks.outputs,
    ends.stops, ends.total, ends.waits, ends.folders, ends.yosys, ends.bounds, ends.executors, judging.judging,
    many.many, many.taken_over, many_rows.unpacked_once, lying.lies, checking.checking, late.dead, late.late,
    emptied.emptied, dying.dying,
    dying.memory, crashing.crashing, denying.denying, lots.lots,
    rechecking.right, rechecking.harms, rechecking.lines, rechecking.ends_of_aig, rechecking.again, rows.commands,
    rows.names_of_files, rows.folder_files, deciding.workers_, deciding.shared_again, deciding.stopped,
    rechecking.rechecked,
    rows.kinds,
    equal.equal, remaking.remaking, replaying.replaying,
    comparing.changed, comparing.hiding, comparing.moved, comparing.compares,
    reusing.reusing, reusing.stopped_in_its_folder, reusing.open_rows, reusing.lying_baselines, reusing.refused,
    cores.needs, cores.unneeded, cores.afterwards, cores.minimal, cores.contradictions, cuts.forged, cuts.follows,
    cuts.reading, cores.counting,
    cores.garbled, cores.since, cores.failing,
    needed.runs_kept, needed.runs_forged, needed.runs_believed,
    needed.drawn,
)}

if __name__ == "__main__":
    runs.main(__doc__, PARTS)
