#!/usr/bin/env python3
"""Runs the program aig_tests: it marks each step of proofs about formulas that no circuit has, says what edits of
benches cost in each grid, and makes calls that no command makes."""

from library import runs
from steps.all_assignments import all_assignments
from steps.at_random import at_random, options
from steps.calls import calls
from steps.credit import credit
from steps.definitions import definitions
from steps.edges import edges
from steps.edits import edits
from steps.extended import added_variables, more_pigeons, pigeon_holes, tables
from steps.hinted import hinted
from steps.kept import kept
from steps.listed import listed
from steps.names import names
from steps.solved import solved

PROVED = runs.REPOSITORY + "/crates/aig_tests/out/aig_tests"
PARTS = {"at_random": at_random, "all_assignments": all_assignments, "hinted": hinted, "pigeons": pigeon_holes,
         "added_variables": added_variables, "tables": tables, "listed": listed, "kept": kept,
         "credit": credit, "edges": edges,
         "definitions": definitions, "names": names, "edits": edits, "calls": calls, "more_pigeons": more_pigeons,
         "solved": solved}

if __name__ == "__main__":
    runs.main(__doc__, PARTS, outside=("more_pigeons", "solved"), options=options, proved=PROVED)
