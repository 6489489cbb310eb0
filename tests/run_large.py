#!/usr/bin/env python3
"""Runs the built program on files of more than its blocks, on long scripts, and on files that were chosen to be slow.
Three parts run only where they are asked for. `deep` has circuits as deep and as wide as the limits allow (minutes, 1
GB of memory, 500 MB of files). `claims` measures the memory for small files that claim millions of entries. `proofs`
has proofs that are slow to check, beside the C++ program of `benchmarks/tuned`."""

from large.block_edges import block_edges
from large.claims import claims
from large.crowded_names import NAMES, crowded_names
from large.deep import deep
from large.explanations import explanations
from large.files import large_files
from large.first_literals import first_literals
from large.hostile_proofs import hostile_proofs
from large.hubs import hubs
from large.limits import limits
from large.long_clauses import long_clauses
from large.long_run import long_run
from large.own_names import own_names
from large.prompts import prompts
from large.reductions import reductions
from large.unread_gates import unread_gates
from large.walks import walks
from library import runs

PARTS = {"block_edges": block_edges, "files": large_files, "long_run": long_run, "names": crowded_names, "hubs": hubs,
         "limits": limits, "own_names": own_names, "prompts": prompts, "reductions": reductions,
         "explanations": explanations, "walks": walks, "first_literals": first_literals, "long_clauses": long_clauses,
         "unread_gates": unread_gates, "deep": deep, "claims": claims, "proofs": hostile_proofs}


def options(parser):
    parser.add_argument("--names", type=int, default=NAMES, help="how many names the part `names` has")
    parser.add_argument("--unread", type=int, default=100_000, help="how many gates are not read in `unread_gates`")
    parser.add_argument("--readers", type=int, default=200_000, help="how many gates read the net of the part `hubs`")


if __name__ == "__main__":
    runs.main(__doc__, PARTS, outside=("deep", "claims", "proofs"), options=options)
