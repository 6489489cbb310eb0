#!/usr/bin/env python3
"""Concurrent assertions: how aig-verdicts translates them. A plain reading of the standard and Icarus Verilog say what is
right; they share no code with the translation.

usage: run_sva.py [PROGRAM]. It needs iverilog."""

import paths  # noqa: F401
from library import runs
from sva import parts


PARTS = {
    "operators": parts.operators, "first_edges": parts.first_edges, "sample": parts.sample, "rejected": parts.rejected, "live": parts.live,
    "bounded": parts.bounded, "copies": parts.copies, "texts": parts.texts, "many": parts.many,
}


def options(parser):
    parser.add_argument("--seed", type=int, default=1, help="what chooses the properties of the part many (1)")


if __name__ == "__main__":
    runs.main(__doc__, PARTS, outside=("many",), options=options)
