#!/usr/bin/env python3
"""A forger by chance: bundles are changed at random, with all sums right, and what `recheck` accepts is compared with
what is true. Each seed gives another forgery of each bundle."""

import os

import paths  # noqa: F401
from bundles import chance
from library import runs

# How many forgeries of each bundle, in at most so many processor seconds.
COUNT, SECONDS = 300, 60.0


def by_chance(program, tally, words):
    os.environ["AIG_PROGRAM"] = program.path
    return chance.by_chance(program, tally, words)


def options(parser):
    parser.add_argument("--count", type=int, default=COUNT, help=f"so many forgeries of each bundle (else {COUNT})")
    parser.add_argument("--seed", type=int, default=0, help="the first seed (else 0)")
    parser.add_argument("--seconds", type=float, default=SECONDS,
                        help=f"at most so many processor seconds (else {SECONDS:.0f})")


by_chance.__doc__ = chance.by_chance.__doc__
PARTS = {"by_chance": by_chance}

if __name__ == "__main__":
    runs.main(__doc__, PARTS, options=options)
