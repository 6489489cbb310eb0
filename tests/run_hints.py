#!/usr/bin/env python3
"""Runs `aig refute` and aig_tests on proofs with hints (LRAT): random ones, large ones, hostile ones, and those that
a program in C++ makes of proofs in DRAT. A part that needs a compiler of C++ is left out where there is none."""

from hints.formulas import formulas, options
from hints.hostile import hostile
from hints.pipes import pipes
from hints.sizes import sizes
from hints.translated import translated
from library import runs

PARTS = {"formulas": formulas, "translated": translated, "sizes": sizes, "pipes": pipes, "hostile": hostile}

if __name__ == "__main__":
    runs.main(__doc__, PARTS, options=options)
