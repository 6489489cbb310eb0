#!/usr/bin/env python3
"""Options of `aig-verdicts run` that change what is read of a design: values of parameters (`-P`), and what is free
(`--free`). Icarus Verilog says what is true. It needs yosys, cadical and iverilog."""

import os
import shutil

import paths  # noqa: F401
from library import runs
from options import free, kept, lists, parameters, unread


def with_tools(part):
    """The part, where all programs are there and the package runs the program that is tested."""
    def checked(program, tally, chosen):
        for name in ("yosys", "cadical", "iverilog"):
            if shutil.which(name) is None:
                raise runs.LeftOut(f"there is no {name}")
        os.environ["AIG_PROGRAM"] = program.path
        return part(program, tally, chosen)
    checked.__doc__ = part.__doc__
    return checked


PARTS = {part.__name__: with_tools(part) for part in (
    parameters.values, parameters.places, parameters.refused, parameters.everywhere, parameters.hostile,
    free.signals, free.kept, free.rejected, kept.circuits, lists.lists, unread.unread, unread.same_top)}

if __name__ == "__main__":
    runs.main(__doc__, PARTS)
