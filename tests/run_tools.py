#!/usr/bin/env python3
"""Runs the built program beside Yosys and ABC, on files that these write and on runs that they find, its dumps beside
those of Icarus Verilog and in GTKWave, the commands of verdicts/docs/FLOW.md, proofs of cadical and of cryptominisat,
certificates of what ABC proves, traces of Yosys, and models of the SAT solvers that are installed. It is no part of the
gate: the tools are Debian's packages `yosys` (which brings ABC), `cadical`, `picosat`, `minisat`, `cryptominisat`,
`iverilog`, `gtkwave`, `xvfb`, `xauth`, `python3-click`, `z3` and `python3-distributed`, and a run takes some
minutes."""

from library import runs
from tools.aig_verdicts import aig_verdicts, dask
from tools.certificates import certificates
from tools.conversions import conversions
from tools.designs import designs
from tools.flow import flow
from tools.maps import maps
from tools.own_variables import own_variables
from tools.pages import pages
from tools.proofs import proofs
from tools.solvers import solvers
from tools.traces import traces
from tools.unrolled import unrolled
from tools.verdicts import verdicts
from tools.waves import waves
from tools.witnesses import witnesses

PARTS = {"conversions": conversions, "unrolled": unrolled, "maps": maps, "witnesses": witnesses, "waves": waves,
         "flow": flow, "proofs": proofs, "solvers": solvers, "own_variables": own_variables,
         "certificates": certificates, "verdicts": verdicts, "aig_verdicts": aig_verdicts, "dask": dask,
         "designs": designs, "pages": pages, "traces": traces}

if __name__ == "__main__":
    runs.main(__doc__, PARTS)
