#!/usr/bin/env python3
"""Tests of how aig-verdicts makes a circuit of Verilog. Those of sources, names and clocks need no program; those with
Yosys are skipped, and say so, where there is none. The verdicts on whole designs are in run_designs.py.

usage: run_circuit.py [PROGRAM]"""

import os
import sys
import unittest

from paths import ROOT

BUILT = ROOT / "crates/aig/out/aig"
os.environ["AIG_PROGRAM"] = os.path.abspath(sys.argv[1] if len(sys.argv) > 1 else BUILT)

from circuit import messages, named, netlists, rejected, rows, sources, trees  # noqa: E402

MODULES = (sources, messages, trees, netlists, rejected, rows, named)

if __name__ == "__main__":
    tests = unittest.TestSuite(map(unittest.defaultTestLoader.loadTestsFromModule, MODULES))
    found = unittest.TextTestRunner(verbosity=0).run(tests)
    failed = len(found.failures) + len(found.errors)
    for test, why in found.skipped:
        print(f"circuit: {test.id().rpartition('.')[2]}: left out: {why}")
    print(f"circuit: {found.testsRun - failed - len(found.skipped)} passed, {failed} failed")
    sys.exit(failed > 0)
