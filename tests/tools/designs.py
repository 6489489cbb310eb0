"""`aig-verdicts` on the designs with known truth of verdicts/tests/designs: each row has the verdict and the length that
another tool found. Each folder is checked again, and each circuit made again of its sources."""

import importlib.util
import os

from library.runs import REPOSITORY
from tools.external import Tools


def designs(program, tally, _):
    Tools()
    os.environ["AIG_PROGRAM"] = program.path
    place = importlib.util.spec_from_file_location("run_designs", f"{REPOSITORY}/verdicts/tests/run_designs.py")
    run_designs = importlib.util.module_from_spec(place)
    place.loader.exec_module(run_designs)
    for known, wrong in run_designs.checked():
        tally.passed += len(known.answers) - min(len(known.answers), len(wrong))
        for line in wrong:
            tally.check(f"designs: {known.name}", False, line)
