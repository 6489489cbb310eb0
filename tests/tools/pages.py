"""Pages of `aig-verdicts` that Yosys and cadical took part in, each picture beside the plain simulator and explainer;
and a hostile page in Chromium."""

import os
import sys

from library.runs import REPOSITORY
from tools.external import Tools

sys.path.insert(0, f"{REPOSITORY}/verdicts/tests")
import paths  # noqa: E402, F401
from pages.browser import browser  # noqa: E402
from pages.made import made  # noqa: E402


def pages(program, tally, chosen):
    Tools()
    os.environ["AIG_PROGRAM"] = program.path
    made(program, tally, chosen)
    browser(program, tally, chosen)
