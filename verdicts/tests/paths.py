"""Where the sources are. Each script of tests imports this first: it puts them on the path, and what the tests of the
program and of `aig` share."""

import os
import sys
from pathlib import Path

TESTS = Path(__file__).resolve().parent
VERDICTS = TESTS.parent
ROOT = VERDICTS.parent
# Both packages, for a Python that a test starts.
PYTHONPATH = os.pathsep.join([str(VERDICTS / "src"), str(ROOT / "python" / "src")])

sys.path[:0] = [str(TESTS), *PYTHONPATH.split(os.pathsep), str(ROOT / "tests"), str(ROOT / "python" / "tests")]
