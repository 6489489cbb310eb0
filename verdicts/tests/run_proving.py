#!/usr/bin/env python3
"""Tests of `prove` and `certify`: with cadical a bug, a bound, an induction, an invariant, contradicting constraints
(`solvers`); the same by a small solver (`small`); their bounds, and a stop (`bounds`); a program in the place of ABC
(`by_abc`); and, where it is asked for, what mypy says of the package, and of verdicts without a check (`types`)."""

import os
import re

from paths import PYTHONPATH, ROOT, TESTS, VERDICTS
from library import runs, supervised
from library.supervised import SCRIPT_SECONDS
from package.common import need, running
from proving import by_abc, searches


def types(_, tally, __):
    need("mypy")
    words = ["mypy", "--strict", "--python-version", "3.9", "--cache-dir", os.devnull, "--explicit-package-bases"]
    settings = {**os.environ, "MYPYPATH": PYTHONPATH}
    packages = [str(VERDICTS / "src" / "aig_verdicts"), str(ROOT / "python" / "src" / "aig")]
    done = supervised.run([*words, *packages], capture_output=True, timeout=SCRIPT_SECONDS, env=settings)
    tally.compare("mypy", (done.returncode, done.stdout.decode().splitlines()[:-1]), (0, []))
    path = TESTS / "proving" / "refused.py"
    wanted = [at for at, line in enumerate(path.read_text().splitlines(), 1) if "  # refused: " in line]
    done = supervised.run([*words[:-1], str(path)], capture_output=True, timeout=SCRIPT_SECONDS, env=settings)
    errors = re.findall(r"(?m)^[^\n:]*refused\.py:(\d+): error: ", done.stdout.decode())
    tally.compare("mypy refuses verdicts without a check", sorted({int(at) for at in errors}), wanted)
    tally.check("mypy: such lines", len(wanted) > 15)


def of_program(part):
    """The part, where the packages run the program that is tested."""
    def run(program, tally, chosen):
        with running(program.path):
            return part(program, tally, chosen)

    return run


PARTS = {"solvers": searches.solvers, "small": searches.small, "bounds": searches.bounds, "by_abc": by_abc.by_abc,
         "types": types}

if __name__ == "__main__":
    runs.main(__doc__, {name: of_program(part) for name, part in PARTS.items()}, ("types",))
