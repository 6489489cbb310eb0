#!/usr/bin/env python3
"""Runs every test script on a program, and counts all checks in the last line. The lines before it say what was left
out, and why.

Three scripts run at once, the longest first. Of a script that fails, all output is shown. A script that does not end in
its time fails, and is ended."""

import argparse
import collections
import concurrent.futures
import os
import re
import shutil
import subprocess
import sys
import tempfile
import time

from library import supervised
from library.runs import REPOSITORY
from library.supervised import SECONDS

# How long a script may take: half an hour, where a run may take two minutes.
WHOLE_SECONDS = 15 * SECONDS
# How many scripts run at once: each waits for programs now and then, also where there are two processors.
AT_ONCE = 3
# These take the program as their argument. The longest come first, so that none runs alone at the end.
SCRIPTS = ("verdicts/tests/run_bundles.py", "verdicts/tests/run_options.py", "tests/run_random.py",
           "tests/run_program.py", "tests/run_large.py", "tests/run_dist.py", "python/tests/run_explain.py",
           "tests/run_faults.py",
           "verdicts/tests/run_versions.py", "verdicts/tests/run_dask.py", "verdicts/tests/run_replay.py",
           "python/tests/run_package.py", "verdicts/tests/run_cores.py", "verdicts/tests/run_pages.py",
           "tests/run_bounds.py", "tests/run_hints.py", "verdicts/tests/random_verilog.py", "tests/run_library.py",
           "verdicts/tests/run_circuit.py", "tests/run_gate.py", "verdicts/tests/run_sva.py", "tests/tour.py",
           "verdicts/tests/run_verilator.py", "verdicts/tests/run_netlists.py", "verdicts/tests/run_reading.py",
           "verdicts/tests/run_proving.py", "verdicts/tests/run_forger.py")
# designs with known truth, which take longest
DESIGNS = "verdicts/tests/run_designs.py"
# this tries some of the planted bugs of the package
PLANTED = ("tools/planted_python.py", "--sample", "40")
# this tries some of the mutants of the package, for so many processor seconds
MUTANTS = ("tools/mutants.py", "--sample", "300")
# this runs aig_tests
STEPS = "tests/run_steps.py"
# this compares with the C++ program of the benchmarks on broken files
COMPARED = ("benchmarks/measure.py", "compare", "--count", "40")
NO_COMPILER = ("echo", "compare: left out: there is no c++")
# these read the sources and pages alone
READERS = ("tools/definitions.py", "tools/contracts.py", "tools/theorems.py", "tools/edges.py",
           "tools/named_crates.py", "tools/unused.py", "tools/pages.py", "tools/pictures.py", "tools/version.py")
COUNTS = re.compile(r"(\d+) passed[,;] (\d+) failed")
# what a script left out: its name, and why
LEFT_OUT = re.compile(r"(?m)^(.*?): left out: (.*)$")
SHOWN = re.compile(r"(?m)^.*(?: passed[,;] |left out|not listed|to believe|as the sources| compared, | pictures ).*\n")

# How a script ended: how many of its checks passed and failed, and a line for each thing that it left out.
Ended = collections.namedtuple("Ended", "passed failed left")


def ran(name, words, folder, seconds):
    """The exit status of a script, its output, and the processor seconds that it took; no status where it was ended or
    not started. A file has the output, as a pipe would wait for all that have it."""
    status, why, used = None, "", 0.0
    with tempfile.TemporaryFile() as output:
        try:
            with supervised.Popen(words, seconds, cwd=folder, stdin=subprocess.DEVNULL, stdout=output,
                                  stderr=subprocess.STDOUT) as script:
                usage = script.usage()
            status, used = script.returncode, usage.ru_utime + usage.ru_stime
        except subprocess.TimeoutExpired:
            why = f"\nSTOPPED: {name}: it does not end within {seconds} seconds\n"
        except OSError as error:
            why = f"FAILED: {name}: it does not start: {error}\n"
        output.seek(0)
        return status, output.read().decode(errors="replace") + why, used


def ended(name, words, folder, seconds=WHOLE_SECONDS):
    """Runs a script, prints what it says, and returns how it ended. One that counts no checks is one check."""
    began = time.monotonic()
    status, said, used = ran(name, words, folder, seconds)
    counts = [(int(passed), int(failed)) for passed, failed in COUNTS.findall(said)]
    left = LEFT_OUT.findall(said)
    passed, failed = (sum(column) for column in zip(*counts)) if counts else (int(status == 0 and not left), 0)
    failed += status != 0 and failed == 0
    shown = said if failed else "".join(SHOWN.findall(said))
    print(f"== {name}: {time.monotonic() - began:.0f} s, {used:.0f} of processors\n{shown}", end="", flush=True)
    return Ended(passed, failed, [f"{name}: {part}: {why}" for part, why in left])


def last_lines(scripts):
    """What was left out, and the counts."""
    left = [f"left out: {line}" for script in scripts for line in script.left]
    passed, failed = (sum(column) for column in zip(*((script.passed, script.failed) for script in scripts)))
    return [*left, f"{passed} passed, {failed} failed, {len(left)} left out"]


def commands(program):
    """The words of each script by its name, in the order in which they begin. A program that is named has aig_tests
    beside it."""
    steps = [f"{os.path.dirname(it)}/aig_tests" for it in program]
    comparing = (*COMPARED, *(word for it in program for word in ("--aig", it)))
    scripts = [(DESIGNS, *program), (*PLANTED, *program), (*MUTANTS, *program), (STEPS, *steps),
               *((name, *program) for name in SCRIPTS), comparing, *((name,) for name in READERS)]
    words = {name: [f"{REPOSITORY}/{name}", *rest] for name, *rest in scripts}
    return words if shutil.which("c++") else {**words, COMPARED[0]: NO_COMPILER}


def main():
    parser = argparse.ArgumentParser(description=__doc__, formatter_class=argparse.RawDescriptionHelpFormatter)
    parser.add_argument("program", nargs="?", help="the program that is tested, with aig_tests beside it (else "
                                                   "those that the gate built)")
    chosen = parser.parse_args()
    words = commands([os.path.abspath(chosen.program)] if chosen.program else [])
    with concurrent.futures.ThreadPoolExecutor(AT_ONCE) as pool:
        scripts = list(pool.map(lambda script: ended(*script, REPOSITORY), words.items()))
    print("\n".join(last_lines(scripts)))
    return 1 if any(script.failed for script in scripts) else 0


if __name__ == "__main__":
    sys.exit(main())
