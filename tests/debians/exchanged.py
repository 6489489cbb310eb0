"""Makes bundles of some designs with this version of Yosys, or checks with it those that other versions made: `aig`
confirms all rows, and then Yosys makes the same circuit or one that does the same, or the message says what differs and
which version made each.

usage: exchanged.py make|check SUITE FOLDER"""

import os
import re
import shutil
import subprocess
import sys
from collections import Counter
from pathlib import Path

REPOSITORY = Path(__file__).resolve().parents[2]
sys.path.insert(0, str(REPOSITORY / "verdicts/tests"))
from paths import PYTHONPATH  # noqa: E402
from designs.truth import DESIGNS  # noqa: E402
from library import supervised  # noqa: E402
from library.supervised import SCRIPT_SECONDS  # noqa: E402

# Of the designs with known truth, which have one clock, several, memories, types, conditions and cells without a body.
CHOSEN = ("queue", "lamps", "unknown_memory", "async_fifo", "async_reset", "latches", "labels", "conditions",
          "assumptions",
          "past", "task_state", "box", "set_reset", "unsigned_address")
# The circuit is compared, so a short search is enough.
SHORT = ("--frames", "2", "--seconds", "5", "--abc", "", "--no-conditions", "--no-simulator", "--quiet", "--jobs", "2")
# What `recheck --yosys` prints of a bundle that another Yosys made, where nothing is wrong.
BY_ANOTHER = r".*; the bundle says that Yosys \S+ made it, and this is Yosys \S+"
KINDS = {
    "the same circuit": "Yosys makes the same circuit",
    "another circuit that does the same": "Yosys makes a circuit of the sources that does the same",
    "the same names, other gates": f"its names are the same, and its gates are others{BY_ANOTHER}",
    "other names": f"Yosys makes another circuit of the sources: its [a-z]+ (are others|have another order){BY_ANOTHER}",
}
# Those that are no reason to reject the bundle.
TAKEN = [*KINDS][:2]


def called(*words):
    """The status of aig-verdicts, and what it prints."""
    settings = {**os.environ, "PYTHONPATH": PYTHONPATH}
    done = supervised.run([sys.executable, "-m", "aig_verdicts", *map(str, words)], env=settings,
                          stdin=subprocess.DEVNULL, stdout=subprocess.PIPE, stderr=subprocess.STDOUT, text=True,
                          timeout=SCRIPT_SECONDS, check=False)
    return done.returncode, done.stdout


def made(folder):
    """How many bundles cannot be made."""
    shutil.rmtree(folder, ignore_errors=True)
    folder.mkdir()
    failed = 0
    for known in (it for it in DESIGNS if it.name in CHOSEN):
        words = [*known.paths, *(f"-I{it}" for it in known.search), *(f"--free={it}" for it in known.free)]
        words += ["--top", known.top] if known.top else []
        status, said = called("run", *words, "--out", folder / known.name, *SHORT)
        if status not in (0, 4, 5):
            failed += 1
            print(f"FAILED: {known.name}: {status} {said}", flush=True)
    print(f"exchanged: {len([*folder.iterdir()])} bundles made, {failed} failed")
    return failed


def kind(bundle):
    """What this Yosys says of a bundle, whose rows `aig` confirms before."""
    status, said = called("recheck", bundle, "--quiet", "--yosys")
    found = next((name for name, line in KINDS.items() if re.search(line, said)), "")
    is_ended = status in (0, 4, 5) if found in TAKEN else status == 1
    return found if found and is_ended else f"FAILED: {bundle}: {status} {said}"


def checked(own, folder):
    """How many bundles of other versions are not as they should be."""
    kinds = Counter()
    for bundle in sorted(it for suite in folder.iterdir() if suite.name != own for it in suite.iterdir()):
        found = kind(bundle)
        if found.startswith("FAILED"):
            print(found, flush=True)
        else:
            print(f"{bundle.parent.name}: {bundle.name}: {found}", flush=True)
        kinds[found.partition(":")[0]] += 1
    failed = kinds.pop("FAILED", 0)
    counts = ", ".join(f"{count} {said}" for said, count in kinds.items())
    print(f"exchanged: {sum(kinds.values())} passed, {failed} failed: {counts}")
    return failed


if __name__ == "__main__":
    task, own_suite, place = sys.argv[1:]
    sys.exit((made(Path(place, own_suite)) if task == "make" else checked(own_suite, Path(place))) > 0)
