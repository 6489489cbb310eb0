"""An `aig` that prints the right line, and then is killed or ends with 2: of each way to a verdict, for `recheck` and
for `run`. And a solver that needs more memory than it may have."""

from __future__ import annotations

import os
import sys

from bundles.common import FEW, SMALL_SOLVER, called, judged, kept, rows_of, tool, why_rejected
from bundles.ends import KNOWN
from bundles.searches import KNOWS

ENDS = {"killed": "kill -9 $$", "status 2": "exit 2"}
# The commands of each way that another test does not have, as patterns of the shell, and the bundle that has them.
COMMANDS = {
    "a certificate": ("every", "refute*--property=6\\ *", "b6"), "a bound": ("every", "refute*--property=3\\ *", "b3"),
    "no shorter run": ("every", "refute*--property=9\\ *", "b9"), "a condition": ("every", "check*--property=7\\ *", "b7"),
    "a contradiction": ("contradiction", "refute*--alive*", "constraints"),
}
# For each command of a search: the assertions that cannot have a verdict. Another one may have none, with a note.
SEARCHES = {"refute": {"later", "three"}, "check": {"two"}, "reduce": set(), "witness": {"two"}}
# What may be known of a row in place of its verdict: a bound that is true.
LESS = ("undecided", "unreachable within 1", "unreachable within 2")


def with_aig(pattern, end, call, *words):
    """A call where `aig` ends so after a command."""
    usual = os.environ["AIG_PROGRAM"]
    body = f'case "$*" in {pattern}) "{usual}" "$@"; {end} ;; esac\nexec "{usual}" "$@"'
    os.environ["AIG_PROGRAM"] = tool("dying_aig", body)
    try:
        return call(*words)
    finally:
        os.environ["AIG_PROGRAM"] = usual


def dying(_, tally, __):
    """Nothing is right because of its line: `recheck` names the row, and `run` has no verdict for it. What else was
    found stands, and a later run finds the rest."""
    for how, end in ENDS.items():
        for way, (name, pattern, label) in COMMANDS.items():
            why = with_aig(pattern, end, why_rejected, kept(name)) or ""
            tally.check(f"dying: {how}: {way}", why.startswith(f"{label}: aig ended with status "), why)
            status, _, err = with_aig(pattern, end, called, "recheck", kept(name))
            tally.check(f"dying: {how}: {way}: status", status == 4 and "checked by aig" not in err, (status, err))
    for command, lost in SEARCHES.items():
        out = f"of_{command}"
        words = ("run", FEW, "--out", out, "--solver", SMALL_SOLVER, "--frames", 4, "-q", "--abc")
        status, _, _ = with_aig(f"{command}*", ENDS["killed"], called, *words, "")
        for name, row in rows_of(out).items():
            is_noted = "aig ended with status -9" in " ".join(row.get("notes", []))
            is_right = row["verdict"] == KNOWN[name] if name not in lost else is_noted and row["verdict"] in LESS
            tally.check(f"dying: run: {command}: {name}", is_right, row)
        tally.check(f"dying: run: {command}: status", status in (4, 5), status)
        tally.check(f"dying: run: {command}: re-checked", judged(out) is not None)
    called(*words, "")
    tally.compare("dying: the rest, later", {name: row["verdict"] for name, row in rows_of(out).items()}, KNOWN)
    words = (*words[:3], "of_abc", *words[4:], tool("knows.sh", KNOWS.format(2)), "--only", "two")
    with_aig("check*", ENDS["status 2"], called, *words)
    tally.check("dying: a run that ABC knows", rows_of("of_abc")["two"]["verdict"] in LESS)


def memory(_, tally, __):
    """With `--megabytes` a solver that takes more ends without an answer. It gets as much without it."""
    solver = tool("takes_memory", f'exec "{sys.executable}" -S -E -c "bytearray(400 << 20)"')
    for name, words, word in (("no bound", (), "found no answer"), ("300 MB", ("--megabytes", 300), "MemoryError")):
        called("run", FEW, "--out", "out", "--abc", "", "--solver", solver, "--frames", 1, "--only", "two", *words)
        notes = " ".join(rows_of("out")["two"]["notes"])
        tally.check(f"memory: {name}", word in notes, notes)
