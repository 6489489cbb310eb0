"""What the gate notes of its checks: what those of a crate cost, and what each function keeps."""

import contextlib
import io
import os
import pathlib
import re
import sys
import time

from library import runs, supervised
from library.runs import REPOSITORY, write

sys.path.insert(0, REPOSITORY + "/tools")
import costs  # noqa: E402
import functions  # noqa: E402
import gate  # noqa: E402

# A program under the name of a check of aig_none, which works for some seconds.
CHECK = ["rattle", "-c", "import time\nlist(range(10 ** 6))\nwhile time.process_time() < 2: pass\ntime.sleep(60)",
         "--crate-name", "aig_none"]


def report(_, tally, __):
    """What the gate notes of the checks of each crate, and its warnings; without /proc it notes nothing."""
    seen = costs.Watch(os.getpid())
    with supervised.Popen(CHECK, executable=sys.executable) as check:
        until = time.monotonic() + runs.SECONDS
        while sum(cost.processor for cost in seen.costs().values()) < 1 and time.monotonic() < until:
            seen.look()
            time.sleep(0.2)
        check.kill()
    found = seen.costs()
    tally.compare("report: the checks", [*found], [(costs.BUGS, "aig_none")])
    cost = found[costs.BUGS, "aig_none"]
    tally.check("report: a check", 1 <= cost.processor < 10 and cost.wall > 0 and 1e6 < cost.memory < 1e9, cost)
    dear = {(costs.PROOFS, "aig_high"): costs.Cost(700, 900, 2e9), (costs.PROOFS, "aig_wide"): costs.Cost(20, 30, 5e9),
            (costs.PROOFS, "aig_low"): costs.Cost(20, 30, 2e9), (costs.BUGS, "aig_high"): costs.Cost(700, 900, 2e9)}
    others = ["seconds 12\n", "proofs 3 passed\n"]
    tally.compare("report: its lines", costs.costs_of([*costs.lines_of(dear), *others]), dear)
    warned = re.findall(r"(?m)^warning: the proofs of (\w+) ", costs.table(dear))
    tally.compare("report: its warnings", warned, ["aig_high", "aig_wide"])
    tally.compare("report: no file", gate.costs_in("missing"), {})


# Files that a check kept, in the order in which they were written: a name, megabytes, and seconds after the start.
KEPT = (
    ("Rattle-aig_none-specs.One", 1, 1), ("Rattle-aig_none-proofs.edits.Bench.add.Lts", 3, 3),
    ("Rattle-aig_none-proofs.edits.Bench.add.Lts.Given", 0.25, 4),
    ("Rattle-aig_none-proofs.edits.Bench.set.Kinds", 0.5, 5),
    ("Rattle-aig_none-proofs.edits.Bench.add.Proof-2", 0.5, 7),
    ("Rattle-aig_none-specs.contracts.read.one.Key", 1.5, 8),
    ("Rattle-aig_none-proofs.AddLemmas", 5, 9),
)
# What that says of each function, where the check takes half a second of a processor in each second.
OF_FUNCTIONS = {("aig_none", "edits.Bench.add"): functions.Cost(2.5, 3.75),
                ("aig_none", "edits.Bench.set"): functions.Cost(0.5, 0.5),
                ("aig_none", "read.one"): functions.Cost(0.5, 1.5)}
# The lines of the list, and what is wrong and what is written then.
LISTS = (
    ("", ["aig_none edits.Bench.add keeps 3.75 MB; at most 3.5 are meant"], ""),
    ("aig_none edits.Bench.add 3.8\n", [], "aig_none edits.Bench.add 3.8\n"),
    ("aig_none edits.Bench.add 3.6\n", ["aig_none edits.Bench.add keeps 3.75 MB; at most 3.6 are meant"],
     "aig_none edits.Bench.add 3.6\n"),
    ("aig_none edits.Bench.add 9.0\naig_none read.one 4.0\naig_other one 5.0\n", [],
     "aig_none edits.Bench.add 3.8\naig_other one 5.0\n"),
    ("not listed yet: aig_other aig_none\n", [], "aig_none edits.Bench.add 3.8\nnot listed yet: aig_other\n"),
)


def of_functions(_, tally, __):
    """What each function keeps and takes, by the files of a check; and which of them the gate refuses."""
    folder, now = pathlib.Path(functions.FOLDER.format(7).replace("*", "0")), 1_000_000
    folder.mkdir()
    kept = functions.Kept(7, os.getcwd())
    kept.look(now, 0)
    for name, megabytes, seconds in KEPT:
        path = folder / f"{name}.oantt"
        path.write_bytes(b"x")
        kept.look(now + seconds, seconds / 2)  # it is half written then
        path.write_bytes(bytes(int(megabytes * 1e6)))
        os.utime(path, (now + seconds, now + seconds))
    kept.look(now + 10, 5)
    found = kept.costs()
    tally.compare("functions: by files", found, OF_FUNCTIONS)
    tally.compare("functions: of two checks", functions.merged({("aig_none", "read.one"): functions.Cost(1, 2)}, found),
                  {**OF_FUNCTIONS, ("aig_none", "read.one"): functions.Cost(1, 2)})
    write("noted", "".join(functions.lines_of(found)))
    tally.compare("functions: in a file", functions.costs_in("noted"), OF_FUNCTIONS)
    tally.compare("functions: no file", functions.costs_in("missing"), {})
    usual, functions.LISTED = functions.LISTED, pathlib.Path("listed")
    try:
        for number, (lines, wrong, after) in enumerate(LISTS):
            write("listed", functions.HEAD + lines)
            tally.compare(f"functions: list {number}", [*functions.wrong(found, *functions.listed())], wrong)
            tally.compare(f"functions: list {number} anew", functions.rewritten(found, *functions.listed()),
                          functions.HEAD + after)
            with contextlib.redirect_stdout(io.StringIO()) as said:
                tally.compare(f"functions: judged by list {number}", functions.judged("noted"), not wrong)
        tally.check("functions: what has no list yet", "without a list yet: aig_other, aig_none" in said.getvalue())
        with contextlib.redirect_stdout(io.StringIO()):
            tally.compare("functions: nothing is known", functions.judged("missing"), True)
    finally:
        functions.LISTED = usual
