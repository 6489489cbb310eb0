"""The values that a solver found for each x of a run: further files of a bundle, which are checked."""

from __future__ import annotations

import shutil
import sys
from pathlib import Path

from bundles.common import SMALL_SOLVER, called, manifest_of, of_script, rows_of, tool, why_rejected, write_manifest

# `free` is 1 where `on` is, and one of two others at least: a run needs one of them. `whole` needs all three.
CIRCUIT = """aag 7 3 0 0 4 2
2
4
6
10
14
8 7 5
10 9 2
12 4 2
14 12 6
i0 on
i1 one
i2 other
b0 free
b1 whole
"""
# A solver that makes as many variables 1 as it can, from the first one on. Where there is no model it asks another one.
ONES = """import itertools, os, sys
if "cnf" in sys.argv:
    head, *lines = [line.split() for line in open("cnf") if line[0] != "c"]
    clauses = [[int(it) for it in line[:-1]] for line in lines]
    for values in itertools.product((1, 0), repeat=int(head[2])):
        if all(any((it > 0) == values[abs(it) - 1] for it in clause) for clause in clauses):
            print("s SATISFIABLE")
            print("v", *(at if value else -at for at, value in enumerate(values, 1)), 0)
            sys.exit(10)
os.execv(sys.argv[1], sys.argv[1:])
"""


def made(out="out"):
    Path("values.aag").write_text(CIRCUIT)
    Path("ones.py").write_text(ONES)
    solver = tool("ones", f'exec "{sys.executable}" -S -E "{Path("ones.py").resolve()}" "{SMALL_SOLVER}" "$@"')
    shutil.rmtree(out, ignore_errors=True)
    return called("run", "values.aag", "-o", out, "--abc", "", "--solver", solver, "--frames", "4", "--no-simulator")


def frames(name, out="out"):
    return Path(out, name).read_text().split("\n")[3:-2]


def concrete(_, tally, __):
    """A run with x has a second file with a value for each; a re-check compares both, and has aig check it."""
    status, _, _ = made()
    rows = rows_of("out")
    tally.compare("concrete: status", status, 5)
    tally.compare("concrete: files", {name: sorted(it["files"]) for name, it in rows.items()},
                  {"free": ["concrete", "witness"], "whole": ["witness"]})
    given, valued = frames("0.wit"), frames("0.concrete.wit")
    tally.compare("concrete: values", ([row.count("x") for row in given], valued, frames("1.wit")),
                  ([1], ["111"], ["111"]))
    tally.check("concrete: re-checked", why_rejected("out") is None, why_rejected("out"))
    script = of_script(Path("out"))
    tally.check("concrete: by the script", script.returncode == 0 and "0.concrete.wit" in script.stdout, script)
    forgeries(tally)


def forgeries(tally):
    """A second file of another run, with x, of another length, and none."""
    for name, forge in {
            "another value": lambda text: text.replace("111", "011"), "an x": lambda text: text.replace("111", frames("0.wit")[0]),
            "a frame more": lambda text: text.replace("\n.\n", "\n111\n.\n"),
            "a letter": lambda text: text.replace("111", frames("0.wit")[0].replace("x", "2")),
            "of another property": lambda text: text.replace("b0",
                                                             "b1"), "nothing": lambda text: "", "more": lambda text: text + "\n"}.items():
        shutil.rmtree("forged", ignore_errors=True)
        shutil.copytree("out", "forged")
        path = Path("forged/0.concrete.wit")
        path.write_text(forge(path.read_text()))
        write_manifest(Path("forged"), manifest_of("forged"))
        why = why_rejected("forged") or ""
        tally.check(f"concrete: {name}", "the concrete run of b0 is another one than its witness" in why, why)
    commands = [" ".join(it["words"]) for it in rows_of("out")["free"]["commands"]]
    tally.check("concrete: its command", "aig check --property=0 circuit.aig 0.concrete.wit" in commands, commands)
