"""Proofs that runs of a queue and a fifo reach no bad state, which cadical does not write by itself: those after
bounded variable addition (library/families.py), and those of cryptominisat, in FRAT, made DRAT by the script of
examples/README.md. The same proofs are refused of a property that a run reaches."""

import os
import shutil
import subprocess
import sys

from library import supervised
from library.dimacs import read_formula
from library.families import Added, dimacs
from library.recipes import proving, shell
from library.runs import DESIGNS, EXAMPLES, Ended, contents, write
from program.proofs import text_of
from tools.external import LOGIC, Tools

FRAMES = "20"
UNSATISFIABLE = 20  # the solvers' status
# Designs, a property that no run reaches within so many frames, and one that a run reaches.
ASKED = (("queue", f"{EXAMPLES}/queue.v", "1", "0"), ("fifo", f"{DESIGNS}/fifo.v", "1", "0"))
REFUTED = Ended(0, f"unreachable within {FRAMES}\n".encode(), b"")


def own_variables(program, tally, _):
    for tool in ("cadical", "cryptominisat5"):
        if not shutil.which(tool):
            sys.exit(f"{tool} is missing: apt-get install {tool.removesuffix('5')}")
    tools = Tools()
    for name, design, held, reached in ASKED:
        is_made = tools.yosys(f"read_verilog -sv -formal {design}; prep -flatten -top {name}; async2sync; memory_map; {LOGIC}; "
                              "write_aiger design.aig")
        tally.check(f"own_variables: yosys {name}", is_made, tools.last_lines())
        formula = program.run("cnf", "--frames", FRAMES, "--property", held, "design.aig").out
        write("design.cnf", formula)
        proofs = [(style, after_addition(tally, f"{name}, {style}", formula, style)) for style in ("sbva", "factor")]
        tally.check(f"own_variables: {name}, cryptominisat", *of_cryptominisat(program, held))
        proofs.append(("cryptominisat", "design.drat"))
        for kind, proof in proofs:
            for place, is_held in ((held, True), (reached, False)):
                ended = program.run("refute", "--frames", FRAMES, "--property", place, "design.aig", proof)
                is_right = ended == REFUTED if is_held else ended.status == 1 and not ended.out
                tally.check(f"own_variables: {name}, {kind}, property {place}", is_right, ended)


def after_addition(tally, name, formula, style):
    """The file of a proof that adds variables, and then goes on as cadical does."""
    variables, _, clauses = read_formula(formula.decode())
    added = Added(variables, clauses, style)
    tally.check(f"own_variables: {name}, variables of its own", added.variables > variables)
    write("reduced.cnf", dimacs(added.variables, [*added.clauses]))
    done = supervised.run(["cadical", "-q", "--no-binary", "reduced.cnf", "tail.drat"], stdin=subprocess.DEVNULL,
                          stdout=subprocess.DEVNULL, check=False)
    tally.compare(f"own_variables: {name}, cadical", done.returncode, UNSATISFIABLE)
    return write(f"{style}.drat", text_of(added.steps) + contents("tail.drat"))


def of_cryptominisat(program, held):
    """Whether the script of examples/README.md makes `design.drat` and checks it; what it says."""
    if os.path.exists("design.drat"):
        os.remove("design.drat")
    said = shell(program, proving().replace("refute ", f"refute --property {held} "))
    return f"s UNSATISFIABLE\n{REFUTED.out.decode()}" == said, said
