"""The scripts of docs/FORMATS.md and of examples/README.md that make witnesses and proofs, as they stand there."""

import os
import re
import subprocess

from library import supervised
from library.runs import REPOSITORY, contents, write
from library.supervised import SCRIPT_SECONDS


def script(start):
    """The block of shell that begins with these bytes."""
    documents = "".join(contents(f"{REPOSITORY}/{name}").decode() for name in ("docs/FORMATS.md", "examples/README.md"))
    return re.search(rf"(?ms)^```sh\n({re.escape(start)}.*?)^```$", documents)[1]


def shell(program, text):
    """Runs a script in which `aig` is the program; what it says."""
    write("aig", f'#!/bin/sh\nexec {program.path} "$@"\n')
    os.chmod("aig", 0o755)
    settings = {**os.environ, "PATH": f"{os.getcwd()}:{os.environ['PATH']}"}
    done = supervised.run(["sh", "-c", text], env=settings, stdin=subprocess.DEVNULL, stdout=subprocess.PIPE,
                          stderr=subprocess.STDOUT, check=False, timeout=SCRIPT_SECONDS)
    return done.stdout.decode(errors="replace")


def make_witness(program, frames):
    """Makes `run.wit` of `row` and `old.aag`, for property 0 and so many frames; what the script says."""
    return shell(program, script("aig unroll --frames 5").replace("--frames 5", f"--frames {frames}"))


def find_witness(program, abc, number):
    """Makes `run.wit` of `old.aig`, a run to this property that ABC finds; what the script says."""
    text = script("property=0\n").replace("property=0\n", f"property={number}\n", 1)
    return shell(program, text.replace("abc=berkeley-abc ", f"abc={abc} "))


def solve_witness(program, number):
    """Makes `design.wit` of `design.aig`, a run to this property that a SAT solver finds; what the script says."""
    text = script("aig cnf --frames 20 design.aig")
    return shell(program, text.replace("design.aig >", f"--property {number} design.aig >"))


def drat_of_frat(program):
    """Makes `design.drat` of `design.frat`; what the script says."""
    return shell(program, re.search(r"(?ms)^awk.*?design\.drat$", proving())[0])


def proving():
    """The script by which cryptominisat proves `design.cnf`, the formula of `design.aig` for 20 frames."""
    return script("cryptominisat5 ")
