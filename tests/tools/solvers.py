"""SAT solvers on the formulas of `aig cnf`, beside ABC's opinion, for each property of the designs and 1 to 30 frames.
The formula is satisfiable exactly where ABC's `bmc3` finds a run to a bad state within these frames. `aig witness
--model` makes a witness of each model, which `aig check` confirms, and again after `aig reduce`. `aig refute` takes
each proof of cadical. Each model of an induction step becomes a witness of as many frames and one more, which `aig
check` confirms for the circuit in which all latches are uninitialised."""

import re
import shutil
import subprocess
import sys

from library import supervised
from library.plain_reader import spelled
from library.runs import Ended, contents, write
from tools.external import Tools, Trial, parts_of
from tools.proofs import circuits

FRAMES = 30
STEPS = 5
SATISFIABLE, UNSATISFIABLE = 10, 20  # the statuses of all solvers
# How each solver is called: it prints its model, or writes it to a file.
SOLVERS = {
    "cadical": ["cadical", "-q", "f.cnf", "f.drat"],
    "picosat": ["picosat", "f.cnf"],
    "minisat": ["minisat", "-verb=0", "f.cnf", "f.model"],
    "cryptominisat5": ["cryptominisat5", "--verb", "0", "f.cnf"],
}


def solvers(program, tally, _):
    found = {name: words for name, words in SOLVERS.items() if shutil.which(name)}
    if not found:
        sys.exit("no solver is installed: apt-get install cadical picosat minisat cryptominisat")
    tools = Tools()
    counts = {"satisfiable": 0, "unsatisfiable": 0, "proofs": 0, "steps": 0}
    trial = Trial(program, tally, found, counts)
    for name, properties in circuits(tally, tools):
        write("any.aag", from_any_state(program))
        for place in range(properties):
            for frames in range(1, STEPS + 1):
                fail_step(trial, f"solvers: {name}, property {place}, a step of {frames}", place, frames)
            reached = first_reached(program, tools, place)
            for frames in range(1, FRAMES + 1):
                title = f"solvers: {name}, property {place}, {frames} frames"
                ask_each(trial, title, asked_of(place, frames), reached is not None and reached < frames)
    tally.check("solvers: formulas of each kind", min(counts.values()) > 0 or "cadical" not in found, counts)
    return (f"{', '.join(found)}: {counts['satisfiable']} models and {counts['unsatisfiable']} formulas without one, "
            f"{counts['proofs']} proofs taken, {counts['steps']} models of steps: ")


def from_any_state(program):
    """The circuit in which each latch is uninitialised, by the plain reader."""
    write("bad.aag", program.run("toaig", "--to", "aag", "bad.aig").out)
    parts = parts_of("bad.aag")
    latches = [(state, following, state) for state, following, _ in parts.latches]
    return spelled(parts._replace(latches=latches), "aag")


def asked_of(place, frames):
    return "--frames", str(frames), "--property", str(place)


def fail_step(trial, title, place, frames):
    """The run by which an induction step fails, of each solver's model."""
    program, tally, found, counts = trial
    asked = asked_of(place, frames)
    write("f.cnf", program.run("cnf", "--step", *asked, "bad.aig").out)
    for name, words in found.items():
        done = supervised.run(words, stdin=subprocess.DEVNULL, stdout=subprocess.PIPE, stderr=subprocess.DEVNULL,
                              check=False)
        write("model", contents("f.model") if name == "minisat" else done.stdout)
        ended = program.run("witness", "--step", "--model", "model", *asked, "bad.aig")
        if done.returncode == UNSATISFIABLE:
            tally.compare(f"{title}: {name}, no model", ended, Ended(1, b"", b"aig: model: unsatisfiable\n"))
        else:
            counts["steps"] += 1
            write("step.wit", ended.out)
            tally.compare(f"{title}: {name}, frames", len(ended.out.splitlines()), frames + 5)
            tally.compare(f"{title}: {name}, check", program.run("check", "any.aag", "step.wit"),
                          Ended(0, b"confirmed\n", b""))


def first_reached(program, tools, place):
    """The frame at which ABC finds a run to the property, if it does."""
    write("one.aig", program.run("select", "--to", "aig", "--as", "outputs", "--property", str(place), "bad.aig").out)
    said = tools.abc(f"read_aiger one.aig; logic; undc; strash; zero; fold; bmc3 -F {2 * FRAMES} -T 30")
    asserted = re.search(r"was asserted in frame (\d+)\.", said)
    return int(asserted[1]) if asserted else None


def ask_each(trial, title, asked, is_reached):
    program, tally, found, counts = trial
    write("f.cnf", program.run("cnf", *asked, "bad.aig").out)
    for name, words in found.items():
        done = supervised.run(words, stdin=subprocess.DEVNULL, stdout=subprocess.PIPE, stderr=subprocess.DEVNULL,
                              check=False)
        tally.compare(f"{title}: {name}", done.returncode, SATISFIABLE if is_reached else UNSATISFIABLE)
        model = contents("f.model") if name == "minisat" else done.stdout
        write("model", model)
        ended = program.run("witness", "--model", "model", *asked, "bad.aig")
        if is_reached:
            counts["satisfiable"] += 1
            confirm(program, tally, f"{title}: {name}", ended)
        else:
            counts["unsatisfiable"] += 1
            tally.compare(f"{title}: {name}, no model", ended, Ended(1, b"", b"aig: model: unsatisfiable\n"))
            if name == "cadical":
                counts["proofs"] += 1
                tally.compare(f"{title}: proof", program.run("refute", *asked, "bad.aig", "f.drat"),
                              Ended(0, f"unreachable within {asked[1]}\n".encode(), b""))


def confirm(program, tally, title, ended):
    """The witness of a model is confirmed, and so is the reduced one."""
    confirmed = Ended(0, b"confirmed\n", b"")
    tally.check(f"{title}: witness", ended.status == 0 and ended.err == b"", ended)
    write("run.wit", ended.out)
    tally.compare(f"{title}: check", program.run("check", "bad.aig", "run.wit"), confirmed)
    write("needed.wit", program.run("reduce", "bad.aig", "run.wit").out)
    tally.compare(f"{title}: reduced", program.run("check", "bad.aig", "needed.wit"), confirmed)
