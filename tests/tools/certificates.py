"""Certificates by `aig-verdicts`, and by hand. For each property of the designs it says what ABC says, and holds where
`pdr` proves it. Where it made a certificate, the circuit and the formula of that are those of library/certificate.py.
It goes from induction to a certificate. The certificates of `examples/` are right."""

import itertools
import os
import re
import shutil
import subprocess
import sys

from library import supervised
from library.certificate import formula, strengthened
from library.plain_reader import in_order, spelled
from library.runs import DESIGNS, EXAMPLES, Ended, write
from tools.external import LOGIC, Tools, Trial, parts_of
from tools.proofs import UNSATISFIABLE, Property, circuits
from tools.table import table

PROVED, NEITHER, REACHED = 0, 4, 5  # the statuses of `aig-verdicts`
# A model and its certificate, and the least K of an induction that proves the property.
SHIPPED = (("ring", 3), ("delay", 2))
ADDERS = f"{EXAMPLES}/retimed.v"
# Designs with resets of 1, latches that start at any value, and constraints. pdr proves each of their properties.
PROVED_DESIGNS = {f"{DESIGNS}/delayed.v": 3, f"{DESIGNS}/lock.v": 2, f"{DESIGNS}/mutex.v": 1, f"{DESIGNS}/pipe.v": 1,
                  f"{EXAMPLES}/decimal.v": 2}


def certificates(program, tally, _):
    if not shutil.which("cadical"):
        sys.exit("cadical is missing: apt-get install cadical")
    tools = Tools()
    counts = designs(program, tally, tools)
    ways(program, tally)
    shipped(program, tally)
    return (f"{counts['proved']} properties that pdr proves hold, {counts['certified']} of them by a certificate, and "
            f"{counts['reached']} fail: ")


def designs(program, tally, tools):
    """Each property of the designs by `aig-verdicts`, beside ABC's opinion of it. Induction of one frame alone is tried
    before an invariant."""
    counts = {"reached": 0, "proved": 0, "certified": 0}
    for name, properties in itertools.chain(circuits(tally, tools), proved_designs(tally, tools)):
        shutil.rmtree("found", ignore_errors=True)
        found = {row.position: row for row in table(program, "bad.aig", "--out", "found", "--frames", "1").rows}
        for place in range(properties):
            asked = f"certificates: {name}, property {place}"
            reached, is_proved = Property(Trial(program, tally, tools, {}), name, place).opinion()
            tally.check(f"{asked}: ABC", is_proved or reached is not None, tools.last_lines())
            counts["proved" if is_proved else "reached"] += 1
            row = found[f"b{place}"]
            tally.compare(asked, row.words, "holds" if is_proved else "fails")
            if row.by == "invariant":
                counts["certified"] += 1
                same_bytes(program, tally, asked, ("bad.aig", f"found/{place}.cert.aag"), place)
    least = sum(PROVED_DESIGNS.values())
    is_enough = counts["proved"] > least and counts["reached"] > 0 and counts["certified"] >= 5
    tally.check("certificates: properties of each kind", is_enough, counts)
    return counts


def same_bytes(program, tally, asked, files, place=0):
    """The strengthened circuit and the formula of a model and a certificate are those of library/certificate.py to the
    byte."""
    model, certificate = files
    circuit = strengthened(parts_of(model), place, parts_of(certificate))
    words = ["--certificate", certificate, "--property", str(place), model]
    for to, parts in (("aag", circuit), ("aig", in_order(circuit))):
        tally.compare(f"{asked}: strengthen to {to}", program.run("strengthen", "--to", to, *words),
                      Ended(0, spelled(parts, to), b""))
    tally.compare(f"{asked}: cnf", program.run("cnf", *words), Ended(0, formula(circuit, place), b""))


def proved_designs(tally, tools):
    """Each design of PROVED_DESIGNS in turn as `bad.aig`, with its name and the number of its properties."""
    for file, properties in PROVED_DESIGNS.items():
        name = os.path.basename(file).removesuffix(".v")
        is_made = tools.yosys(f"read_verilog -sv -formal {file}; prep -flatten -top {name}; async2sync; memory_map; {LOGIC}; "
                              "write_aiger -symbols bad.aig")
        is_right = is_made and len(parts_of("bad.aig").bad) == properties
        tally.check(f"certificates: yosys {name}", is_right, tools.last_lines())
        if is_right:
            yield name, properties


def ways(program, tally):
    """What `aig-verdicts` says, and how it ends, where it proves a property and where it does not."""
    def compare(name, status, said, *words):
        found = table(program, *words, "--out", re.sub(r"\W", "_", name))
        tally.compare(f"certificates: {name}", (found.status, [(row.words, row.by) for row in found.rows]),
                      (status, said))

    ring, wraps = f"{EXAMPLES}/ring.aag", f"{EXAMPLES}/wraps.aag"
    compare("induction of the ring", PROVED, [("holds", "induction of 3")], ring, "--abc", "")
    compare("a certificate of the ring", PROVED, [("holds", "invariant")], ring, "--frames", "2")
    compare("neither", NEITHER, [("holds within 2", "")], ADDERS, "--top", "retimed", "--frames", "2", "--seconds", "1")
    compare("a run", REACHED, [("fails", "run of 4, at cycle 3")], wraps)
    compare("a run that ABC finds", REACHED, [("fails", "run of 4, at cycle 3")], wraps, "--frames", "2")
    compare("no circuit", 3, [], "missing.aig")
    compare("no property", 1, [], ring, "--only", "b1")
    free_starts(program, tally)


def free_starts(program, tally):
    """Small circuits whose latches start at 1 or at any value, with a run of at least two frames or an invariant."""
    cases = (
        ("a latch that starts at 1", "aag 2 1 1 0 0 1\n2\n4 4 1\n5\n", PROVED),
        ("latches that start at 1 and at 0", "aag 3 0 2 0 1 1\n2 4 1\n4 2\n6\n6 4 2\n", PROVED),
        ("a latch that starts at any value", "aag 4 1 2 0 1 1\n2\n4 4 4\n6 4\n8\n8 6 5\n", PROVED),
        ("two such latches", "aag 5 0 3 0 2 1\n2 2 2\n4 2 4\n6 1\n10\n8 4 3\n10 8 6\n", PROVED),
        ("two such latches at the start", "aag 3 0 2 0 1 1\n2 2 2\n4 2 4\n6\n6 4 3\n", REACHED),
        ("a constraint on it", "aag 3 1 2 0 0 1 1\n2\n4 4 4\n6 4\n6\n5\n", PROVED),
        ("a constraint that cannot be kept", "aag 1 1 0 0 0 1 1\n2\n2\n0\n", NEITHER),  # vacuous
        ("no latch", "aag 3 2 0 0 1 1\n2\n4\n6\n6 4 2\n", REACHED),
        ("a property that is 0", "aag 1 0 1 0 0 1\n2 3\n0\n", PROVED),
        ("a property that is 1", "aag 1 0 1 0 0 1\n2 3\n1\n", REACHED),
    )
    for name, text, status in cases:
        write("small.aag", text)
        shutil.rmtree("small", ignore_errors=True)
        found = table(program, "small.aag", "--out", "small", "--frames", "1")
        tally.check(f"certificates: {name}", found.status == status, found)


def shipped(program, tally):
    """The certificates of `examples/`: cadical's proof is taken, one of fewer claims is refused; and the least
    induction."""
    for name, least in SHIPPED:
        circuit, file = f"{EXAMPLES}/{name}.aag", f"{EXAMPLES}/{name}.cert.aag"
        tally.compare(f"certificates: {name}", refuted(program, circuit, file), Ended(0, b"unreachable\n", b""))
        same_bytes(program, tally, f"certificates: {name}", (circuit, file))
        fewer = program.run("select", "--to", "aag", "--property", "0", file)
        write("fewer.aag", fewer.out)
        ended = refuted(program, circuit, "fewer.aag")
        tally.compare(f"certificates: {name}, the first claim alone", ended,
                      Ended(1, b"", b"aig: proof: no refutation\n"))
        steps_refuted = [solved(program, "cnf", "--step", "--frames", str(frames), circuit) == UNSATISFIABLE
                         for frames in range(1, least + 1)]
        tally.compare(f"certificates: {name}, induction", steps_refuted, [False] * (least - 1) + [True])


def solved(program, *words):
    """The status of cadical on the formula that the program writes."""
    write("asked.cnf", program.run(*words).out)
    return supervised.run(["cadical", "-q", "asked.cnf", "asked.drat"], stdin=subprocess.DEVNULL,
                          stdout=subprocess.DEVNULL, check=False).returncode


def refuted(program, circuit, file):
    """What `refute` says of a certificate, of the proof that cadical writes."""
    solved(program, "cnf", "--certificate", file, circuit)
    return program.run("refute", "--certificate", file, circuit, "asked.drat")
