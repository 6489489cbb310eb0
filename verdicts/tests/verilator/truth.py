"""Designs whose truth the standard says: each is right, or rejected where Verilator's types are wrong. And random programs
beside Icarus Verilog."""

from __future__ import annotations

import tempfile
from pathlib import Path

from aig_verdicts.verilator.dumps.tree import NotRead
from random_programs.judge import FILE, Outcome, said_by_icarus, with_assertions
from random_programs.program import TOP, program as random_program

from .shared import HERE, aiger_of, is_reached, names_of, need

# The properties that fail and those that hold; or what the rejection says.
TRUTH = {"case_mixed": "a case of signed and unsigned values",
         "inside_signed": "signed values that Verilator compares as unsigned ones",
         "package_enum": {"a": False}, "signed_output": {"never_negative": True}}
FIRST, COUNT = 1, 20
# At most one program in so many is not read.
READ = 2


def designs(program, tally, _):
    """The designs with a truth. Their registers take each value that inputs have, so all inputs in a row reach all states."""
    need("verilator")
    for name, truth in TRUTH.items():
        try:
            made = aiger_of(HERE / "designs" / f"{name}.sv")
        except NotRead as why:
            tally.check(f"{name}: rejected", isinstance(truth, str) and truth in str(why) and f"{name}.sv:" in str(why), why)
            continue
        inputs = names_of(made, "i")
        bits = [it for it in inputs if it not in ("clk", "ok")]
        rows = [{it: f"{value >> k & 1}" for k, it in enumerate(bits)} for value in range(1 << len(bits))]
        rows = ["".join(row.get(it, ok) for it in inputs) for ok in "01" for row in rows + rows[:2]]
        fails = {it: is_reached(program, made, k, rows) for k, it in enumerate(names_of(made, "b"))}
        tally.compare(name, fails, truth)


def randoms(program, tally, chosen):
    """Random programs beside Icarus Verilog: --seed and --count say which."""
    need("verilator", "iverilog")
    counts = {"agree": 0, "not read": 0, "no value": 0}
    for seed in range(chosen.seed, chosen.seed + chosen.count):
        with tempfile.TemporaryDirectory() as room:
            said, why = judged(program, random_program(seed), Path(room))
        if said in counts:
            counts[said] += 1
        tally.check(f"program {seed}", said in counts, said)
        if why:
            print(f"program {seed}: {said}: {why}", flush=True)
    tally.check("most programs are read", counts["not read"] * READ <= chosen.count)
    return ", ".join(f"{count} {said}" for said, count in counts.items()) + ", "


def judged(program, made, room):
    """Whether a circuit has the sum that Icarus Verilog says, and not another one."""
    icarus = said_by_icarus(made, room)
    if icarus.outcome is not Outcome.AGREES:
        return "no value", ""
    (room / FILE).write_text(with_assertions(made, icarus.reason))
    for name, text in made.files.items():
        Path(name).write_text(text)
    try:
        aiger = aiger_of(room / FILE, TOP)
    except NotRead as why:
        return "not read", why
    names, rows = names_of(aiger, "b"), ["x" * len(names_of(aiger, "i"))] * (made.cycles + 3)
    fails = {it: is_reached(program, aiger, k, rows) for k, it in enumerate(names)}
    return ("agree" if fails == {"agrees": False, "differs": True} else f"differs: {fails}"), ""
