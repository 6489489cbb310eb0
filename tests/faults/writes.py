"""Runs that cannot write their results: on a full device, on a closed output, and where the first write fails and all
later ones would be taken. Each says so, ends with status 3, and writes nothing after the failure. A run that is
rejected before it writes reports that fault."""

import os

from faults.refusing import Refusing
from library.circuits import write_all
from library.runs import Ended, LeftOut, input_or_output, leave_out, refused, write

ROWS = "11\n" * 3000
MANY_FRAMES = "1\nb0\n\n" + "0\n1\n" * 5000 + ".\n"
MANY_INPUTS = "aag 5000 5000 0 0 0\n" + "".join(f"{2 * at}\n" for at in range(1, 5001))
OUTPUT, STIMULUS, SCRIPT = (input_or_output(part) for part in ("output", "stimulus", "script"))
CYCLE = refused("circuit: cycle 2")

# What is run, its arguments, the files that they name beside the small circuits, and how the run ends.
RUNS = (
    ("toaig", "toaig --to aag one_gate", {}, OUTPUT),
    ("toaig to binary", "toaig --to aig one_gate", {}, OUTPUT),
    ("toaig of a refused circuit", "toaig --to aag cycle", {}, CYCLE),
    ("unroll", "unroll --frames 2 --to aag one_gate", {}, OUTPUT),
    ("unroll to binary", "unroll --frames 2 --to aig one_gate", {}, OUTPUT),
    ("unroll of more than a block", "unroll --frames 2000 --to aag one_gate", {}, OUTPUT),
    ("info", "info one_gate", {}, OUTPUT),
    ("info of a refused circuit", "info cycle", {}, CYCLE),
    ("select", "select --to aag bad_input", {}, OUTPUT),
    ("witness", "witness bad_input rows", {"rows": "1\n"}, OUTPUT),
    ("witness of no run", "witness bad_input rows", {"rows": "0\n"}, refused("witness: no run")),
    ("witness of a model", "witness --model model --frames 2 bad_input", {"model": "3 0\n"}, OUTPUT),
    ("witness of a model that is refused", "witness --model model --frames 2 bad_input", {"model": "UNSAT\n"},
     refused("model: unsatisfiable")),
    ("witness of a run", "witness --alive --model model --frames 2 bad_input", {"model": "0\n"}, OUTPUT),
    ("witness of a run that is broken", "witness --alive --model model --frames 2 guarded", {"model": "-2 0\n"},
     refused("witness: no run")),
    ("refute", "refute --frames 2 constants proof", {"constants": "aag 0 0 0 0 0 1\n0\n", "proof": ""}, OUTPUT),
    ("refute with a proof that is refused", "refute --frames 2 bad_input proof", {"proof": ""},
     refused("proof: no refutation")),
    ("refute of a refused circuit", "refute --frames 2 cycle proof", {"proof": ""}, CYCLE),
    ("refute of a run", "refute --alive --frames 2 contradicts proof",
     {"contradicts": "aag 0 0 0 0 0 0 1\n0\n", "proof": ""}, OUTPUT),
    ("refute of a run that there is", "refute --alive --frames 2 guarded proof", {"proof": ""},
     refused("proof: no refutation")),
    ("select to binary", "select --from outputs --to aig one_gate", {}, OUTPUT),
    ("select of a refused circuit", "select --to aag cycle", {}, CYCLE),
    ("select of a property that is not there", "select --to aag --property 0 one_gate", {},
     refused("select: property")),
    ("cut", "cut --to aag --cuts cuts one_gate", {"cuts": "f 6\n"}, OUTPUT),
    ("cut to binary", "cut --to aig --cuts cuts one_gate", {}, OUTPUT),
    ("cut of more than a block", "cut --to aag --cuts cuts many_inputs", {"many_inputs": MANY_INPUTS, "cuts": ""},
     OUTPUT),
    ("cut of a refused circuit", "cut --to aag --cuts cuts cycle", {}, CYCLE),
    ("cut of what is not there", "cut --to aag --cuts cuts one_gate", {"cuts": "c 0\n"}, refused("cuts: line 1")),
    ("names", "info --names one_gate", {}, OUTPUT),
    ("names of more than a block", "info --names many_inputs", {"many_inputs": MANY_INPUTS}, OUTPUT),
    ("names of a refused circuit", "info --names cycle", {}, CYCLE),
    ("unroll of a refused circuit", "unroll --frames 2 --to aag cycle", {}, CYCLE),
    ("unroll of a circuit that is not unrolled", "unroll --frames 2 --to aag live", {}, refused("unroll: liveness")),
    ("cnf", "cnf --frames 2 guarded", {}, OUTPUT),
    ("cnf of more than a block", "cnf --frames 2000 guarded", {}, OUTPUT),
    ("cnf of a refused circuit", "cnf --frames 2 cycle", {}, CYCLE),
    ("cnf of a property that is not there", "cnf --frames 2 one_gate", {}, refused("cnf: property")),
    ("strengthen", "strengthen --to aag --certificate guarded bad_input", {}, OUTPUT),
    ("strengthen to binary", "strengthen --to aig --certificate guarded bad_input", {}, OUTPUT),
    ("strengthen of more than a block", "strengthen --to aag --certificate many_inputs guarded",
     {"many_inputs": MANY_INPUTS},
     OUTPUT),
    ("strengthen of a refused circuit", "strengthen --to aag --certificate cycle cycle", {}, CYCLE),
    ("strengthen by a refused certificate", "strengthen --to aag --certificate cycle bad_input", {},
     refused("certificate: cycle 2")),
    ("strengthen for a property that is not there", "strengthen --to aag --certificate guarded one_gate", {},
     refused("strengthen: property")),
    ("cnf with a certificate", "cnf --certificate guarded bad_input", {}, OUTPUT),
    ("cnf with a certificate, of more than a block", "cnf --certificate many_inputs guarded", {}, OUTPUT),
    ("cnf with a refused certificate", "cnf --certificate cycle guarded", {}, refused("certificate: cycle 2")),
    ("refute with a certificate", "refute --certificate constants constants proof", {"proof": ""}, OUTPUT),
    ("refute with a wrong certificate", "refute --certificate guarded bad_input proof", {},
     refused("proof: no refutation")),
    ("witness of a model with a certificate", "witness --model model --certificate guarded bad_input",
     {"model": "2 0\n"},
     OUTPUT),
    ("witness of a model with a certificate, of no run", "witness --model model --certificate constants constants", {},
     refused("witness: no run")),
    ("cnf of a run", "cnf --alive --frames 2 guarded", {}, OUTPUT),
    ("cnf of a run of no frames", "cnf --alive --frames 0 guarded", {}, refused("cnf: no frames")),
    ("sim", "sim one_gate rows", {"rows": "11\n"}, STIMULUS),
    ("sim of a refused circuit", "sim cycle rows", {"rows": "11\n"}, CYCLE),
    ("sim with a short line", "sim one_gate rows", {"rows": "11\n1\n"}, STIMULUS),
    ("sim with a wrong character", "sim one_gate rows", {"rows": "11\n1z\n"}, STIMULUS),
    ("sim with an unfinished line", "sim one_gate rows", {"rows": "11\n1"}, STIMULUS),
    ("sim with a first line that is short", "sim one_gate rows", {"rows": "1\n"},
     refused("stimulus: length of line 1")),
    ("sim of more than a block", "sim one_gate rows", {"rows": ROWS}, STIMULUS),
    ("sim of more than a block, with a short line", "sim one_gate rows", {"rows": ROWS + "1\n"}, STIMULUS),
    ("wave", "wave one_gate rows", {"rows": "11\n"}, STIMULUS),
    ("wave of a refused circuit", "wave cycle rows", {"rows": "11\n"}, CYCLE),
    ("wave without frames", "wave one_gate rows", {"rows": ""}, STIMULUS),
    ("wave with a first line that is short", "wave one_gate rows", {"rows": "1\n"}, STIMULUS),
    ("wave of more than a block, with a short line", "wave one_gate rows", {"rows": ROWS + "1\n"}, STIMULUS),
    ("bench", "bench one_gate rows script", {"rows": ROWS, "script": "v 0 6\n"}, SCRIPT),
    ("bench of more than a block", "bench one_gate rows script", {"rows": ROWS, "script": "v 0 6\n" * 9000}, SCRIPT),
    ("bench that unrolls", "bench one_gate rows script", {"rows": ROWS, "script": "u\n"}, SCRIPT),
    ("bench with a last piece", "bench one_gate rows script", {"rows": ROWS, "script": "v 0 6"}, SCRIPT),
    ("bench of a refused circuit", "bench cycle rows script", {"rows": ROWS, "script": "v 0 6"}, CYCLE),
    ("bench of a refused stimulus", "bench one_gate rows script", {"rows": ROWS + "1\n", "script": "v 0 6"},
     refused("stimulus: length of line 3001")),
    ("check", "check bad_input witness", {"witness": "1\nb0\n\n1\n.\n"}, OUTPUT),
    ("check of a refused circuit", "check cycle witness", {"witness": "1\nb0\n\n1\n.\n"}, CYCLE),
    ("check with another verdict", "check bad_input witness", {"witness": "1\nb0\n\n0\n.\n"}, OUTPUT),
    ("check of a run", "check --alive guarded witness", {"witness": "1\nb0\n\n01\n.\n"}, OUTPUT),
    ("check of a broken run", "check --alive guarded witness", {"witness": "1\nb0\n\n00\n.\n"}, OUTPUT),
    ("check of a run of a refused circuit", "check --alive cycle witness", {"witness": "1\nb0\n\n01\n.\n"}, CYCLE),
    ("check of a refused run", "check --alive guarded witness", {"witness": "1\nb0\n\n01\n"}, refused("witness: text")),
    ("check of a refused witness", "check bad_input witness", {"witness": "1\nb1\n\n0\n.\n"},
     refused("witness: property")),
    ("reduce", "reduce bad_input witness", {"witness": "1\nb0\n\n1\n.\n"}, OUTPUT),
    ("reduce of a refused circuit", "reduce cycle witness", {"witness": "1\nb0\n\n1\n.\n"}, CYCLE),
    ("reduce with another verdict", "reduce bad_input witness", {"witness": "1\nb0\n\n0\n.\n"}, OUTPUT),
    ("reduce of more than a block", "reduce bad_input witness", {"witness": MANY_FRAMES}, OUTPUT),
    ("reduce of a refused witness", "reduce bad_input witness", {"witness": "1\nb1\n\n0\n.\n"},
     refused("witness: property")),
    ("why", "why --of b0 bad_input rows", {"rows": "1\n"}, OUTPUT),
    ("why of a witness", "why --witness bad_input witness", {"witness": "1\nb0\n\n1\n.\n"}, OUTPUT),
    ("why of no name", "why --of name bad_input rows", {"rows": "1\n"}, refused("why: name")),
    ("why of no frame", "why --of b0 bad_input rows", {"rows": ""}, refused("why: frame")),
    ("check with a trace", "check --trace bad_input witness", {"witness": "1\nb0\n\n1\n.\n"}, OUTPUT),
    ("check with a trace and another verdict", "check --trace bad_input witness", {"witness": "1\nb0\n\n0\n.\n"},
     OUTPUT),
    ("check with a trace of more than a block", "check --trace bad_input witness", {"witness": MANY_FRAMES}, OUTPUT),
    ("check with properties", "check --trace --properties bad_input witness", {"witness": MANY_FRAMES}, OUTPUT),
    ("check with a trace of a refused witness", "check --trace bad_input witness", {"witness": "1\nb1\n\n0\n.\n"},
     refused("witness: property")),
    ("wave of a witness", "wave --witness bad_input witness", {"witness": "1\nb0\n\n1\n.\n"}, OUTPUT),
    ("wave of a witness of more than a block", "wave --witness bad_input witness", {"witness": MANY_FRAMES}, OUTPUT),
    ("wave of a refused witness", "wave --witness bad_input witness", {"witness": "1\nb1\n\n0\n.\n"},
     refused("witness: property")),
    ("wave of a witness of a refused circuit", "wave --witness cycle witness", {"witness": "1\nb0\n\n1\n.\n"}, CYCLE),
)


def writes(program, tally, _):
    write_all()
    beneath = first_write_fails(program)
    for name, words, files, wanted in RUNS:
        for file, text in files.items():
            write(file, text)
        words = words.split(" ")
        tally.compare(f"writes: {name}, a full device", full(program, words), wanted)
        closed = program.run(*words, stdout=None, preexec_fn=lambda: os.close(1))
        tally.compare(f"writes: {name}, a closed output", closed._replace(out=b""), wanted)
        if beneath:
            ended = beneath.run(*words, CALL="write", REFUSE=1)
            tally.compare(f"writes: {name}, a first write that fails", ended, wanted)
    write("rows", ROWS)
    write("script", "")
    ended = full(program, ["bench", "one_gate", "rows", "script"])
    tally.compare("writes: bench of an empty script, a full device", ended, Ended(0, b"", b""))


def full(program, words):
    with open("/dev/full", "wb") as device:
        return program.run(*words, stdout=device)._replace(out=b"")


def first_write_fails(program):
    """The program whose first write fails, or None where that cannot be had."""
    try:
        return Refusing(program, "refuse_call")
    except LeftOut as reason:
        leave_out("writes: runs whose first write fails", reason)
        return None
