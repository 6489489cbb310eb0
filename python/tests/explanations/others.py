"""Rows whose circuits or commands differ, and those whose circuit comes from a pipe."""

from explanations.common import OTHER, WITNESS, WRAPS
from library.runs import write


# A chain of 65 gates, all of which the property reads.
GATES = "aag 66 1 0 0 65 1\n2\n132\n" + "".join(f"{at} {at - 2} {at - 2}\n" for at in range(4, 134, 2))


def others(rows):
    """Rows whose circuits or commands differ."""
    rows.row("a stimulus without inputs", ["sim", "empty", write("f", "0\n")], "stimulus: length of line 1",
             ["line 1 has the length 1", "wanted: empty lines, because the circuit has no inputs"])
    rows.row("a stimulus with too many rows", ["bench", "two_gates", write("f", "01\n" * 65537), write("s", "")],
             "stimulus: limit", ["the stimulus has 65537 rows",
                                 "wanted: at most 65,536 rows for bench; sim and wave take any number"])
    rows.row("a witness of another property", ["check", "wraps", write("f", WITNESS.replace(b"b0", b"b7"))],
             "witness: property", ["line 2 names the bad state property b7, counted from b0",
                                   "the circuit has bad state properties: 1, outputs: 0"])
    rows.row("a witness of an output", ["check", "toggle", write("f", "1\nb0\n0\n\n.\n")], "witness: property",
             ["line 2 names the bad state property b0, counted from b0",
              "the circuit has bad state properties: 0, outputs: 2",
              "a circuit of AIGER 1.0 has only outputs, which may stand for bad states:",
              "aig select --from outputs --to aag CIRCUIT > NEW makes properties of them"])
    rows.row("a witness with too many frames", ["check", "wraps", write("f", b"1\nb0\n00\n" + b"1\n" * 65537 + b".\n")],
             "witness: limit", ["the witness has 65537 frames", "wanted: at most 65,536 frames"])
    rows.row("no frames", ["unroll", "--frames", "0", "--to", "aag", "two_gates"], "unroll: no frames",
             ["K is 0", "wanted: at least one frame"])
    rows.row("liveness", ["unroll", "--frames", "1", "--to", "aag", "live"], "unroll: liveness",
             ["the circuit has justice properties: 1, fairness constraints: 1",
              "wanted: none of them: aig select --to aag CIRCUIT > NEW leaves them out"])
    rows.row("too many frames", ["unroll", "--frames", "65537", "--to", "aag", "two_gates"], "unroll: limit",
             ["K is 65537", "wanted: at most 65,536 frames"])
    rows.row("M of the unrolled circuit", ["unroll", "--frames", "65536", "--to", "aag", "inputs"], "unroll: limit",
             ["the unrolled circuit would have M = 4194304",
              "wanted: M and each count of at most 4,194,303; unroll for fewer frames"])
    outputs = "aag 0 0 0 65 0 65 65\n" + "0\n" * 195
    rows.row("counts of the unrolled circuit", ["unroll", "--frames", "65000", "--to", "aag", write("f", outputs)],
             "unroll: limit", ["the unrolled circuit would have M = 8450000",
                               "the unrolled circuit would have outputs: 4225000",
                               "the unrolled circuit would have bad state properties: 4225000",
                               "wanted: M and each count of at most 4,194,303; unroll for fewer frames"])
    rows.row("no frames of a formula", ["cnf", "--frames", "0", "bad_input"], "cnf: no frames",
             ["K is 0", "wanted: at least one frame"])
    rows.row("a formula of another property", ["cnf", "--frames", "1", "--property", "7", "wraps"], "cnf: property",
             ["P is 7, counted from 0", "the circuit has bad state properties: 1, outputs: 0"])
    rows.row("a formula of an output", ["cnf", "--frames", "1", "toggle"], "cnf: property",
             ["P is 0, counted from 0", "the circuit has bad state properties: 0, outputs: 2",
              "a circuit of AIGER 1.0 has only outputs, which may stand for bad states:",
              "aig select --from outputs --to aag CIRCUIT > NEW makes properties of them"])
    rows.row("too many frames of a formula", ["cnf", "--frames", "65537", "wraps"], "cnf: limit",
             ["K is 65537", "wanted: at most 65,536 frames"])
    rows.row("too many frames of a step", ["cnf", "--step", "--frames", "65536", "wraps"], "cnf: limit",
             ["K + 1 is 65537", "wanted: at most 65,536 frames"])
    rows.row("too many gates of a formula", ["cnf", "--frames", "65536", write("gates", GATES)], "cnf: limit",
             ["the property and the constraints read too many inputs and gates for so many frames",
              "wanted: a formula of at most 4,194,304 variables; take fewer frames"])
    rows.row("a property to select that is not there", ["select", "--to", "aag", "--property", "7", "wraps"],
             "select: property", ["the section has no property at a position that --property names",
                                  "positions count from 0: aig info --names CIRCUIT prints them",
                                  "a circuit of AIGER 1.0 has outputs alone: --from outputs"])
    for text, notes in (("one\ntwo\n", []), ("one", ["the last line has no LF at its end"]), ("", [])):
        rows.row(f"names of another length: {text!r}",
                 ["select", "--to", "aag", "--names", write("names", text), "wraps"], "names: lines",
                 [f"lines with an LF at their end: {text.count(chr(10))}", *notes,
                  "wanted: one line for each property that is written; an empty line gives it no name"])
    for text, number, shown, notes in (("f 4\nf 3\n", 2, "f 3", []), ("f 4\nf 4", 2, "f 4", ["it has no newline at its end"]),
                                       ("c 0\r\n", 1, "c 0\\x0d", []), ("\n", 1, "", [])):
        rows.row(f"a line of cuts: {text!r}", ["cut", "--to", "aag", "--cuts", write("cuts", text), "wraps"], f"cuts: line {number}",
                 [f"line {number} is `{shown}`", *notes,
                  "wanted: `f L`, `r L` or `c P`, and a newline: L is the literal of a latch, or for f of a gate, and P the"
                  " position of a constraint, counted from 0", "aig info --names CIRCUIT prints the names of all entries"])
    rows.row("a cut circuit that is too large", ["cut", "--to", "aag", "--cuts", write("cuts", "f 2\n"),
             write("g", "aag 4194303 0 1 1 0\n2 0\n2\n")], "cut: limit",
             ["a circuit has at most 4,194,303 variables and inputs: with one for each latch or gate that is free, the cut"
              " circuit would have more"])
    rows.row("a property that no run can reach", ["witness", "--property", "7", "wraps", write("s", "1\n")],
             "witness: property", ["the circuit has no bad state property at this position",
                                   "positions count from 0: aig info CIRCUIT prints the number of properties"])
    rows.row("a run that reaches nothing", ["witness", "wraps", write("f", "1\n0\n1\n")], "witness: no run",
             ["no frame of the stimulus reaches the property, or a constraint was not 1 before",
              "aig sim CIRCUIT STIM prints the run"])
    rows.row("a run whose start is open", ["witness", write("g", "aag 1 0 1 0 0 1\n2 2 2\n2\n"), write("f", "\n")], "witness: no run",
             ["no frame of the stimulus reaches the property, or a constraint was not 1 before",
              "aig sim CIRCUIT STIM prints the run", "uninitialised latches, which start at x in this run: 1",
              "aig witness --model takes a run with their values from a solver's model of aig cnf"])
    for text, notes in (("enabel", ["do you mean `enable`?"]), ("n", ["names of signals that contain it: 2"]), ("20", []),
                        ("coun", ["do you mean `count`?", "names of signals that contain it: 1"])):
        rows.row(f"no signal {text}", ["why", "--of", text, "wraps", write("s", "1\n")], "why: name",
                 [f"no signal, vector, entry or literal has the name `{text}`", *notes, "the greatest literal is 19",
                  "aig info --names CIRCUIT prints the names of all entries"])
    rows.row("no signal of two letters that are turned round", ["why", "--of", "acb", write("g", "aag 1 1 0 0 0\n2\ni0 abc\n"),
             write("s", "1\n")], "why: name",
             ["no signal, vector, entry or literal has the name `acb`", "do you mean `abc`?", "the greatest literal is 3",
              "aig info --names CIRCUIT prints the names of all entries"])
    long = "n" * 69
    rows.row("no signal of a long name", ["why", "--of", f"{long}k", write("g", f"aag 1 1 0 0 0\n2\ni0 {long}m\n"), write("s", "1\n")],
             "why: name", [f"no signal, vector, entry or literal has the name `{long[:60]}..`", f"do you mean `{long[:60]}..`?",
                           "the greatest literal is 3", "aig info --names CIRCUIT prints the names of all entries"])
    rows.row("no frame of a stimulus", ["why", "--of", "b0", "--frame", "3", "wraps", write("s", "1\n")], "why: frame",
             ["T is 3, counted from 0", "the last frame is 0"])
    rows.row("no frame at all", ["why", "--of", "b0", "wraps", write("s", "")], "why: frame", ["the run has no frames"])
    rows.row("no frame of a witness", ["why", "--witness", "--frame", "4", "wraps", write("f", "1\nb0\n00\n1\n.\n")], "why: frame",
             ["T is 4, counted from 0", "the last frame is 0"])
    write("wide", "aag 4194303 1 0 0 0 1\n2\n2\n")
    rows.row("cells of a bench for a witness", ["reduce", "wide", write("f", "1\nb0\n\n" + "1\n" * 17 + ".\n")],
             "bench: limit", ["M = 4194303 and 17 rows: (M + 1) * rows = 71303168",
                              "wanted: at most 67,108,864; use fewer rows"])
    rows.row("cells of a bench", ["bench", "many", write("f", "\n" * 17), write("s", "")], "bench: limit",
             ["M = 4194303 and 17 rows: (M + 1) * rows = 71303168", "wanted: at most 67,108,864; use fewer rows"])


def unknown(rows):
    """Rows whose circuit comes from a pipe, and so cannot be looked at again."""
    rows.row("a stimulus, and a circuit from a pipe", ["sim", "/dev/stdin", write("f", "01\n")],
             "stimulus: length of line 1",
             ["line 1 has the length 2", "wanted: one of 0, 1 and x for each input of the circuit"], input=WRAPS)
    rows.row("a witness, and a circuit from a pipe", ["check", "/dev/stdin", write("f", "1\nb0\n000\n1\n.\n")],
             "witness: text",
             ["wanted: in line 3 one value for each latch, and in the lines after it one for each input", OTHER],
             input=WRAPS)
    rows.row("a verdict, and a circuit from a pipe", ["check", "/dev/stdin", write("f", "sat\n")], "witness: text",
             ["line 1 is `sat`", "wanted: the line `1`",
              "this is a solver's verdict; the witness begins with the line `1` after it"], input=WRAPS)
    rows.row("a property, and a circuit from a pipe",
             ["check", "/dev/stdin", write("f", WITNESS.replace(b"b0", b"b7"))],
             "witness: property", ["line 2 names the bad state property b7, counted from b0",
             "the circuit has fewer of them"],
             input=WRAPS)
