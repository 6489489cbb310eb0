"""Rows of `aig witness`: the first frame that reaches a bad state, solvers' models of formulas, and refusals."""

from library.circuits import write_all
from library.models import read_model
from library.runs import EXAMPLES, contents, write
from program.rows import Rows

# Two properties: the second input, and the first. A constraint: not both.
TWO = "aag 3 2 0 0 1 2 1\n2\n4\n4\n2\n7\n6 4 2\n"
# Latches that start at 0, at 1 and at any value; the property is that the second one and the input are 1.
RESETS = "aag 5 1 3 0 1 1\n2\n4 2\n6 6 1\n8 8 8\n10\n10 6 2\n"
# The same, where the property is that the third one is 1 too.
BEHIND = "aag 6 1 3 0 2 1\n2\n4 2\n6 6 1\n8 8 8\n12\n10 6 2\n12 10 8\n"
# Three inputs, of which the second is the property.
SECOND = "aag 3 3 0 0 0 1\n2\n4\n6\n4\n"
# A latch without a reset that takes the input, as the property.
FREE = "aag 2 1 1 0 0 1\n2\n4 2 4\n4\n"
# No inputs: a latch that is 0 and then 1, as the property, and one that follows it.
COUNTS = "aag 2 0 2 0 0 1\n2 1\n4 2\n2\n"
# A latch that negates itself, as the property, and no inputs.
TOGGLES = "aag 1 0 1 0 0 1\n2 3\n2\n"
# The property is the input, the constraint the latch, which starts at 0 and is then 1.
LATER = "aag 2 1 1 0 0 1 1\n2\n4 1\n2\n4\n"

# A name of the row, options, the circuit, the stimulus, and what is written.
WITNESSES = (
    ("one frame", "", "bad_input", "1\n", "1\nb0\n\n1\n.\n"),
    ("the first of several frames", "", "bad_input", "0\nx\n1\n1\n0\n", "1\nb0\n\n0\nx\n1\n.\n"),
    ("frame 0 of several", "", "bad_input", "1\n1\n", "1\nb0\n\n1\n.\n"),
    ("any property", "", TWO, "x0\n10\n01\n", "1\nb1\n\nx0\n10\n.\n"),
    ("the property that is named", "--property 0", TWO, "x0\n10\n01\n", "1\nb0\n\nx0\n10\n01\n.\n"),
    ("the other one", "--property 1", TWO, "01\n00\n10\n", "1\nb1\n\n01\n00\n10\n.\n"),
    ("the least of two at a frame", "", "aag 1 1 0 0 0 3\n2\n3\n2\n2\n", "x\n1\n", "1\nb1\n\nx\n1\n.\n"),
    ("a constant 1", "", "aag 0 0 0 0 0 2\n0\n1\n", "\n\n", "1\nb1\n\n\n.\n"),
    ("no inputs", "", TOGGLES, "\n\n\n", "1\nb0\n0\n\n\n.\n"),
    ("a constraint that holds", "", "guarded", "01\n11\n", "1\nb0\n\n01\n11\n.\n"),
    ("an unknown start", "", FREE, "1\n0\n", "1\nb0\nx\n1\n0\n.\n"),
    ("an unknown start that is not 1", "", FREE, "0\n1\nx\n", "1\nb0\nx\n0\n1\nx\n.\n"),
    ("resets", "", RESETS, "0\n1\n", "1\nb0\n01x\n0\n1\n.\n"),
    ("no inputs, and two latches", "", COUNTS, "\n\n\n\n", "1\nb0\n00\n\n\n.\n"),
    ("justice and fairness, which are ignored", "", "live_bad", "0\n1\n", "1\nb0\n\n0\n1\n.\n"),
)

NO_RUNS = (
    ("no frames", "", "bad_input", ""),
    ("a property that is never 1", "", "bad_input", "0\nx\n"),
    ("no property at all", "", "one_gate", "11\n"),
    ("another property", "--property 0", TWO, "10\n"),
    ("a constant 0", "--property 0", "aag 0 0 0 0 0 2\n0\n1\n", "\n"),
    ("a constraint that is 0 at the frame", "", "guarded", "10\n"),
    ("a constraint that is x at the frame", "", "guarded", "1x\n"),
    ("a constraint that was 0 before", "", "guarded", "00\n11\n"),
    ("a constraint that excludes all runs", "", "aag 1 1 0 0 0 1 1\n2\n2\n0\n", "1\n1\n"),
    ("a constraint that is 0 at the start", "", LATER, "1\n1\n"),
    ("a start that may be 0", "", "aag 1 0 1 0 0 1\n2 2 2\n2\n", "\n\n"),
)

REFUSALS = (
    ("a property that is not there", "--property 1 bad_input rows", "witness: property"),
    ("the greatest position", "--property 4294967295 bad_input rows", "witness: property"),
    ("a property where there is none", "--property 0 one_gate rows", "witness: property"),
    ("a property before a broken stimulus", "--property 1 bad_input broken", "witness: property"),
    ("a character", "bad_input broken", "stimulus: character in line 2"),
    ("a broken line after the frame", "--property 0 bad_input broken", "stimulus: character in line 2"),
    ("a length", "one_gate rows", "stimulus: length of line 1"),
    ("a line that does not end", "bad_input unfinished", "stimulus: unfinished"),
    ("a refused circuit", "--property 9 cycle broken", "circuit: cycle 2"),
)

# A name of the row, options, the circuit, a solver's model of the formula, and what is written. Variable 2 is the first
# input at frame 0; the inputs of the frames and then the free latches follow.
MODELS = (
    ("cadical's form", "--frames 2", "bad_input", "c an answer\ns SATISFIABLE\nv -1 -2 3 0\nc done\n",
     "1\nb0\n\n0\n1\n.\n"),
    ("picosat's form", "--frames 2", "bad_input", "s SATISFIABLE\nv -1 2 -3 0\n", "1\nb0\n\n1\n.\n"),
    ("minisat's form", "--frames 2", "bad_input", "SAT\n-1 -2 3 0\n", "1\nb0\n\n0\n1\n.\n"),
    ("cryptominisat's form", "--frames 2", "bad_input", "s SATISFIABLE\nv -1 -2 \nv 3 \nv 0\n", "1\nb0\n\n0\n1\n.\n"),
    ("literals alone", "--frames 2", "bad_input", "3\t-2 -1 0", "1\nb0\n\n0\n1\n.\n"),
    ("a literal that is named twice", "--frames 2", "bad_input", "3 3\n0\n\n \t\n", "1\nb0\n\nx\n1\n.\n"),
    ("an input that is not named", "--frames 2", "bad_input", "3 0", "1\nb0\n\nx\n1\n.\n"),
    ("the first of several frames", "--frames 3", "bad_input", "-2 3 4 0", "1\nb0\n\n0\n1\n.\n"),
    ("the start of a free latch", "--frames 2", FREE, "-1 -2 -3 4 0", "1\nb0\n1\n0\n.\n"),
    ("a free latch that starts at 0", "--frames 2", FREE, "-1 2 -3 -4 0", "1\nb0\n0\n1\n0\n.\n"),
    ("a free latch that is not named", "--frames 2", FREE, "2 0", "1\nb0\nx\n1\nx\n.\n"),
    ("latches that nothing reads", "--frames 2", RESETS, "-2 3 0", "1\nb0\n01x\n0\n1\n.\n"),
    ("inputs that nothing reads", "--frames 2", SECOND, "-2 3 0", "1\nb0\n\nx0x\nx1x\n.\n"),
    ("a free latch behind others", "--frames 2", BEHIND, "-2 3 4 0", "1\nb0\n011\n0\n1\n.\n"),
    ("two free latches", "--frames 2", "aag 3 1 2 0 0 1\n2\n4 2 4\n6 4 6\n6\n", "-2 -3 4 -5 0", "1\nb0\n10\n0\n0\n.\n"),
    ("rows of two inputs", "--frames 2", "guarded", "-2 3 4 5 0", "1\nb0\n\n01\n11\n.\n"),
    ("the property that is named", "--frames 1 --property 1", TWO, "2 -3 0", "1\nb1\n\n10\n.\n"),
    ("property 0", "--frames 1", TWO, "-2 3 0", "1\nb0\n\n01\n.\n"),
    ("no inputs", "--frames 3", TOGGLES, "-1 0\n", "1\nb0\n0\n\n\n.\n"),
)

# Models and why they are refused: of the formula of bad_input and two frames, which has three variables, and of that of a
# run of one frame of an input as the constraint, which has four. LAST is the last one, and one more.
BAD_MODELS = (
    ("no model", "s UNSATISFIABLE\n", "unsatisfiable"),
    ("no model, after a comment, and more", "c why\nUNSATISFIABLE\nv 9 0\n", "unsatisfiable"),
    ("no model, in short", "UNSAT", "unsatisfiable"),
    ("no answer", "s UNKNOWN\n", "unknown"),
    ("no answer of minisat", "INDETERMINATE\n", "unknown"),
    ("no text", "", "text at 0"),
    ("a variable over the last", "-1 -2 LAST 0\n", "text at 6"),
    ("a variable with both signs", "-1 1 0\n", "text at 3"),
    ("no 0 at the end", "-1 -2 3\n", "text at 8"),
    ("a literal after the 0", "0\n3\n", "text at 2"),
    ("a second 0", "3 0 0\n", "text at 4"),
    ("a leading zero", "03 0\n", "text at 0"),
    ("a plus", "+3 0\n", "text at 0"),
    ("a 0 with a minus", "-0 0\n", "text at 0"),
    ("two minuses", "--1 0\n", "text at 0"),
    ("a v within a line", "1 v 0\n", "text at 2"),
    ("a number without an end", "99999999999999999999 0\n", "text at 0"),
    ("an answer after a literal", "-1\ns SATISFIABLE\n0\n", "text at 3"),
    ("two answers", "SAT\nSAT\n0\n", "text at 4"),
    ("an answer with a blank after it", "SAT \n0\n", "text at 0"),
    ("another word", "s satisfiable\n0\n", "text at 0"),
    ("a carriage return", "3 0\r\n", "text at 2"),
)

# A latch that takes the input, as the property; one that keeps its value, and one that takes it, as the property.
DELAY = "aag 2 1 1 0 0 1\n2\n4 2\n4\n"
KEEPS = "aag 2 0 2 0 0 1\n2 2\n4 2\n4\n"

# A name of the row, options, the circuit, a solver's model of the formula of the induction step, what is written, and
# the verdict on it. After variable 1 come the inputs of one frame more, and then all latches.
STEP_MODELS = (
    ("a step from the resets", "--frames 1", DELAY, "2 -3 -4 0", "1\nb0\n0\n1\n0\n.\n", "confirmed"),
    ("a step of two frames", "--frames 2", DELAY, "-2 3 -4 -5 0", "1\nb0\n0\n0\n1\n0\n.\n", "confirmed"),
    ("a step from another state", "--frames 1", KEEPS, "2 -3 0", "1\nb0\n10\n\n\n.\n", "initial 0"),
    ("a step from a state that is known in part", "--frames 1", KEEPS, "2 0", "1\nb0\n1x\n\n\n.\n", "initial 0"),
    ("a step of the property that is named", "--frames 1 --property 1", TWO, "-2 3 4 -5 0", "1\nb1\n\n01\n10\n.\n",
     "confirmed"),
    ("a step that reaches the property at once", "--frames 1", DELAY, "4 0", "1\nb0\n1\nx\n.\n", "initial 0"),
)

# The constraint is the input; the latch, which keeps any value; one of two inputs; that one of two is 0; the input and a
# latch that starts at 1.
KEEPS_INPUT = "aag 1 1 0 0 0 0 1\n2\n2\n"
KEEPS_LATCH = "aag 1 0 1 0 0 0 1\n2 2 2\n2\n"
KEEPS_SECOND = "aag 2 2 0 0 0 1 1\n2\n4\n2\n4\n"
KEEPS_EITHER = "aag 3 2 0 0 1 0 1\n2\n4\n7\n6 4 2\n"
KEEPS_BOTH = "aag 3 1 2 0 0 1 2\n2\n4 4 1\n6 2 6\n2\n2\n4\n"

# A name of the row, the frames, the circuit, a solver's model of the formula of cnf --alive, and what is written.
ALIVE_MODELS = (
    ("a run of one frame", 1, KEEPS_INPUT, "s SATISFIABLE\nv -1 2 0\n", "1\nb0\n\n1\n.\n"),
    ("a run of two frames", 2, KEEPS_INPUT, "2 3 0", "1\nb0\n\n1\n1\n.\n"),
    ("inputs that are not read", 2, KEEPS_SECOND, "2 3 0", "1\nb0\n\nx1\nx1\n.\n"),
    ("inputs that are not named", 2, KEEPS_EITHER, "-2 -5 0", "1\nb0\n\n0x\nx0\n.\n"),
    ("a start that the model names", 2, KEEPS_LATCH, "2 0", "1\nb0\n1\n\n\n.\n"),
    ("a start by the resets", 2, KEEPS_BOTH, "2 3 0", "1\nb0\n1x\n1\n1\n.\n"),
    ("no constraint", 3, "bad_input", "0\n", "1\nb0\n\nx\nx\nx\n.\n"),
)

# Models whose run breaks a constraint.
BROKEN_MODELS = (
    ("a constraint that is 0", 2, KEEPS_INPUT, "2 -3 0"),
    ("a constraint that is x", 2, KEEPS_INPUT, "3 0"),
    ("a start that is 0", 1, KEEPS_LATCH, "-2 0"),
    ("a start that is x", 1, KEEPS_LATCH, "0\n"),
    ("a constraint that no run keeps", 1, "aag 0 0 0 0 0 0 1\n0\n", "0\n"),
)

ALIVE_REFUSALS = (
    ("a run of no frames", "--frames 0 bad_input", "cnf: no frames"),
    ("a run of too many frames", "--frames 65537 bad_input", "cnf: limit"),
    ("a run of a refused circuit", "--frames 0 cycle", "circuit: cycle 2"),
)

STEP_REFUSALS = (
    ("a step of no frames", "--frames 0 --property 7 bad_input", "cnf: no frames"),
    ("a step of no property", "--frames 65536 --property 1 bad_input", "cnf: property"),
    ("a step of too many frames", "--frames 65536 bad_input", "cnf: limit"),
    ("a step of a refused circuit", "--frames 0 cycle", "circuit: cycle 2"),
    ("a step whose run reaches nothing", "--frames 1 guarded", "witness: no run"),
)

MODEL_REFUSALS = (
    ("a model for no frames", "--frames 0 --property 7 bad_input", "cnf: no frames"),
    ("a model for no property", "--frames 65537 --property 1 bad_input", "cnf: property"),
    ("a model for too many frames", "--frames 65537 bad_input", "cnf: limit"),
    ("a model and a refused circuit", "--frames 0 cycle", "circuit: cycle 2"),
    ("a model whose run reaches nothing", "--frames 2 guarded", "witness: no run"),
)


def step_models(rows):
    """Models of the formula of the induction step."""
    for name, options, circuit, model, text, verdict in STEP_MODELS:
        write("circuit", circuit)
        write("model", model)
        rows.gives(name, f"witness --step --model model {options} circuit", text)
        write("found", text)
        rows.gives(f"{name}, checked", "check circuit found", f"{verdict}\n", verdict != "confirmed")
    write("model", "-2 0\n")
    for name, words, fault in STEP_REFUSALS:
        rows.refuses(name, f"witness --step --model model {words}", fault)


def alive_models(rows):
    """Models of the formula that a run keeps all constraints."""
    for name, frames, circuit, model, text in ALIVE_MODELS:
        file = circuit
        if circuit.startswith("aag"):
            file = "circuit"
            write(file, circuit)
        write("model", model)
        rows.gives(name, f"witness --alive --model model --frames {frames} {file}", text)
        write("found", text)
        rows.gives(f"{name}, checked", f"check --alive --frames {frames} {file} found", "alive\n")
    for name, frames, circuit, model in BROKEN_MODELS:
        write("circuit", circuit)
        write("model", model)
        rows.refuses(name, f"witness --alive --model model --frames {frames} circuit", "witness: no run")
    for name, model, fault in BAD_MODELS:
        write("model", model.replace("LAST", "5"))
        rows.refuses(f"{name}, of a run", "witness --alive --frames 1 --model model kept_input", f"model: {fault}",
                     kept_input=KEEPS_INPUT)
    for name, words, fault in ALIVE_REFUSALS:
        rows.refuses(name, f"witness --alive --model model {words}", fault)
    for words in ("--alive", "--alive --model model", "--alive --frames 1",
                  "--alive --model model --frames 1 --property 0",
                  "--alive --model model --frames 1 --step", "--alive --model model --certificate bad_input"):
        got = rows.run("witness", *words.split(" "), "bad_input")
        rows.tally.check(f"witness: {words}", got.status == 2 and not got.out, got)
    got = rows.run("witness", "--alive", "bad_input", "rows")
    rows.tally.check("witness: --alive with a stimulus", got.status == 2 and not got.out, got)


def models(rows):
    """Solvers' models, in each form, and broken ones."""
    for name, options, circuit, model, text in MODELS:
        file = circuit
        if circuit.startswith("aag"):
            file = "circuit"
            write(file, circuit)
        write("model", model)
        rows.gives(name, f"witness --model model {options} {file}", text)
        write("found", text)
        rows.gives(f"{name}, checked", f"check {file} found", "confirmed\n")
    for name, model, fault in BAD_MODELS:
        write("model", model.replace("LAST", "4"))
        rows.refuses(name, "witness --frames 2 --model model bad_input", f"model: {fault}")
    write("model", "-2 0\n")
    for name, words, fault in MODEL_REFUSALS:
        rows.refuses(name, f"witness --model model {words}", fault)
    whole = "c why\ns SATISFIABLE\nv -1 2\nv -3 0\n"
    broken = {whole[:at] for at in range(len(whole))}
    broken |= {whole[:at] + byte + whole[at + 1:] for at in range(len(whole)) for byte in " \n-0123cvs\x00"}
    for model in sorted(broken):
        write("model", model)
        named = read_model(model, 3)
        words = "witness --model model --frames 2 bad_input"
        if isinstance(named, str):
            rows.refuses(f"model {model!r}", words, f"model: {named}")
        elif 2 in named:
            rows.gives(f"model {model!r}", words, "1\nb0\n\n1\n.\n")
        elif 3 in named:
            rows.gives(f"model {model!r}", words, f"1\nb0\n\n{'0' if -2 in named else 'x'}\n1\n.\n")
        else:
            rows.refuses(f"model {model!r}", words, "witness: no run")
    rows.fails("no model's file", "witness --model missing --frames 1 bad_input", "model")
    rows.fails("no circuit before no model", "witness --model missing --frames 1 missing", "circuit")


def witness(program, tally, _):
    rows = Rows("witness", program, tally)
    write_all()
    write("live_bad", "aag 1 1 0 0 0 1 0 1 1\n2\n2\n1\n2\n2\n")
    for name, options, circuit, stimulus, text in WITNESSES:
        file = circuit
        if circuit.startswith("aag"):
            file = "circuit"
            write(file, circuit)
        write("rows", stimulus)
        words = " ".join(word for word in ("witness", options, file, "rows") if word)
        rows.gives(name, words, text)
        write("found", text)
        rows.gives(f"{name}, checked", f"check {file} found", "confirmed\n")
    for name, options, circuit, stimulus in NO_RUNS:
        file = circuit
        if circuit.startswith("aag"):
            file = "circuit"
            write(file, circuit)
        write("rows", stimulus)
        rows.refuses(name, " ".join(word for word in ("witness", options, file, "rows") if word), "witness: no run")
    write("rows", "1\n0\n")
    write("broken", "1\ny\n")
    write("unfinished", "1\n0")
    for name, words, fault in REFUSALS:
        rows.refuses(name, f"witness {words}", fault)
    rows.fails("no stimulus", "witness bad_input missing", "stimulus")
    rows.fails("no circuit", "witness missing missing", "circuit")
    models(rows)
    step_models(rows)
    alive_models(rows)
    write("rows", "1\n" * 9)
    rows.gives("an example", f"witness {EXAMPLES}/wraps.aag rows", contents(f"{EXAMPLES}/wraps.wit"))
