"""Rows of `aig check --trace` and `aig wave --witness`: the runs of witnesses, whatever their verdicts, as traces, with
properties or without, and as dumps; refused witnesses, of which nothing is written; and which file a failure names."""

from library.circuits import write_all
from library.dump_reader import Dump
from library.runs import EXAMPLES, Ended
from program.rows import Rows
from program.wave import BEHIND, FRONT, scope

# A latch that starts at any value and then toggles, its negation as an output, and itself as the bad state; the same
# with the reset 0. A run that starts at 1 is one that no stimulus gives.
FREE = "aag 1 0 1 1 0 1\n2 3 2\n3\n2\n"
RESET = "aag 1 0 1 1 0 1\n2 3\n3\n2\n"
TOGGLES = (FRONT + scope("latches", "reg", ("!", "l0")) + scope("outputs", "wire", ('"', "o0"))
           + scope("bad", "wire", ("#", "b0")) + BEHIND)
TOGGLED = '#0\n$dumpvars\n1!\n0"\n1#\n$end\n#1\n0!\n1"\n0#\n#2\n'
UNKNOWN = '#0\n$dumpvars\nx!\nx"\nx#\n$end\n#1\n'

# Two inputs, the first the bad state and the second a constraint.
GUARDED = (FRONT + scope("inputs", "wire", ("!", "i0"), ('"', "i1")) + scope("bad", "wire", ("#", "b0"))
           + scope("constraints", "wire", ("$", "c0")) + BEHIND)
CONSTRAINED = "aag 2 2 0 0 0 1 1\n2\n4\n2\n4\n"

# A latch that starts at any value and then toggles, itself as the bad state, and an input that it does not read.
UNREAD = "aag 2 1 1 0 0 1\n2\n4 5 4\n4\n"
UNREAD_DUMP = (FRONT + scope("inputs", "wire", ("!", "i0")) + scope("latches", "reg", ('"', "l0"))
               + scope("bad", "wire", ("#", "b0")) + BEHIND
               + '#0\n$dumpvars\n0!\n1"\n1#\n$end\n#1\nx!\n0"\n0#\n#2\n')

# What is run, the circuit, the lines of the witness after its property, its trace, the bad states and the constraints
# of each frame, its verdict and its dump.
REPLAYS = (
    ("a free latch that starts at 1", FREE, "1\n\n\n\n", "1  0 0\n0  1 1\n1  0 0\n", "1 /0 /1 ", "confirmed",
     TOGGLES + TOGGLED + '1!\n0"\n1#\n#3\n'),
    ("a bad state that is not reached", FREE, "1\n\n\n", "1  0 0\n0  1 1\n", "1 /0 ", "not bad", TOGGLES + TOGGLED),
    ("an unknown start", FREE, "x\n\n", "x  x x\n", "x ", "not bad", TOGGLES + UNKNOWN),
    ("a start that the reset does not allow", RESET, "1\n\n\n", "1  0 0\n0  1 1\n", "1 /0 ", "initial 0",
     TOGGLES + TOGGLED),
    ("a start at x that the reset does not allow", RESET, "x\n\n", "x  x x\n", "x ", "initial 0", TOGGLES + UNKNOWN),
    ("an input that no latch reads", UNREAD, "1\n0\nx\n", "1 0  0\n0 x  1\n", "1 /0 ", "not bad", UNREAD_DUMP),
    ("a constraint that does not hold", CONSTRAINED, "\n11\n1x\n11\n", " 11  \n 1x  \n 11  \n", "1 1/1 x/1 1",
     "constraint 1 0",
     GUARDED + '#0\n$dumpvars\n1!\n1"\n1#\n1$\n$end\n#1\nx"\nx$\n#2\n1"\n1$\n#3\n'),
)

# Witnesses of the guarded input that are refused.
REFUSALS = (
    ("1\nb1\n\n11\n.\n", "property"),
    ("1\nb0\n\n11\n", "text"),
    ("1\nb0\n\n11\n1\n.\n", "text"),
    ("1\nb0\n\n.\n", "text"),
    ("", "text"),
    ("1\nb0\n\n" + "11\n" * 65537 + ".\n", "limit"),
)

# Files that are missing or are directories, by the part that the message names.
FAILURES = (
    ("circuit", ("nowhere witness", "nowhere nowhere", ". witness", ". .")),
    ("witness", ("circuit nowhere", "circuit .", "cycle nowhere", ". nowhere")),
)
COMMANDS = ("check --trace", "check --trace --properties", "wave --witness")


def replays(program, tally, _):
    rows = Rows("replays", program, tally)
    write_all()
    for name, circuit, lines, trace, shown, verdict, dump in REPLAYS:
        texts = {"circuit": circuit, "witness": f"1\nb0\n{lines}.\n"}
        status = 0 if verdict == "confirmed" else 1
        rows.gives(f"{name}, its trace", "check --trace circuit witness", f"{trace}{verdict}\n", status, **texts)
        with_shown = "".join(f"{line} {fields}\n" for line, fields in zip(trace.splitlines(), shown.split("/")))
        for words in ("--trace --properties", "--properties --trace"):
            rows.gives(f"{name}, {words}", f"check {words} circuit witness", f"{with_shown}{verdict}\n", status,
                       **texts)
        rows.gives(f"{name}, its dump", "wave --witness circuit witness", dump, **texts)
        rows.gives(f"{name}, without a trace", "check circuit witness", f"{verdict}\n", status, **texts)
        agrees(rows, name, ["circuit", "witness"])
    rows.gives("the flag may stand last", "wave circuit witness --witness", REPLAYS[-1][-1])
    agrees(rows, "an example", [f"{EXAMPLES}/wraps.aag", f"{EXAMPLES}/wraps.wit"])
    many = "1\nb0\n\n" + "11\n" * 65536 + ".\n"
    trace = " 11  \n" * 65536
    rows.gives("as many frames as a witness may have", "check --trace circuit witness", trace + "confirmed\n",
               witness=many)
    agrees(rows, "as many frames as a witness may have", ["circuit", "witness"])
    refusals(rows)


def agrees(rows, name, files):
    """The dump of a run, read back, has the values of its trace and its properties, and ends after it."""
    traced, shown, ended = (rows.program.run(*command.split(" "), *files) for command in COMMANDS)
    lines, with_shown = (it.out.decode().splitlines()[:-1] for it in (traced, shown))
    dump = Dump(ended.out)
    fields = [dump.of(scope_name) for scope_name in ("latches", "inputs", "outputs")]
    rows.tally.compare(f"replays: {name}, read back", [" ".join(field) for field in zip(*fields)],
                       [line.rsplit(" ", 1)[0] for line in lines])
    fields = [lines, *(dump.of(scope_name) for scope_name in ("bad", "constraints"))]
    rows.tally.compare(f"replays: {name}, its properties", with_shown, [" ".join(field) for field in zip(*fields)])
    rows.tally.compare(f"replays: {name}, its end", (dump.times[-1], ended._replace(out=b"")),
                       (len(lines), Ended(0, b"", b"")))


def refusals(rows):
    for command in COMMANDS:
        for witness, text in REFUSALS:
            rows.refuses(f"{command}: {text}", f"{command} circuit witness", f"witness: {text}", circuit=CONSTRAINED,
                         witness=witness)
        rows.refuses(f"{command}: no such property", f"{command} circuit witness", "witness: property", circuit=UNREAD,
                     witness="1\nb1\n1\n0\n.\n")
        rows.refuses(f"{command}: a circuit wins over a witness", f"{command} cycle cycle", "circuit: cycle 2")
        rows.refuses(f"{command}: a stimulus is no witness", f"{command} circuit rows", "witness: text", rows="11\n")
        for part, runs in FAILURES:
            for files in runs:
                rows.fails(f"{command}: the {part}'s file is told of {files}", f"{command} {files}", part)
