"""Each command once, where there is memory enough. A contract allows a command to report that it is out of memory in
place of any answer, so only a run shows that it does not. The circuits are an example and one of 40,000 gates. The
commands are those of the help."""

import re

from library.circuits import write_all
from library.runs import EXAMPLES, write

WIDTH, GATES, FRAMES = 200, 40_000, 40
# The arguments of a run of each command, and what it prints somewhere.
RUNS = {
    "toaig": ("--to aig CIRCUIT", b"aig "),
    "sim": ("CIRCUIT ROWS", b"\n"),
    "wave": ("CIRCUIT ROWS", b"$enddefinitions"),
    "bench": ("--circuit-out kept --stimulus-out kept_rows CIRCUIT ROWS SCRIPT", b"ok\n"),
    "shell": ("--witness CIRCUIT WITNESS", b": reached at "),
    "unroll": ("--frames 3 --to aag --map map CIRCUIT", b"aag "),
    "check": ("CIRCUIT WITNESS", b"confirmed\n"),
    "cnf": ("--frames 3 CIRCUIT", b"p cnf "),
    "info": ("CIRCUIT", b"gates "),
    "select": ("--property 0 --to aag CIRCUIT", b"aag "),
    "cut": ("--to aag --cuts CUTS CIRCUIT", b"aag "),
    "witness": ("CIRCUIT ROWS", b"1\nb0\n"),
    "refute": ("--frames 3 CIRCUIT PROOF", b"unreachable within 3\n"),
    "reduce": ("CIRCUIT WITNESS", b"1\nb0\n"),
    "why": ("--witness CIRCUIT WITNESS", b"=1 at 3"),
    "strengthen": ("--to aag --certificate CERTIFICATE CIRCUIT", b"aag "),
}
# The lines that `shell` reads.
LINES = b"show b0\ncheck\nset 0 i0 x\ndiff\nnew i0 0\nout o0 1\nsave kept kept_rows\nwitness kept_wit\nwave kept_dump\n"
# Further runs of these commands.
MORE = (
    ("toaig", "--to aag CIRCUIT", b"aag "), ("wave", "--witness CIRCUIT WITNESS", b"$enddefinitions"),
    ("why", "--of 1 CIRCUIT ROWS", b"1=1 at "),
    ("check", "--trace CIRCUIT WITNESS", b"confirmed\n"), ("cnf", "--step --frames 3 CIRCUIT", b"p cnf "),
    ("info", "--names CIRCUIT", b"b 0 "), ("strengthen", "--to aig --certificate CERTIFICATE CIRCUIT", b"aig "),
    ("cut", "--to aig --cuts CUTS CIRCUIT", b"aig "),
    ("cnf", "--certificate CERTIFICATE CIRCUIT", b"p cnf "),
    ("refute", "--certificate NEVER NEVER PROOF", b"unreachable\n"),
    ("witness", "--certificate CERTIFICATE --model MODEL CIRCUIT", b"1\nb0\n"),
)


def large(bad=None):
    """A circuit that is bad from frame 3 on, as its last latch is 1 there, or where this literal is 1. A chain of gates
    makes it large, which nothing reads but an output."""
    inputs, latches = ([2 * at for at in range(first, end)] for first, end in ((1, WIDTH + 1), (WIDTH + 1, WIDTH + 4)))
    first = WIDTH + 4
    gates = [f"{2 * (first + at)} {2 * (first + at - 1)} {inputs[at % WIDTH] ^ (at & 1)}" for at in range(1, GATES)]
    lines = [f"aag {first + GATES - 1} {WIDTH} 3 1 {GATES} 1", *map(str, inputs), f"{latches[0]} 1",
             f"{latches[1]} {latches[0]}", f"{latches[2]} {latches[1]}", str(2 * (first + GATES - 1)),
             str(latches[2] if bad is None else bad),
             f"{2 * first} {latches[2]} {inputs[0]}", *gates]
    return "".join(f"{line}\n" for line in lines)


def ample(program, tally, _):
    write_all()
    said = program.run("--help")
    listed = re.findall(r"(?m)^  ([a-z]+) ", (said.out + said.err).decode())
    tally.compare("ample: the commands of the help", sorted(set(listed) - {"help"}), sorted(RUNS))
    row = "1" * WIDTH + "\n"
    write("large", large())
    write("rows", row * FRAMES)
    write("witness", f"1\nb0\n000\n{row * 4}.\n")
    write("script", f"s 0 0 0\n+ {row}-\nt\ng 2 4\nu\n")
    write("proof", "")
    write("cuts", "".join(f"f {2 * at}\n" for at in range(WIDTH + 1, WIDTH + GATES)) + "r 402\n")
    # A copy as the certificate, and a model in which the last of three latches is 1: no input is read.
    write("model", "4 0\n")
    write("never", large(bad=0))
    files = {"CIRCUIT": "large", "ROWS": "rows", "WITNESS": "witness", "SCRIPT": "script", "PROOF": "proof",
             "CERTIFICATE": "large", "CUTS": "cuts", "MODEL": "model", "NEVER": "never"}
    wraps = f"{EXAMPLES}/wraps"
    small = {"CIRCUIT": f"{wraps}.aag", "ROWS": f"{wraps}.stim", "WITNESS": f"{wraps}.wit",
             "SCRIPT": write("edits", "t\nu\ng 2 4\ns 0 0 1\n"), "PROOF": f"{wraps}.drat",
             "CERTIFICATE": f"{wraps}.aag", "CUTS": f"{wraps}.cuts", "MODEL": write("values", "2 4 5 0\n"),
             "NEVER": write("constant", "aag 0 0 0 0 0 1\n0\n")}
    for command, words, said in [*((name, *run) for name, run in RUNS.items()), *MORE]:
        for names in (small, files):
            asked = [command, *(names.get(word, word) for word in words.split(" "))]
            ended = program.run(*asked, input=LINES)
            tally.check(f"ample: {' '.join(asked)}", ended.status == 0 and ended.err == b"" and said in ended.out,
                        (ended.status, ended.err, ended.out[:80]))
