"""Runs under limits of memory (`ulimit -v`), from one at which the program begins up to one that is enough: each run
ends as without a limit, or says that memory is missing. None ends by a signal: once memory is gone the stack cannot
grow, so the program takes its stack before the work."""

import contextlib
import os
import random
import re
import resource
import subprocess

from library import supervised
from library.circuits import write_all
from library.runs import EXAMPLES, contents, write
from program.needs import RUNS

KB = 1024
MEMORY = re.compile(rb"aig: ([a-z ]+: )?memory\n")
# The most limits that a run is tried with.
MOST = 400

# Runs on a circuit of some thousand gates: in these memory is gone in many places.
WIDE = (
    ["toaig", "--to", "aig", "wide"],
    ["info", "wide"],
    ["info", "--names", "wide"],
    ["select", "--to", "aig", "--from", "outputs", "wide"],
    ["cut", "--to", "aig", "--cuts", "wide_cuts", "wide"],
    ["sim", "wide", "wide_rows"],
    ["wave", "wide", "wide_rows"],
    ["bench", "wide", "wide_rows", "wide_script"],
    ["bench", "--circuit-out", "new_circuit", "--stimulus-out", "new_rows", "wide", "wide_rows", "wide_script"],
    ["unroll", "--frames", "3", "--to", "aag", "--map", "map", "wide"],
    ["cnf", "--frames", "3", "wide"],
    ["witness", "wide", "wide_rows"],
    ["why", "--of", "o0", "wide", "wide_rows"],
    ["shell", "wide", "wide_rows"],
)
SESSION = ("show\nnames\nadd 20\ncheck\nset 3 name_3 1\ndiff\nwhy o0\nwave new_wave\nsave new_circuit new_rows\n"
           "save new_circuit\nnew 2 4\nwitness new_witness\nhelp\n")
WRITTEN = ("new_circuit", "new_rows", "new_wave", "new_witness", "map", "circuit", "stimulus")
LAST, ANSWER = "gate 0\n", b"0 = 0: constant\n"


def limits(program, tally, _):
    os.symlink(EXAMPLES, "examples")
    write_all()
    write("script", "t\n")
    write_wide(random.Random(1), 1000)
    least = least_to_begin(program)
    for words in RUNS:
        sweep(program, tally, words, least, step=16)
    for words in WIDE:
        sweep(program, tally, words, least, step=64)
    stack(program, tally)


def write_wide(rng, size):
    """A circuit of inputs, as many latches and four times as many gates, with rows and a script."""
    most = 6 * size
    lines = [f"aag {most} {size} {size} 1 {4 * size} 1"]
    lines += [f"{2 * at + 2}" for at in range(size)]
    lines += [f"{2 * at + 2} {rng.randrange(2 * most + 2)}" for at in range(size, 2 * size)]
    lines += [f"{2 * most}", f"{2 * most - 2}"]
    for left in range(4 * size + 2, 2 * most + 1, 2):
        lines.append(f"{left} {rng.randrange(2, left)} {rng.randrange(2, left)}")
    lines += [f"i{at} name_{at}" for at in range(size)]
    write("wide", "\n".join(lines) + "\n")

    def row():
        return "".join(rng.choice("01") for _ in range(size))

    write("wide_cuts", "".join(f"f {rng.randrange(2 * size + 2, 2 * most + 1, 2)}\n" for _ in range(size)))
    write("wide_rows", "".join(f"{row()}\n" for _ in range(8)))
    edits = "".join(f"w {rng.randrange(4 * size + 2, 2 * most + 1, 2)} {rng.randrange(2 * size)} {rng.randrange(2 * size)}\n"
                    for _ in range(500))
    write("wide_script", "".join(f"+ {row()}\n" for _ in range(10)) + f"t\nu\n{edits}u\nt\n")


def limited(program, words, limit, **settings):
    """The run that may take so many KB of memory, or as many as it likes. It begins with the same files each time."""
    for name in WRITTEN:
        for each in (name, f"{name}.new"):
            with contextlib.suppress(FileNotFoundError):
                os.remove(each)
    if words[0] == "shell":
        settings["input"] = SESSION.encode()
    if limit is not None:
        settings["preexec_fn"] = lambda: resource.setrlimit(resource.RLIMIT_AS, (limit * KB, limit * KB))
    return program.run(*words, **settings)


def least_to_begin(program):
    """The KB of memory from which on the program begins. With less the system ends it, or its loader."""
    for limit in range(KB, KB + 64 * MOST, 64):
        if limited(program, ["--version"], limit).status in (2, 3):
            return limit + 64
    raise AssertionError("the program does not begin")


def sweep(program, tally, words, least, step):
    """The runs from one limit on, until memory is enough."""
    whole, told = limited(program, words, None), 0
    # A line of a script or a session may find no memory, and the next one some.
    is_free = words[0] in ("bench", "shell")
    for limit in range(least, least + step * MOST, step):
        ended = limited(program, words, limit)
        if ended == whole:
            break
        is_told = ended.status == 3 and MEMORY.match(ended.err) is not None
        told += is_told
        is_done = is_free and ended.status == whole.status
        tally.check(f"limits: {words} with {limit} KB", is_told or is_done, ended)
    tally.check(f"limits: {words}, which lacks memory at first, and not at last", told and ended == whole, ended)


def stack(program, tally):
    """The stack of a session is as large at its first answer as after all its lines."""
    with supervised.Popen([program.path, "shell", "wide", "wide_rows"], stdin=subprocess.PIPE, stdout=subprocess.PIPE,
                          stderr=subprocess.STDOUT) as run:
        sizes = [stack_after(run, lines + LAST) for lines in ("", SESSION)]
        run.kill()
    tally.check("limits: the stack does not grow", sizes[0] == sizes[1] and None not in sizes, sizes)


def stack_after(run, lines):
    """The size of the stack once these lines are answered."""
    run.stdin.write(lines.encode())
    run.stdin.flush()
    got = b""
    while not got.endswith(ANSWER):
        more = os.read(run.stdout.fileno(), 65536)
        if not more:
            return None
        got += more
    return int(re.search(rb"VmStk:\s+(\d+)", contents(f"/proc/{run.pid}/status"))[1])
