"""What docs/BEHAVIOUR.md says that a run needs: a stack, a C library, names in UTF-8, and a stream that ends."""

import os
import re
import resource
import shutil
import signal
import subprocess

from faults.refusing import Refusing
from library import supervised
from library.circuits import write_all
from library.runs import EXAMPLES, REPOSITORY, Ended, LeftOut, contents, input_or_output, leave_out, write

STACK = 384 * 1024
GLIBC = (2, 34)

RUNS = (
    ["toaig", "--to", "aig", "examples/counter.aag"],
    ["sim", "examples/counter.aag", "examples/counter.stim"],
    ["wave", "examples/counter.aag", "examples/counter.stim"],
    ["wave", "--witness", "examples/wraps.aag", "examples/wraps.wit"],
    ["bench", "--circuit-out", "circuit", "--stimulus-out", "stimulus", "examples/fifo.aag", "examples/fifo.stim",
     "examples/fifo.script"],
    ["unroll", "--frames", "3", "--to", "aag", "--map", "map", "examples/counter.aag"],
    ["check", "--trace", "examples/wraps.aag", "examples/wraps.wit"],
    ["cnf", "--frames", "3", "examples/wraps.aag"],
    ["witness", "examples/wraps.aag", "examples/wraps.stim"],
    ["select", "--to", "aig", "--from", "outputs", "examples/counter.aag"],
    ["cut", "--to", "aig", "--cuts", "examples/wraps.cuts", "examples/wraps.aag"],
    ["refute", "--frames", "3", "examples/wraps.aag", "examples/wraps.drat"],
    ["reduce", "examples/wraps.aag", "examples/wraps.wit"],
    ["why", "--witness", "examples/wraps.aag", "examples/wraps.wit"],
    ["strengthen", "--to", "aig", "--certificate", "examples/fifo.aag", "examples/wraps.aag"],
    ["cnf", "--certificate", "examples/fifo.aag", "examples/wraps.aag"],
    ["refute", "--certificate", "examples/ring.cert.aag", "examples/ring.aag", "examples/ring.drat"],
    ["witness", "--certificate", "examples/counter.aag", "--model", "examples/wraps.model", "examples/wraps.aag"],
    ["info", "examples/counter.aag"],
    ["info", "examples/cyclic.aag"],
    ["sim", "examples/counter.aag", "examples/counter.aag"],
    ["check", "examples/wraps.aag", "examples/counter.stim"],
    ["info", "missing"],
    ["\x1b"],
)


def needs(program, tally, _):
    os.symlink(EXAMPLES, "examples")
    write_all()
    write("script", "t\n")
    said = contents(f"{REPOSITORY}/docs/BEHAVIOUR.md").decode()
    tally.check("needs: what BEHAVIOUR.md says", "glibc %d.%d or later" % GLIBC in said and
                f"A stack of {STACK // 1024} KB" in said)
    for words in RUNS:
        little = program.run(*words, preexec_fn=lambda: resource.setrlimit(resource.RLIMIT_STACK, (STACK, STACK)))
        tally.compare(f"needs: the stack of {words}", little, program.run(*words))
    names(program, tally)
    for words in (["sim", "two_gates", "/dev/zero"], ["wave", "two_gates", "/dev/zero"],
                  ["bench", "two_gates", "two_gates.stim", "/dev/zero"]):
        write("two_gates.stim", "11\n")
        tally.compare(f"needs: {words} does not end", endless(program, words), ("no end", True))
    for line in ("c", "d 2 4 0"):
        with supervised.Popen(["yes", line], stdout=subprocess.PIPE) as lines:
            words = ["refute", "--frames", "1", "bad_input", "/dev/stdin"]
            tally.compare(f"needs: a proof of {line!r} does not end", endless(program, words, lines.stdout),
                          ("no end", True))
            lines.kill()
    try:
        interrupted(program, tally, Refusing(program, "refuse_call"))
    except LeftOut as reason:
        leave_out("needs: interrupted calls", reason)
    if not shutil.which("objdump"):
        raise LeftOut("there is no objdump for what it needs of the C library")
    if program.is_named:
        return "without the C library of a program that is named: "
    symbols = supervised.run(["objdump", "-T", program.path], capture_output=True, text=True, check=True).stdout
    wanted = {tuple(map(int, number.split("."))) for number in re.findall(r"GLIBC_([0-9.]+)", symbols)}
    tally.check("needs: the C library", max(wanted, default=()) == GLIBC, wanted)
    return ""


def names(program, tally):
    """A file's name that is not UTF-8 is refused, and the file is read by its descriptor."""
    name = b"\xff.aag"
    with open(name, "wb") as file:
        file.write(contents("two_gates"))
    tally.compare("needs: a name that is not UTF-8", program.run("info", name),
                  Ended(2, b"", b"error: a word of the command line is not UTF-8\n"))
    with open(name, "rb") as file:
        tally.compare("needs: its file as /dev/stdin", program.run("info", "/dev/stdin", stdin=file),
                      program.run("info", "two_gates"))


def endless(program, words, source=subprocess.DEVNULL):
    """Whether a run goes on for a while, and whether it takes little memory then."""
    with supervised.Popen([program.path, *words], stdin=source, stdout=subprocess.DEVNULL,
                          stderr=subprocess.DEVNULL) as run:
        try:
            return run.wait(timeout=1.5), False
        except subprocess.TimeoutExpired:
            pages = int(contents(f"/proc/{run.pid}/statm").split()[1])
            return "no end", pages * resource.getpagesize() < 2**24
        finally:
            run.send_signal(signal.SIGKILL)


def interrupted(program, tally, refusing):
    """A call that a signal interrupts: whether it is tried again."""
    whole = ["unroll", "--frames", "2", "--to", "aag", "two_gates"]
    for call in ("open", "read"):
        ended = refusing.run(*whole, CALL=call, REFUSE=1, INTERRUPT=1)
        tally.compare(f"needs: an interrupted {call} of a file that is read whole", ended, program.run(*whole))
    tally.compare("needs: an interrupted write", refusing.run(*whole, CALL="write", REFUSE=1, INTERRUPT=1),
                  input_or_output("output"))
    tally.compare("needs: an interrupted read of a stream",
                  refusing.run("toaig", "--to", "aag", "two_gates", CALL="read", REFUSE=1, INTERRUPT=1),
                  input_or_output("circuit"))
