"""What a terminal gets as standard output: it obeys no byte of a file. Pipes and files get each byte as it is."""

import os
import pty
import re
import subprocess

from library import supervised
from library.runs import Ended, contents, write
from library.terminal import Terminal

# A circuit whose names and comment have all bytes but LF, and 0 in names.
BYTES = bytes(byte for byte in range(1, 256) if byte != 10)
CIRCUIT = (b"aag 3 1 1 1 1 1\n2\n4 6 4\n6\n6\n6 4 2\ni0 " + BYTES + b"\nl0 \x1b[2J\x1b]0;title\x07\no0 caf\xc3\xa9\nb0 a\tb\n"
           b"c\n\x00" + BYTES + b"\n\x9b31m\r\n")

# Runs that write names, comments or the binary format.
RUNS = ("info --names named", "info named", "toaig --to aag named", "toaig --to aig named", "cnf --frames 2 named",
        "wave named rows", "unroll --frames 2 --to aag named", "select --to aig named", "sim named rows",
        "bench named rows script", "cut --to aag --cuts cuts named", "cut --to aag --cuts named named",
        "strengthen --to aag --certificate named named",
        "strengthen --to aig --certificate named named", "cnf --certificate named named", "info missing")

# Runs that write another text to the file OUT.
FILES = ("unroll --frames 2 --to aag --map OUT named", "bench --circuit-out OUT named rows script")


def escaped(out):
    """The text as a terminal has to get it."""
    return re.sub(rb"[^\t\n -~]", lambda byte: b"\\x%02x" % ord(byte[0]), out)


def terminals(program, tally, _):
    write("named", CIRCUIT)
    write("rows", "1\n0\n")
    write("script", "u\nt\n")
    write("cuts", "f 4\nc 0\n")
    for words in RUNS:
        plain = program.run(*words.split(" "))
        with Terminal() as terminal:
            done = supervised.run([program.path, *words.split(" ")], stdin=subprocess.DEVNULL, stdout=terminal.end,
                                  stderr=subprocess.PIPE, check=False)
            ended = Ended(done.returncode, terminal.close(), done.stderr)
            tally.compare(f"terminals: {words}", ended, Ended(plain.status, escaped(plain.out), plain.err))
        with open("out", "wb") as file:
            program.run(*words.split(" "), stdout=file)
        tally.compare(f"terminals: {words}: a file", contents("out"), plain.out)
    for words in FILES:
        plain = program.run(*words.replace("OUT", "written").split(" "))
        with Terminal() as terminal:
            ended = program.run(*words.replace("OUT", terminal.name).split(" "))
            tally.compare(f"terminals: {words}", (ended, terminal.close()), (plain, escaped(contents("written"))))
        os.remove("written")
    tally.check("terminals: names that are escaped", b"\x1b" in program.run("info", "--names", "named").out)
    closed(program, tally)


def closed(program, tally):
    """A terminal that hangs up is a failed write."""
    write("many", "1\n" * 100000)
    user, end = pty.openpty()
    with supervised.Popen([program.path, "sim", "named", "many"], stdin=subprocess.DEVNULL, stdout=end,
                          stderr=subprocess.PIPE) as run:
        os.close(end)
        os.read(user, 1)
        os.close(user)
        err = run.communicate()[1]
    tally.compare("terminals: a terminal that hangs up", (run.returncode, err),
                  (3, b"aig: stimulus: input or output\n"))
