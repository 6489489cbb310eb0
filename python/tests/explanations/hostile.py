"""Hostile bytes: whatever is in a file, a name or an argument, and whatever file comes in the place of another, an
explanation is lines of printable bytes, and no exception."""

import os
import random
import re

from explanations.circuits import CIRCUITS
from explanations.common import WRAPS
from explanations.runs import STIMULI, WITNESSES
from explanations.solvers import MODELS, NEVER, PROOFS
from library import broken
from library.circuits import write_all
from library.explained import Explained, explanation
from library.runs import write

PRINTABLE = re.compile(rb"(?:[\x20-\x7e]*\n)*")

# What a byte is put into, the arguments of the run, and whether the explanation shows the byte.
PLACES = (
    ("in a header", b"aag 1 1 0 0 %s\n2\n", ["info", "f"], False),
    ("in a name", b"aag 1 0 1 0 0\n2 2 4\nl0 a%sb\n", ["info", "f"], False),
    ("in a name that is shown", b"aag 1 1 0 1 0\n2\n8\no0 a%sb\n", ["info", "f"], True),
    ("in the name of a property", b"aag 1 1 0 0 0 1\n2\n2\nb0 a%sb\n", ["refute", "--frames", "1", "f", "empty"], False),
    ("in a stimulus", b"1%s\n", ["sim", "two_gates", "f"], False),
    ("in a witness", b"1\nb0\n0%s\n", ["check", "wraps", "f"], False),
    ("at the beginning of a witness", b"%s\n", ["check", "wraps", "f"], False),
    ("in a proof", b"2 3 0\nd 2 %s 0\n", ["refute", "--frames", "1", "never", "f"], False),
    ("at the beginning of a proof", b"%s", ["refute", "--frames", "1", "never", "f"], False),
    ("in a proof with hints", b"9 d 1 0\n24 2 %s 0 1 0\n", ["refute", "--frames", "1", "never", "f"], False),
    ("in a binary proof", b"a\x04%s", ["refute", "--frames", "1", "never", "f"], False),
    ("in a model", b"v 1 %s\n", ["witness", "--frames", "1", "--model", "f", "bad_input"], False),
    ("in a certificate", b"aag 1 1 0 0 0\n2\ni0 = %s\n", ["strengthen", "--to", "aag", "--certificate", "f", "wraps"], False),
    ("in names", b"one\n%s", ["select", "--to", "aag", "--names", "f", "wraps"], False),
)

# Messages of all parts, in which @ is a number.
MESSAGES = (
    *(f"{part}: {text}" for part in ("circuit", "certificate")
      for text in ("text at @", "limit", "counts", "range", "definition", "redefined @", "undefined @", "reset @", "cycle @",
                   "memory", "input or output")),
    "certificate: comment", "certificate: symbol i@", "certificate: symbol l@",
    *(f"stimulus: {text}" for text in ("character in line @", "length of line @", "unfinished", "limit", "input or output")),
    *(f"witness: {text}" for text in ("text", "property", "limit", "of b@, not b@", "no run", "input or output")),
    *(f"{part}: {text}" for part in ("proof", "step proof", "model")
      for text in ("text at @", "step @", "no refutation", "input or output") if (part, text[:4]) != ("model", "step")
      and (part, text[:2]) != ("model", "no")),
    "model: unsatisfiable", "model: unknown", "unroll: no frames", "unroll: liveness", "unroll: limit", "cnf: no frames",
    "cnf: property", "cnf: limit", "select: limit", "select: property", "strengthen: property", "strengthen: limit", "why: name",
    "why: frame", "property: name", "property: twice @ @", "names: lines", "script: input or output", "bench: limit",
    "shell: input or output", "output: input or output", "memory",
)

# The arguments of runs, with a file F in each place.
RUNS = (
    ["info", "F"], ["sim", "F", "F"], ["wave", "--witness", "F", "F"], ["bench", "F", "F", "F", "--circuit-out", "out"],
    ["shell", "F", "F"], ["unroll", "--to", "aag", "--frames", "3", "--map", "map", "F"], ["check", "--property", "3", "F", "F"],
    ["witness", "F", "F"], ["witness", "--frames", "2", "--model", "F", "F"],
    ["witness", "--certificate", "F", "--model", "F", "F"], ["reduce", "F", "F"], ["why", "--of", "a", "F", "F"],
    ["why", "--witness", "--frame", "9", "F", "F"], ["cnf", "--step", "--frames", "9", "F"],
    ["cnf", "--certificate", "F", "F"], ["refute", "--frames", "2", "--step", "F", "F", "F"],
    ["refute", "--certificate", "F", "F", "F"], ["strengthen", "--certificate", "F", "--to", "aag", "F"],
    ["select", "--names", "F", "--property", "a", "--to", "aag", "F"],
)


def hostile(program, tally, _):
    write_all()
    write("wraps", WRAPS)
    write("never", NEVER)
    write("empty", "")
    asking = Explained(program)
    in_files(asking, tally)
    in_names(asking, tally)
    in_arguments(asking, tally)
    at_random(asking, program, tally)
    changed(tally)


def is_printable(tally, name, said):
    tally.check(f"{name}: printable lines", PRINTABLE.fullmatch(said), said)


def escaped(byte):
    return b"%c" % byte if 32 <= byte < 127 else b"\\x%02x" % byte


def in_files(asking, tally):
    """Each byte in each kind of file."""
    for place, text, words, is_shown in PLACES:
        for byte in range(256):
            write("f", text.replace(b"%s", b"%c" % byte))
            said = asking.run(*words).err
            is_printable(tally, f"hostile: {byte} {place}", said)
            if is_shown and byte != 10:
                tally.check(f"hostile: {byte} {place}: shown", b"`a" + escaped(byte) + b"b`" in said, said)


def in_names(asking, tally):
    """Each byte in the name of a file. A name that is no text is rejected by the program, and looked at all the same."""
    for byte in range(1, 256):
        name = os.fsdecode(b"a%cb" % byte)
        if byte != ord("/"):
            write(name, "aag\n")
        message = asking.run("info", name)
        said = explanation(["info", name], 1, b"aig: circuit: text at 3\n").encode()
        is_printable(tally, f"hostile: {byte} in a name", said + message.err)
        tally.check(f"hostile: {byte} in a name: shown", b"  file: a" + escaped(byte) + b"b\n" in said, said)
        said = explanation(["info", name + "/c"], 3, b"aig: circuit: input or output\n").encode()
        is_printable(tally, f"hostile: {byte} in a name that leads nowhere", said)
    for name in ("\0", "a\0b", "\U0010ffff", "\u202e"):
        is_printable(tally, f"hostile: {name!r}", explanation(["info", name], 1, b"aig: circuit: text at 0\n").encode())


def in_arguments(asking, tally):
    """Each byte in what an argument names, be it text or not; and in an option of another command."""
    write("rows", "1\n")
    for byte in range(1, 256):
        word = os.fsdecode(b"a%cb" % byte)
        for words in (["why", "--of", word, "wraps", "rows"], ["cnf", "--frames", "1", f"--property={word}", "wraps"],
                      ["bench", "--circuit-out", word, "wraps", "rows", "missing"], [f"--{word}", "info", "f"]):
            is_printable(tally, f"hostile: {byte} in {words}", asking.run(*words).err)
        said = explanation(["why", "--of", word, "wraps", "rows"], 1, b"aig: why: name\n").encode()
        tally.check(f"hostile: {byte} in a name of a signal", b"the name `a" + escaped(byte) + b"b`\n" in said, said)
        said = explanation(["bench", "--circuit-out", word, "wraps", "rows", "f"], 3, b"aig: output: input or output\n")
        tally.check(f"hostile: {byte} in a file to write", b"  file: a" + escaped(byte) + b"b\n" in said.encode(), said)


def at_random(asking, program, tally):
    """Files that are broken at random: each rejection is explained, and the fault is found again."""
    rng = random.Random(40)
    for case in range(150):
        circuit = broken.circuit(rng)
        write("whole", circuit)
        binary = program.run("toaig", "--to", "aig", "whole").out
        write("f", broken.changed(rng, circuit, broken.circuit(rng)))
        write("g", broken.changed(rng, binary, circuit))
        write("h", broken.changed(rng, rng.choice((broken.stimulus(rng, 2), broken.witness(rng, 1, 2))), circuit))
        of_solver = [text if isinstance(text, bytes) else text.encode() for _, text, *_ in PROOFS + MODELS]
        write("p", broken.changed(rng, rng.choice(of_solver), rng.choice(of_solver)))
        for words in (["info", "f"], ["info", "g"], ["sim", "two_gates", "h"], ["check", "wraps", "h"],
                      ["refute", "--frames", "1", "never", "p"],
                      ["witness", "--frames", "1", "--model", "p", "bad_input"],
                      ["strengthen", "--to", "aag", "--certificate", "f", "wraps"],
                      ["refute", "--certificate", "g", "wraps", "p"]):
            run = asking.run(*words)
            name = f"hostile: case {case}, {' '.join(words)}"
            is_printable(tally, name, run.err)
            if words[0] in ("check", "refute") and run.out:
                tally.check(f"{name}: a verdict", re.fullmatch(rb"(  property: b[0-9]+( .*)?\n)?", run.err), run.err)
            elif run.err:
                tally.check(f"{name}: explained", re.fullmatch(rb"aig: .*\n  file: .*\n(  .+\n)+", run.err), run.err)
                tally.check(f"{name}: the fault is found again", b"nothing wrong" not in run.err, run.err)


def changed(tally):
    """A file may change after the run: each message, after runs of each command, on files of each kind. What is said then
    is lines, and no exception."""
    rng = random.Random(41)
    texts = [row[1] for table in (CIRCUITS, STIMULI, WITNESSES, PROOFS, MODELS) for row in table]
    texts = [text if isinstance(text, bytes) else text.encode() for text in texts]
    for case in range(6000):
        text = rng.choice(texts)
        write("F", text if case % 3 else broken.changed(rng, text, rng.choice(texts)))
        message = re.sub("@", lambda _: str(rng.choice((0, 1, 2, rng.randrange(60), 2**32))), rng.choice(MESSAGES))
        words = rng.choice(RUNS)
        try:
            said = explanation(words, 1, f"aig: {message}\n".encode()).encode("ascii")
        except Exception as error:  # whatever it is
            tally.check(f"hostile: {message} of {words} on {text!r}", False, repr(error))
            continue
        is_printable(tally, f"hostile: {message} of {words} on {text!r}", said)
