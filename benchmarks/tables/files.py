"""The files that jobs read. A word of a job with a dot names one, as `circuit.random.1000.1000.100.1000000`: the words
of loads.py, or `text.NAME.COUNT`, a text so many times. A form may come before it, as in `aig:circuit..`."""

import os
import re
import shutil
import sys

import loads
from library.runs import DESIGNS, EXAMPLES, REPOSITORY, contents, write
from tables.runs import Run

MILLION = 1_000_000
ABC = "berkeley-abc"
# The channels of the large design that Yosys makes a circuit of: some 100,000 gates.
CHANNELS = 200
TEXTS = {"empty": "", "traces": "t\n", "wrong": "wrong\n", "frames": "+ 1\n-\n",
         "wide_frames": "+ " + "0" * 1000 + "\n",
         "claims": "aag 4194303 0 0 0 0\n", "refused": "w 0 2 2\n"}


def kept(name, make):
    """A file that is made once, and is there whole or not at all: `make` writes it under another name."""
    if not os.path.exists(name):
        make(name + ".part")
        os.rename(name + ".part", name)
    return name


def load(*words):
    """A generated file by its words."""
    def make(part):
        with open(part, "w", encoding="ascii") as file:
            file.writelines(loads.made(*words))

    return kept(".".join(map(str, words)), make)


def text(name, count=1):
    return write(f"text.{name}.{count}", TEXTS[name] * int(count))


def as_binary(programs, circuit):
    """A circuit in the binary format."""
    return kept(circuit + ".aig", lambda part: Run([programs.get("tuned"), "toaig", circuit], part))


def as_text(programs, circuit):
    return kept(circuit + ".aag", lambda part: Run([programs.get("tuned"), "toaag", circuit], part))


def with_bad(_, circuit):
    """The circuit with its first output as a bad state too."""
    def make(part):
        with open(circuit, encoding="ascii") as file:
            top, *lines = file
        _, _, inputs, latches, outputs, _ = top.split()
        before = int(inputs) + int(latches) + int(outputs)
        write(part, "".join([top.rstrip() + " 1\n", *lines[:before], lines[before - 1], *lines[before:]]))

    return kept(circuit + ".bad", make)


def circuit_of(name, design):
    """The circuit that Yosys makes of a design, in the binary format, with its names."""
    return kept(f"{name}.flow.aig", lambda part: Run([
        "yosys", "-q", "-p", f"read_verilog -sv -formal {design}; prep -flatten -top {name}; async2sync; "
        f"chformal -cover -remove; memory_map; opt -full; techmap; opt -fast; dffunmap; abc -g AND -fast; opt_clean; "
        f"write_aiger -symbols {part}"]))


def synthesized(programs):
    design = kept("large.v", lambda part: Run(
        [sys.executable, f"{REPOSITORY}/verdicts/tests/designs/large.py", CHANNELS], part))
    return circuit_of("large", design)


def rewritten_by_abc(name):
    """What ABC makes of a file, without the comment that ABC writes."""
    Run([ABC, "-q", f"&r -s {name}; &w back.aig"])
    # its extensions, which have the name of the file, and a text with the time
    return re.sub(rb"(?s)c[^c]{0,40}\nThis file was produced by the GIA .*\Z", b"", contents("back.aig"))


def given_back(programs):
    """A binary file that ABC and `aig` give back byte for byte, ABC with a comment."""
    def make(part):
        first = as_binary(programs, load("circuit", "random", *SOURCES, MILLION))
        Run([ABC, "-q", f"read_aiger {first}; write_aiger first.aig"])  # it drops gates of one variable
        with open(part, "wb") as file:
            file.write(rewritten_by_abc("first.aig"))

    name = kept("given.aig", make)
    Run([programs.get("aig"), "toaig", "--to", "aig", name], "one")
    for made, who in ((rewritten_by_abc(name), "ABC"), (contents("one"), "aig")):
        if made != contents(name):
            sys.exit(f"{who} does not give the file back")
    return name


SOURCES = (1000, 1000, 100)  # inputs, latches, outputs
FORMS = {"aig": as_binary, "aag": as_text, "bad": with_bad}
# Files of designs, by Yosys or ABC.
MADE = {"yosys.large": synthesized, "yosys.queue": lambda _: circuit_of("queue", f"{EXAMPLES}/queue.v"),
        "yosys.fifo": lambda _: circuit_of("fifo", f"{DESIGNS}/fifo.v"),
        "abc.random": given_back}


def missing(*tools):
    return [tool for tool in tools if not shutil.which(tool)]


def file_of(programs, word):
    """The file that a word names, or the word."""
    form, colon, rest = word.partition(":")
    if colon and form in FORMS:
        return FORMS[form](programs, file_of(programs, rest))
    if word in MADE:
        return MADE[word](programs)
    kind, dot, _ = word.partition(".")
    if dot and kind == "text":
        return text(*word.split(".")[1:])
    return load(*word.split(".")) if dot and kind in loads.KINDS else word


def resolved(programs, words):
    """The words of a job, with its files made."""
    return [file_of(programs, word) for word in words.split()]
