"""The table of causes in docs/EXPLAIN.md: each of them is brought about, and the program and its explanation say what the
table says. So are the messages that say their cause themselves."""

import gzip
import os
import re
import resource
import subprocess

from library import supervised
from library.circuits import write_all
from library.explained import Explained
from library.roff import cells, sections
from library.runs import EXAMPLES, REPOSITORY, contents, write

HEAD = "| message | likely cause | what to do |\n"
COUNTER = "examples/counter.aag"
WRAPS = "examples/wraps.aag"
RING = "examples/ring.aag"
STRENGTHEN = ["strengthen", "--to", "aag", "--certificate"]
BENCH = ["bench", "--circuit-out", "out", "two_gates", "rows", "script"]

# A word of the cause in a row of the table, the words of a command that meets it, and what explains it.
CASES = (
    ("is empty", ["info", "nothing"], "the file is empty"),
    ("byte-order mark", ["info", "bom"], "byte-order mark"),
    ("is compressed", ["info", "counter.aag.gz"], "zcat"),
    ("Verilog", ["info", "verilog"], "write_aiger of yosys or ABC"),
    ("Verilog", ["info", "blif"], "write_aiger of yosys or ABC"),
    ("or is of ABC", ["info", "aig2"], "without -c"),
    ("is a witness or a stimulus", ["check", "examples/wraps.wit", WRAPS], "aig check CIRCUIT WITNESS"),
    ("is a witness or a stimulus", ["sim", "rows", "two_gates"], "aig sim CIRCUIT STIM"),
    ("has CR LF, or is", ["info", "crlf"], "tr -d '\\r'"),
    ("cut off", ["info", "cut"], "cut off"),
    ("or is of ABC", ["info", "unended"], "echo >> FILE"),
    ("or is of ABC", ["info", "records"], "write_xaiger"),
    ("end with CR LF, or the file is not a stimulus", ["sim", "two_gates", "crlf.stim"], "tr -d '\\r'"),
    ("end with CR LF, or the file is not a stimulus", ["sim", "two_gates", "two_gates"], "the file is a circuit"),
    ("`--witness` is missing", ["wave", WRAPS, "examples/wraps.wit"], "aig wave --witness CIRCUIT WITNESS"),
    ("from a solver or ABC", ["check", WRAPS, "sat.wit"], "verdict"),
    ("from a solver or ABC", ["check", WRAPS, "unsat.wit"], "0 and 2 say that no run was found"),
    ("from a solver or ABC", ["check", WRAPS, "row.wit"], "a run of ABC"),
    ("from a solver or ABC", ["check", WRAPS, "values.wit"], "values by name"),
    ("comments or several", ["check", WRAPS, "crlf.wit"], "tr -d '\\r'"),
    ("comments or several", ["check", WRAPS, "comment.wit"], "no comments"),
    ("comments or several", ["check", WRAPS, "several.wit"], "several witnesses"),
    ("for another circuit", ["check", COUNTER, "examples/wraps.wit"], "aig info CIRCUIT"),
    ("properties are its outputs", ["cnf", "--frames", "2", COUNTER], "AIGER 1.0"),
    ("was killed", BENCH, "rename it or remove it"),
    ("is also the standard output", ["bench", "--circuit-out", "/dev/full", "two_gates", "rows", "script"],
     "may be full"),
    ("is also the standard output", ["bench", "--circuit-out", "nowhere/out", "two_gates", "rows", "script"],
     "No such file"),
    ("link to a file that is gone", ["bench", "--circuit-out", "dangling", "two_gates", "rows", "script"],
     "a link to a file that does not exist"),
    ("Two files are the same",
     ["bench", "--circuit-out", "one", "--stimulus-out", "./one", "two_gates", "rows", "script"],
     "two arguments name this file"),
    ("Two files are the same", ["unroll", "--frames", "2", "--to", "aag", "--map", "two_gates", "two_gates"],
     "two arguments name this file"),
)

# A message that says its cause, the words of a command that meets it, and what explains it.
PLAIN = (
    ("circuit: input or output", ["info", "missing"], "No such file"),
    ("circuit: input or output", ["info", "examples"], "it is a folder"),
    ("stimulus: length of line N", ["sim", "two_gates", "short"], "one for each input of the circuit"),
    ("stimulus: unfinished", ["sim", "two_gates", "unfinished"], "echo >> FILE"),
    ("witness: no run", ["witness", WRAPS, "nothing"], "aig sim CIRCUIT STIM"),
    ("certificate: comment", [*STRENGTHEN, "mapping", RING], "line 2 of its comment is ``"),
    ("certificate: symbol iP", [*STRENGTHEN, "unnamed", RING], "the symbol of i0 is `= 12`"),
    ("circuit: counts", ["info", "counts"], "M = I + L + A"),
    ("circuit: range", ["info", "range"], "2M + 1 = 3"),
    ("circuit: definition", ["info", "odd"], "an even literal greater than 0"),
    ("circuit: redefined V", ["info", "twice"], "two definitions"),
    ("circuit: reset V", ["info", "reset"], "wanted: 0, 1, or its own literal 2"),
    ("circuit: undefined V", ["info", "undefined"], "no input, latch or gate defines it"),
    ("circuit: cycle V", ["info", "cycle"], "a latch"),
    ("property: name", ["select", "--to", "aag", "--property", "other", "two_gates"], "that --property gives"),
    ("property: twice P P", ["select", "--to", "aag", "--property", "p", "twice_named"], "at these two positions"),
    ("names: lines", ["select", "--to", "aag", "--names", "zero.drat", "two_gates"], "one line for each property"),
    ("unroll: no frames", ["unroll", "--frames", "0", "--to", "aag", "two_gates"], "K is 0"),
    ("unroll: liveness", ["unroll", "--frames", "2", "--to", "aag", "live"], "justice properties: 1"),
    ("cnf: no frames", ["cnf", "--frames", "0", WRAPS], "K is 0"),
    ("PART: limit", ["info", "large"], "at most 4,194,303"),
    ("PART: property", ["check", WRAPS, "other.wit"], "b7"),
    ("witness: of b0, not b1", ["check", "--property", "1", WRAPS, "examples/wraps.wit"], "aig check --property b0"),
    ("PART: limit", ["check", "bad_input", "many.wit"], "at most 65,536 frames"),
    ("PART: property", ["select", "--to", "aag", "--property", "0", "two_gates"], "aig info --names CIRCUIT"),
    ("PART: limit", ["unroll", "--frames", "65537", "--to", "aag", "two_gates"], "K is 65537"),
    ("PART: limit", ["unroll", "--frames", "65536", "--to", "aag", "inputs"], "M = 4194304"),
    ("PART: property", ["cnf", "--frames", "2", "--property", "7", WRAPS], "P is 7"),
    ("PART: limit", ["cnf", "--frames", "65537", WRAPS], "K is 65537"),
    ("PART: property", [*STRENGTHEN, "examples/ring.cert.aag", "--property", "7", RING], "P is 7"),
    ("PART: limit", [*STRENGTHEN, RING, "wide"], "at most 4,194,303"),
    ("proof: text at A", ["refute", "--frames", "1", "bad_input", "rows"], "no step of a proof"),
    ("proof: step N", ["refute", "--frames", "1", "bad_input", "zero.drat"], "does not follow"),
    ("proof: no refutation", ["refute", "--frames", "1", "bad_input", "nothing"],
     "the proof ends before it refutes"),
    ("proof: no refutation", ["refute", "--certificate", "wrong", RING, "remark.drat"],
     "aig witness --certificate --model"),
    ("PART: limit", ["bench", "two_gates", "many.stim", "script"], "at most 65,536 rows"),
    ("PART: limit", ["bench", "many", "empty.stim", "script"], "at most 67,108,864"),
    ("PART: limit", ["reduce", "wide", "rows.wit"], "at most 67,108,864"),
    ("cuts: line N", ["cut", "--to", "aag", "--cuts", "zero.drat", "two_gates"], "line 1 is `"),
    ("why: name", ["why", "--of", "cuont", COUNTER, f"{EXAMPLES}/counter.stim"], "do you mean `count`?"),
    ("why: frame", ["why", "--of", "o0", "--frame", "8", COUNTER, f"{EXAMPLES}/counter.stim"],
     "the last frame is 7"),
)


def diagnostics(program, tally, _):
    write_all()
    write_files()
    text = sections(contents(f"{REPOSITORY}/docs/EXPLAIN.md").decode())["Usual causes"]
    rows = [cells(row) for row in text.split(HEAD, 1)[1].strip().split("\n")[1:]]
    met = set()
    for word, words, explained in CASES:
        is_met(tally, rows, met, word, program.run(*words).err)
        is_explained(program, tally, words, explained)
    for message, words, explained in PLAIN:
        is_said(tally, message, words, program.run(*words).err)
        is_explained(program, tally, words, explained)
    is_met(tally, rows, met, "pipe was closed", closed_pipe(program))
    with open("/dev/full", "wb") as full:
        is_met(tally, rows, met, "disk is full", program.run("info", "two_gates", stdout=full).err)
    little = program.run("info", "many", preexec_fn=lambda: resource.setrlimit(resource.RLIMIT_AS, (2**23, 2**23)))
    tally.check("diagnostics: out of memory", re.fullmatch(rb"aig: (circuit: )?memory\n", little.err), little)
    tally.compare("diagnostics: a script with CR LF", program.run("bench", "two_gates", "rows", "crlf.script").out,
                  b"bad\n" * 2)
    met |= {"memory"}
    tally.compare("diagnostics: rows without a case",
                  [row for row in rows if row[0].strip("`") not in met and row[1] not in met], [])


def is_met(tally, rows, met, word, said):
    """The row whose cause has this word says what the program said."""
    found = [row for row in rows if word in row[1]]
    tally.compare(f"diagnostics: rows on {word!r}", len(found), 1)
    for message, cause, _ in found:
        is_said(tally, message.strip("`"), cause, said)
        met.add(cause)


def is_said(tally, message, cause, said):
    """The program said this message, in which A, N, P and V stand for numbers, and PART for a part."""
    form = "aig: " + re.sub(r"(?<=[ i])[ANPV]\b", lambda _: "[0-9]+", message).replace("PART", "[a-z]+")
    tally.check(f"diagnostics: {cause}", re.fullmatch(f"{form}\n".encode(), said), said)


def is_explained(program, tally, words, explained):
    """The lines that explain the run have these words."""
    said = Explained(program).run(*words).err.decode()
    tally.check(f"diagnostics: {words}, explained", explained in said.split("\n", 1)[1], said)


def write_files():
    os.symlink(EXAMPLES, "examples")
    os.symlink("nowhere", "dangling")
    counter = contents(COUNTER)
    witness = contents("examples/wraps.wit").decode()
    for name, data in {
            "twice_named": "aag 1 1 0 0 0 2\n2\n2\n3\nb0 p\nb1 p\n", "nothing": "", "zero.drat": "0\n", "bom": b"\xef\xbb\xbf" + counter, "counter.aag.gz": gzip.compress(counter),
            "verilog": "module m(input a, output b); endmodule\n", "blif": ".model m\n.inputs a\n.end\n",
            "aig2": "aig2 0 0 0 0 0\n", "unended": "aag 0 0 0 0 0\nc", "records": "aag 0 0 0 0 0\ncn\0\0",
            "range": "aag 1 1 0 1 0\n2\n4\n", "odd": "aag 1 1 0 0 0\n3\n", "twice": "aag 2 2 0 0 0\n2\n2\n",
            "reset": "aag 1 0 1 0 0\n2 2 3\n", "crlf": counter.replace(b"\n", b"\r\n"),
            "cut": counter[:20], "large": "aag 4194304 0 0 0 0\n", "counts": "aig 5 1 1 1 1\n",
            "undefined": "aag 1 0 0 1 0\n2\n", "crlf.stim": "00\r\n", "short": "0\n", "unfinished": "01",
            "crlf.wit": witness.replace("\n", "\r\n"), "comment.wit": "c found by a solver\n" + witness,
            "other.wit": witness.replace("b0", "b7"), "several.wit": witness * 2, "sat.wit": "sat\n" + witness,
            "unsat.wit": "0\nb0\n.\n", "row.wit": "0101\n", "values.wit": "i0=1 i1=0\n",
            "many.wit": "1\nb0\n\n" + "1\n" * 65537 + ".\n", "rows.wit": "1\nb0\n\n" + "1\n" * 17 + ".\n",
            "mapping": "aag 0 0 0 0 0\nc\nMAPPING 1\n", "unnamed": "aag 1 1 0 0 0\n2\ni0 = 12\n",
            "wrong": "aag 0 0 0 0 0 1\n1\n", "remark.drat": "c no step\n",
            "wide": "aag 4194303 1 0 0 0 1\n2\n2\n", "rows": "01\n", "script": "v 0 8\n", "out.new": "",
            "many.stim": "01\n" * 65537, "empty.stim": "\n" * 17, "crlf.script": "v 0 8\r\nt\r\n"}.items():
        write(name, data)


def closed_pipe(program):
    """What `aig sim` says where the reader of its pipe ends after one line."""
    write("long.stim", "01\n" * 100000)
    with supervised.Popen([program.path, "sim", "two_gates", "long.stim"], stdin=subprocess.DEVNULL,
                          stdout=subprocess.PIPE, stderr=subprocess.PIPE) as run:
        run.stdout.readline()
        run.stdout.close()
        return run.stderr.read()
