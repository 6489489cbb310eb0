"""The files that `aig-explain` names: those that cannot be read, the one whose text is rejected, and those that it does not
look at again."""

import os
import re
import subprocess
from unittest import mock

from library import supervised
from library.circuits import TEXTS, write_all
from library.explained import Explained, explanation, files as seen
from library.runs import contents, write
from program.refute import NEVER_KEPT

SECONDS = 60

# A file that cannot be read, and what the explanation has to say.
UNREADABLE = (
    ("missing", "No such file or directory (os error 2)"),
    ("missing/file", "No such file or directory (os error 2)"),
    ("two_gates/file", "Not a directory (os error 20)"),
    ("loop", "Too many levels of symbolic links (os error 40)"),
    ("folder", "it is a folder"),
    ("n" * 300, "File name too long (os error 36)"),
    ("", "No such file or directory (os error 2)"),
)


def files(program, tally, _):
    program = Explained(program)
    write_all()
    os.mkdir("folder")
    os.symlink("loop", "loop")
    reasons(program, tally)
    which_file(program, tally)
    not_again(program, tally)
    seen_again(program, tally)
    names(program, tally)


def reasons(program, tally):
    """The system's reason, for each file of each command."""
    write("never", NEVER_KEPT)
    write("right", "2 0\n")
    write("rows", "11\n")
    write("script", "t\n")
    for name, reason in UNREADABLE:
        for words, part in ((["info", name], "circuit"), (["toaig", "--to", "aag", name], "circuit"),
                            (["check", "two_gates", name], "witness"), (["sim", "two_gates", name], "stimulus"),
                            (["wave", "two_gates", name], "stimulus"), (["bench", name, "rows", "script"], "circuit"),
                            (["bench", "two_gates", name, "script"], "stimulus"),
                            (["bench", "two_gates", "rows", name], "script"),
                            (["unroll", "--frames", "2", "--to", "aag", name], "circuit"),
                            (["cnf", "--frames", "2", name], "circuit"), (["select", "--to", "aag", name], "circuit"),
                            (["wave", "--witness", "two_gates", name], "witness"),
                            (["reduce", "bad_input", name], "witness"), (["witness", "bad_input", name], "stimulus"),
                            (["witness", "--model", name, "--frames", "1", "bad_input"], "model"),
                            (["refute", "--frames", "1", "bad_input", name], "proof"),
                            (["refute", "--frames", "1", "--step", name, "never", "right"], "step proof"),
                            (["strengthen", "--to", "aag", "--certificate", name, "two_gates"], "certificate"),
                            (["cnf", "--certificate", "two_gates", name], "circuit"),
                            (["cnf", "--certificate", name, "bad_input"], "certificate"),
                            (["refute", "--certificate", name, "never", "right"], "certificate"),
                            (["refute", "--certificate", "bad_input", "bad_input", name], "proof"),
                            (["witness", "--certificate", name, "--model", "right", "bad_input"], "certificate"),
                            (["witness", "--certificate", "bad_input", "--model", name, "bad_input"], "model")):
            said = program.run(*words).err.decode().split("\n")
            is_right = said[:2] == [f"aig: {part}: input or output", f"  file: {name}"] and reason in said[2]
            tally.check(f"explain: {words}", is_right, said)


def which_file(program, tally):
    """The file whose text is refused, where a command has several."""
    for name, text in (("wrong", "0\n"), ("row", "1\n"), ("none", ""), ("zero", "-2 0\n"),
                       ("unbound", "aag 1 1 0 0 0\n2\ni0 = 4\n")):
        write(name, text)
    for words, message, file in (
            (["sim", "two_gates", "row"], "stimulus: length of line 1", "row"),
            (["wave", "two_gates", "row"], "stimulus: length of line 1", "row"),
            (["bench", "two_gates", "row", "none"], "stimulus: length of line 1", "row"),
            (["bench", "cycle", "row", "none"], "circuit: cycle 2", "cycle"),
            (["wave", "--witness", "bad_input", "row"], "witness: text", "row"),
            (["check", "bad_input", "row"], "witness: text", "row"),
            (["check", "cycle", "row"], "circuit: cycle 2", "cycle"),
            (["reduce", "bad_input", "row"], "witness: text", "row"),
            (["witness", "bad_input", "wrong"], "witness: no run", "bad_input"),
            (["witness", "two_gates", "row"], "stimulus: length of line 1", "row"),
            (["witness", "--model", "row", "--frames", "1", "bad_input"], "model: text at 2", "row"),
            (["refute", "--frames", "1", "never", "wrong"], "proof: step 1", "wrong"),
            (["refute", "--frames", "1", "--step", "right", "never", "wrong"], "proof: step 1", "wrong"),
            (["refute", "--frames", "1", "--step", "wrong", "never", "right"], "step proof: step 1", "wrong"),
            (["refute", "--frames", "1", "--step", "none", "never", "right"], "step proof: no refutation", "none"),
            (["strengthen", "--to", "aag", "--certificate", "cycle", "bad_input"], "certificate: cycle 2", "cycle"),
            (["strengthen", "--to", "aag", "--certificate", "unbound", "bad_input"], "certificate: symbol i0", "unbound"),
            (["strengthen", "--to", "aag", "--certificate", "one_gate", "two_gates"], "strengthen: property", "two_gates"),
            (["cnf", "--certificate", "cycle", "bad_input"], "certificate: cycle 2", "cycle"),
            (["cnf", "--certificate", "bad_input", "cycle"], "circuit: cycle 2", "cycle"),
            (["refute", "--certificate", "bad_input", "bad_input", "wrong"], "proof: step 1", "wrong"),
            (["refute", "--certificate", "row", "bad_input", "wrong"], "certificate: text at 0", "row"),
            (["witness", "--certificate", "bad_input", "--model", "row", "bad_input"], "model: text at 2", "row"),
            (["witness", "--certificate", "bad_input", "--model", "zero", "bad_input"], "witness: no run", "bad_input")):
        said = program.run(*words).err.decode().split("\n")
        tally.compare(f"explain: {words}: the file", said[:2], [f"aig: {message}", f"  file: {file}"])


def not_again(program, tally):
    """There is no second look at a pipe or a device: the bytes are gone, and to open it again might wait for ever. Nor
    is there one at a very large file."""
    tell = re.compile(r"aig: circuit: text at [0-9]+\n  file: \S+\n  it is a pipe or a device, .*\n")
    write("rows", "11\n")
    for name, run in (("a pipe", lambda: program.run("info", "/dev/stdin", input=b"aag 1\n", timeout=SECONDS)),
                      ("/dev/null", lambda: program.run("info", "/dev/null", timeout=SECONDS)),
                      ("/dev/zero", lambda: program.run("sim", "/dev/zero", "rows", timeout=SECONDS)),
                      ("a FIFO", lambda: fifo(program))):
        try:
            said = run()
            tally.check(f"explain: {name}", said.status == 1 and tell.fullmatch(said.err.decode()), said)
        except subprocess.TimeoutExpired:
            tally.check(f"explain: {name}", False, f"not within {SECONDS} seconds")
    with open("large", "wb") as file:
        file.truncate(2**30 + 1)
    said = program.run("toaig", "--to", "aag", "large").err
    tally.compare("explain: a very large file", said,
                  b"aig: circuit: text at 0\n  file: large\n  it has more than 1 GiB, which aig does not read again\n")


def seen_again(program, tally):
    """What a second look reads: standard input where it is a file, and no other process's; no file that became a pipe; no
    more than its bound of a file that grows."""
    with open("cycle", "rb") as file:
        said = program.run("info", "/dev/stdin", stdin=file).err
    tally.check("explain: standard input that is a file", b"  gate 0 (line 4), of variable 2, is on a cycle\n" in said, said)
    said = explanation(["info", "/dev/stdin"], 1, b"aig: circuit: text at 0\n", has_our_streams=False)
    tally.check("explain: another process's standard input", "it is a pipe or a device" in said, said)
    said = program.run("sim", "/dev/stdin", write("row", "111\n"), input=contents("two_gates")).err
    tally.check("explain: a circuit from a pipe, and its name",
                said.endswith(f"\n  file: /dev/stdin\n  {seen.NOT_AGAIN}: save its bytes in a file to learn more\n".encode()), said)
    write("-x", "aag\n")
    said = program.run("info", "--", "-x").err
    tally.check("explain: a file after two dashes", b"  file: -x\n" in said, said)
    os.mkfifo("pipe_now")
    with mock.patch("os.stat", return_value=os.stat("cycle")):
        try:
            seen.bytes_of("pipe_now")
            tally.check("explain: a file that became a pipe", False)
        except seen.Hidden as hidden:
            tally.check("explain: a file that became a pipe", hidden.is_pipe, hidden)
    with open("cycle", "rb") as file:
        growing = mock.MagicMock(wraps=file)
        growing.__enter__.return_value = growing
        with mock.patch.object(seen, "opened", return_value=growing):
            seen.bytes_of("cycle")
    tally.compare("explain: a file that grows", growing.read.call_args.args, (seen.MOST + 1,))


def fifo(program):
    """A run that reads a FIFO, to which another program writes once."""
    os.mkfifo("fifo")
    with supervised.Popen(["/bin/sh", "-c", "printf 'aag 1\\n' > fifo"]) as writer:
        ended = program.run("info", "fifo", timeout=SECONDS)
        writer.wait(timeout=SECONDS)
    return ended


def names(program, tally):
    """Names of files are shown escaped."""
    for name, shown in (("\x1b[31m\x07 a\nb\t\x7f", r"\x1b[31m\x07 a\x0ab\x09\x7f"), ("café", r"caf\xc3\xa9"),
                        ("\u202e\u009b1m", r"\xe2\x80\xae\xc2\x9b1m"), ("back\\slash", "back\\slash")):
        missing = program.run("info", name).err.decode().split("\n")
        tally.compare(f"explain: {name!r} is missing", missing[1], f"  file: {shown}")
        write(name, TEXTS["cycle"])
        rejected = program.run("info", name).err.decode().split("\n")
        tally.compare(f"explain: {name!r} is rejected", rejected[:2], ["aig: circuit: cycle 2", f"  file: {shown}"])
