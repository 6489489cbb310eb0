"""What `aig-explain` says of writes that fail: to standard output, and to files that options name."""

import os
import shutil
import subprocess
import sys
from unittest import mock

from library import supervised
from library.circuits import write_all
from library.explained import COMMAND, Explained, explanation
from library.runs import REPOSITORY, contents, leave_out, write


def outputs(program, tally, _):
    program, plain = Explained(program), program
    write_all()
    os.mkdir("folder")
    write("rows", "11\n")
    write("script", "t\n")
    runs = (
        ("output", ["toaig", "--to", "aag", "two_gates"], None),
        ("output", ["info", "two_gates"], None),
        ("output", ["unroll", "--frames", "1", "--to", "aag", "two_gates"], None),
        ("output", ["cnf", "--frames", "1", "bad_input"], None),
        ("output", ["select", "--to", "aag", "bad_input"], None),
        ("output", ["strengthen", "--to", "aag", "--certificate", "two_gates", "bad_input"], None),
        ("output", ["cnf", "--certificate", "two_gates", "bad_input"], None),
        ("stimulus", ["sim", "two_gates", "rows"], "rows"),
        ("stimulus", ["wave", "two_gates", "rows"], "rows"),
        ("script", ["bench", "two_gates", "rows", "script"], "script"),
    )
    for part, words, file in runs:
        head = f"aig: {part}: input or output\n"
        head += f"  file: {file}\n  it can be opened and read now\n" if file else ""
        with open("/dev/full", "wb") as full:
            said = program.run(*words, stdout=full).err.decode()
        is_told = "No space left on device" in said
        tally.check(f"explain: {words}: a full device", said.startswith(head) and is_told, said)
        said = program.run(*words, preexec_fn=lambda: os.close(1)).err.decode()
        tally.check(f"explain: {words}: a closed output", said.startswith(head) and "standard output" in said, said)
        read, write_end = os.pipe()
        os.close(read)
        said = program.run(*words, stdout=write_end).err.decode()
        os.close(write_end)
        tally.check(f"explain: {words}: a pipe without a reader",
                    said.startswith(head) and "its reader may have ended" in said, said)
    named_outputs(program, plain, tally)


def named_outputs(program, plain, tally):
    """Files that options name. Nothing is created or changed by the second look."""
    bench = ["bench", "two_gates", "rows", "script"]
    unroll = ["unroll", "--frames", "2", "--to", "aag", "two_gates"]
    write("out.new", "")
    write("old", "old")
    write("kept", "kept")
    write("kept.new", "new")
    os.symlink("nothing", "dangling")
    os.symlink("two_gates", "link")
    before = sorted(os.listdir())
    for words, name, reason in (
            (bench + ["--circuit-out", "folder"], "folder", "it is a folder"),
            (bench + ["--stimulus-out", "out"], "out", "  file: out.new\n  it exists"),
            (bench + ["--circuit-out", "missing/out"], "missing/out", "No such file or directory"),
            (bench + ["--circuit-out", "two_gates/out"], "two_gates/out", "Not a directory"),
            (bench + ["--circuit-out", "out/"], "out/", "this is not the name of a file"),
            (bench + ["--circuit-out", ""], "", "this is not the name of a file"),
            (bench + ["--circuit-out", "dangling"], "dangling", "a link to a file that does not exist"),
            (bench + ["--circuit-out", "/dev/full"], "/dev/full", "it may be full"),
            (bench + ["--circuit-out", "old", "--stimulus-out", "./old"], "old", "two arguments name this file"),
            (bench + ["--circuit-out", "new", "--stimulus-out", "new"], "new", "two arguments name this file"),
            (bench + ["--stimulus-out", "pair", "--circuit-out", "pair.new"], "pair.new",
             "its new file would take the name"),
            (bench + ["--circuit-out", "kept"], "kept", "  file: kept.new\n  it exists"),
            (unroll + ["--map", "two_gates"], "two_gates", "two arguments name this file"),
            (unroll + ["--map", "link"], "link", "two arguments name this file"),
            (unroll + ["--map", "folder"], "folder", "it is a folder")):
        said = program.run(*words).err.decode()
        is_right = said.startswith(f"aig: output: input or output\n  file: {name}\n  ") and reason in said
        tally.check(f"explain: {words}", is_right, said)
    standard_streams(program, tally, bench)
    tally.compare("explain: the folder", sorted(os.listdir()), before)
    tally.compare("explain: files that were there", (contents("old"), contents("kept")), (b"old", b"kept"))
    if os.geteuid() == 0:
        owner(plain, tally, bench)


def standard_streams(program, tally, bench):
    """A file of an option that is also that of standard output or standard error."""
    with open("log", "wb") as log:
        said = program.run(*bench, "--circuit-out", "log", stdout=log).err.decode()
    tally.check("explain: the file of standard output", "standard output or standard error goes to it" in said, said)
    with open("log", "wb") as log:
        supervised.run([COMMAND, *bench, "--circuit-out", "log"], stdin=subprocess.DEVNULL, stderr=log)
    tally.compare("explain: the file of standard error", contents("log"), b"aig: output: input or output\n  file: log\n"
                  b"  standard output or standard error goes to it: name another file\n")
    os.unlink("log")


def owner(plain, tally, bench):
    """A file of another owner. The user may not search the folders above this one, so all names are relative."""
    words = [*bench, "--circuit-out", "old"]
    with mock.patch("os.geteuid", return_value=61000):
        said = explanation(words, 3, b"aig: output: input or output\n")
    tally.check("explain: another owner, as a call", "  file: old\n  it has another owner" in said, said)
    shutil.copy(plain.path, "aig")
    shutil.copytree(f"{REPOSITORY}/python/src", "sources", ignore=shutil.ignore_patterns("__pycache__"))
    os.chmod(".", 0o777)
    os.chmod("old", 0o666)
    python = shutil.which("python3", path="/usr/bin") or sys.executable
    try:
        done = supervised.run([python, "-m", "aig.explain", *words], user=61000, group=61000,
                              env={**os.environ, "PYTHONPATH": "sources", "AIG_PROGRAM": "./aig"}, stdin=subprocess.DEVNULL,
                              capture_output=True, check=False)
    except PermissionError as error:
        leave_out("explain: a run of another user", error)
        return
    tally.check("explain: another owner", b"  file: old\n  it has another owner" in done.stderr, done)
