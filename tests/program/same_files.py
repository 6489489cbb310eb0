"""A FILE that a run writes, and that is also standard output or another FILE: it is refused before anything is written
to it, whether it is a file, a pipe or a terminal. A device that keeps nothing may be both."""

import os

from library.circuits import write_all
from library.explained import Explained
from library.runs import Ended, contents, input_or_output, write
from library.terminal import Terminal

# Names that lead to the file `new`, which does not exist, in the folder of the run or of a link.
NAMES = ("new", "./new", "folder/../new", "link/new", ".//new")
SESSION = ("shell", "two_gates", "rows")
TWICE = b"no: %s is not written: it is named twice\n"
STANDARD = b"no: %s is not written: it may be standard output or standard error\n"
# Lines of a session that write to standard output, which has answers before and after them.
WRITES = ("save /dev/stdout", "save saved /dev/stdout", "wave /dev/stdout", "save /dev/fd/1",
          "wave /proc/self/fd/1", "save /dev/stdout saved")
# Runs that write a text to OUT.
RUNS = ("unroll --frames 2 --to aag --map OUT two_gates", "bench --circuit-out OUT two_gates rows script",
        "bench --stimulus-out OUT two_gates rows script")


def same_files(program, tally, _):
    write_all()
    write("rows", "11\n")
    write("script", "v 0 8\n")
    os.mkdir("folder")
    os.symlink(".", "link")
    twice(program, tally)
    sessions(program, tally)
    runs(program, tally)


def left():
    return [name for name in os.listdir() if name.startswith(("new", "saved"))]


def twice(program, tally):
    """Two names of a file, whether it exists or not."""
    for other in NAMES:
        for name in NAMES:
            ended = program.run(*SESSION, input=f"save {other} {name}\n".encode())
            tally.compare(f"same_files: save {other} {name}", (ended, left()),
                          (Ended(0, TWICE % name.encode(), b""), []))
        words = ("bench", "--circuit-out", "new", "--stimulus-out", other, "two_gates", "rows", "script")
        tally.compare(f"same_files: {words}", (program.run(*words), left()), (input_or_output("output"), []))
    write("new", "old")
    for name in NAMES:
        ended = program.run(*SESSION, input=f"save new {name}\n".encode())
        tally.compare(f"same_files: save new {name}, which exists", (ended, contents("new")),
                      (Ended(0, TWICE % name.encode(), b""), b"old"))
    os.remove("new")
    ended = program.run(*SESSION, input=b"save new folder/new\n")
    tally.compare("same_files: one name in two folders", (ended, sorted([*left(), *os.listdir("folder")])),
                  (Ended(0, b"", b""), ["new", "new"]))
    os.remove("new")
    os.remove("folder/new")


def answers(lines):
    """The answers of a session that asks for a value before and after these lines, each of which is refused."""
    said = [STANDARD % next(word for word in line.split()[1:] if word.startswith(("/dev", "/proc"))).encode()
            for line in lines]
    return b"0 = 0: constant\n" + b"".join(said) + b"0 = 0: constant\n"


def sessions(program, tally):
    """The answers come in their order, and the text does not come between them."""
    typed = "\n".join(["gate 0", *WRITES, "gate 0", ""]).encode()
    wanted = answers(WRITES)
    tally.compare("same_files: a session on a pipe", program.run(*SESSION, input=typed), Ended(0, wanted, b""))
    with open("out", "wb") as out:
        program.run(*SESSION, input=typed, stdout=out)
    tally.compare("same_files: a session on a file", contents("out"), wanted)
    with Terminal() as terminal:
        ended = program.run(*SESSION, input=typed, stdout=terminal.end)
        tally.compare("same_files: a session on a terminal", ended._replace(out=terminal.close()),
                      Ended(0, wanted, b""))
    tally.compare("same_files: files of refused lines", left(), [])
    with open("/dev/null", "wb") as null:
        ended = program.run(*SESSION, input=b"save /dev/stdout\nwave /dev/null\n", stdout=null)
    tally.compare("same_files: a session on /dev/null", ended, Ended(0, None, b""))


def runs(program, tally):
    """Runs with standard output as their FILE are refused before they write; with another pipe or terminal they are
    not."""
    for words in RUNS:
        words = words.replace("OUT", "/dev/stdout").split()
        refused = input_or_output("output")
        tally.compare(f"same_files: {words}: a pipe", program.run(*words), refused)
        with Terminal() as terminal:
            ended = program.run(*words, stdout=terminal.end)
            tally.compare(f"same_files: {words}: a terminal", (ended, terminal.close()),
                          (refused._replace(out=None), b""))
        with Terminal() as terminal:
            words[words.index("/dev/stdout")] = terminal.name
            plain = program.run(*words)
            tally.check(f"same_files: {words}: another terminal", plain.status == 0 and terminal.close(), plain)
        with open("/dev/null", "wb") as null:
            words[words.index(terminal.name)] = "/dev/stdout"
            tally.compare(f"same_files: {words}: /dev/null", program.run(*words, stdout=null), Ended(0, None, b""))
        said = Explained(program).run(*words).err
        tally.check(f"same_files: {words}: explained", b"standard output or standard error goes to it" in said, said)
