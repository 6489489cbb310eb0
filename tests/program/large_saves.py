"""Large files of a session of `aig shell`: a circuit of 1.2 MB, 60,000 rows, and a witness and a dump of these. They
have all bytes of what the session began with, but for what is edited; so has what a pipe gets. If the reader of a pipe
leaves, the answer says that it is not written, and the circuit is still unsaved."""

import os
import random
import re

from library import supervised
from library.runs import Ended, contents, write

INPUTS, GATES, SIZE = 1000, 72_000, 1_200_000
FRAMES, COLUMNS = 60_000, 12
UNWRITTEN = re.compile(rb"[^\n]+\nno: pipe is not written: [^\n]+\nframe 0\nname3 0\nunsaved: circuit\n")


def text_of(lines):
    return "".join(f"{line}\n" for line in lines)


def circuit():
    """The lines of a circuit of 1.2 MB, whose last gate has the greatest literal."""
    rng = random.Random(12)
    lines = [f"aag {INPUTS + GATES} {INPUTS} 0 1 {GATES}", *(2 * at + 2 for at in range(INPUTS)), 2]
    for at in range(GATES):
        left = 2 * (INPUTS + at // 2) + 2 if at > INPUTS else rng.randrange(2, 2 * INPUTS)
        lines.append(f"{2 * (INPUTS + at) + 2} {left} {rng.randrange(2, 2 * INPUTS)}")
    return [*lines, *(f"i{at} name{at} of an input" for at in range(INPUTS))]


class Saves:
    """Sessions that begin with the files `design` and `rows`."""

    def __init__(self, program, tally):
        self.program, self.tally = program, tally

    def run(self, *lines):
        return self.program.run("shell", "design", "rows", input=text_of(lines).encode())

    def read_by(self, reader, *lines):
        """Runs lines while a program reads the pipe, whose output is the file `read`."""
        with open("read", "wb") as out, supervised.Popen([*reader.split(), "pipe"], stdout=out):
            return self.run(*lines)

    def ends(self, name, ended, said="", **texts):
        """The session ends well with this output, and these files have these texts."""
        self.tally.compare(f"large_saves: {name}", ended, Ended(0, said.encode(), b""))
        for file, text in texts.items():
            self.tally.check(f"large_saves: {name}, {file}", contents(file) == text.encode(), "other bytes")

    def circuits(self):
        lines, row = circuit(), "0" * INPUTS + "\n"
        write("design", text_of(lines))
        write("rows", row)
        self.tally.check("large_saves: the size of the circuit", len(text_of(lines)) > SIZE)
        self.ends("a circuit", self.run("save saved saved_rows"), saved=text_of(lines), saved_rows=row)
        place = lines.index("i0 name0 of an input") - 1
        gate = lines[place].split()[0]
        edit, said = f"gate {gate} !name2 name1", f"{gate} = !name2 and name1\n"
        edited = text_of([*lines[:place], f"{gate} 7 4", *lines[place + 1:]])
        self.ends("an edited circuit", self.run(edit, "save saved"), said, saved=edited)
        os.mkfifo("pipe")
        self.ends("a pipe", self.read_by("cat", edit, "save pipe"), said, read=edited)
        ended = self.read_by("head -c 10", edit, "save pipe", "show name3")
        is_told = (ended.status, ended.err) == (0, b"") and UNWRITTEN.fullmatch(ended.out)
        self.tally.check("large_saves: a pipe whose reader leaves", is_told, ended)

    def rows(self):
        """Rows of a circuit whose property is its last input, which is 1 at the last frame alone."""
        rng = random.Random(60)
        rows = ["".join(rng.choice("01x") for _ in range(COLUMNS - 1)) + "0" for _ in range(FRAMES)]
        design = text_of([f"aag {COLUMNS} {COLUMNS} 0 0 0 1", *(2 * at + 2 for at in range(COLUMNS)), 2 * COLUMNS])
        write("design", design)
        write("rows", text_of(rows))
        self.ends("rows", self.run("save saved saved_rows"), saved=design, saved_rows=text_of(rows))
        last = FRAMES - 1
        edited = [*rows[:-1], f"{rows[-1][:-1]}1"]
        ended = self.run(f"set {last} i{COLUMNS - 1} 1", "witness found", "save saved saved_rows", "wave dump")
        self.ends("edited rows", ended, f"b0 at {last}: found\n", saved_rows=text_of(edited),
                  found=text_of(["1", "b0", "", *edited, "."]))
        wave = self.program.run("wave", "saved", "saved_rows")
        self.ends("a dump", wave._replace(out=b""), dump=wave.out.decode())


def large_saves(program, tally, _):
    saves = Saves(program, tally)
    saves.circuits()
    saves.rows()
