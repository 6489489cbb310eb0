"""Sessions of `aig shell`: two that find bugs, refusals, files that are kept, ends, and the prompt at a terminal."""

import os
import re
import shutil
import signal
import subprocess
import time

from library import supervised
from library.runs import DESIGNS, EXAMPLES, Ended, contents, input_or_output, refused, write
from library.terminal import Terminal
from library.tour import steps

PROMPT = "aig> "
FIRST = "11 frames, 12 inputs, 76 latches, 533 gates, 2 properties; try help\n"

# Lines, and their answers, about the run of queue.wit.
ANSWERS = (
    ("spaces, tabs, a carriage return, empty lines and comments", "\tshow  full\t@9-10\r\n\n  \n# show\n",
     "frame  9 10\nfull   0  1\n"),
    ("a last line without its end", "show full @3", "frame 3\nfull  0\n"),
    ("a name that is negated, a word of a vector, a literal", "show !full count[3] 1 @8-10",
     "frame     8  9 10\n!full     1  1  0\ncount[3]  0  1  1\n1         1  1  1\n"),
    ("names that are not there", "show ful\nshow !ful\nshow zzz9\nshow 4000\nshow nix[0]\n",
     "no: no name ful; do you mean full?\nno: no name ful; do you mean full?\nno: no name zzz9\n"
     "no: no literal 4000: the greatest is 1243\nno: no name nix[0]; do you mean din[0]?\n"),
    ("frames", "set 11 push 1\nset 3-1 push 1\nset a push 1\nset 01 push 1\nshow full @\nshow full @5-99\n",
     "no: no frame 11: the last is 10\nno: 3-1 holds no frame\nno: a is no frame\nno: 01 is no frame\n"
     "no:  is no frame\nno: no frame 99: the last is 10\n"),
    ("a refused span sets no frame", "set 1-99 push 0\nshow push @1\n",
     "no: no frame 99: the last is 10\nframe 1\npush  1\n"),
    ("values", "set 3 din 1ff\nset 3 din zz\nset 3 din 4'h3\nset 3 din x'h3\nset 3 push 10\nset 3 din 8'b1\nset 3 count 10\n",
     "no: 1ff is over 8 bits\nno: zz is no value of 8 bits\nno: 4'h3 has 4 bits, not 8\nno: x'h3 is no value of 8 bits\n"
     "no: 10 is over 1 bit\nno: 8'b1 is no value of 8 bits\nno: count is no input\n"),
    ("values of a vector", "set 1 din a5\nset 2 din 8'd165\nset 3 din 8'b1010x101\nset 4 din 1010x101\nset 5 din x\n"
     "set 6 din A5\nshow din din[0] din[7] @1-6\n",
     "frame         1        2        3        4        5        6\n"
     "din          a5       a5 1010x101 1010x101        x       a5\n"
     "din[0]        1        1        1        1        x        1\n"
     "din[7]        1        1        1        1        x        1\n"),
    ("a value that could be binary", "start count 1010\n",
     "no: 1010 is over 4 bits (hexadecimal; 4'b1010 is binary)\n"),
    ("a vector where a bit is wanted", "gate din\nnew din 4\n",
     "no: din has 8 bits; name one, such as din[0]\nno: din has 8 bits; name one, such as din[0]\n"),
    ("other kinds", "set 1 full 1\nstart push 1\nout push 4\nwitness f push\n",
     "no: full is no input\nno: push is no latch\nno: push is no output\nno: push is no property\n"),
    ("gates", "gate full\ngate 27\ngate rst\ngate !rst\ngate 0\ngate 4 5 6\ngate full 4 5\n",
     "full = 26: latch, next 189, reset 0\n27 = !26: latch, next 189, reset 0\nrst = 4: input\n"
     "!rst = 5, 5 = !4: input\n0 = 0: constant\nno: not a gate\nno: not a gate\n"),
    ("a new gate, a cycle, a gate of its own", "new push !pop\ngate 1244\ngate 1244 1244 push\ngate 1244 1 push\n",
     "1244\n1244 = push and !pop\nno: the gates would form a cycle\n1244 = 1 and push\n"),
    ("frames more and less", "add 0\nadd 99999\ndrop 12\nadd 2\ndrop 13\nshow full\n",
     "no: 0 is no number of frames\nno: over a limit: 65536 frames\nno: there are 11 frames\nno: no frames; add makes one\n"),
    ("a start that no reset allows", "start full 1\ncheck\nwitness f\nwhy\n",
     "b0 queue.v:37: 1 at 10, not a run\nb1 queue.v:38: not reached\nfull starts at 1, not at its reset\n"
     "no: full starts at 1, not at its reset\nno: full starts at 1, not at its reset\n"),
    ("lines that are no command", "shw\nshow\nset 1 push\nwave\nhelp nix\n\x1b[A\n",
     "no: no command shw; help lists the commands\nno: usage: show NAME .. [@A-B]\nno: usage: set FRAME NAME VALUE\n"
     "no: usage: wave FILE\nno: no command nix; help lists the commands\nno: no command \\x1b[A; help lists the commands\n"),
    ("names", "names cou\nnames nix\n", "count\nno: no name contains nix\n"),
)

# Words that would change a terminal, in lines whose answers repeat them, and the answers that a terminal gets.
ESCAPES = ("\x1b[31mf", "\x1b]0;f\x07", "\x7ff", "\x9bf", "\x08f")
REPEATED = (("witness {}", "b0 at 10: {}\n"), ("wave n/{}", "no: n/{} is not written: No such file or directory\n"),
            ("save a n/{}", "no: n/{} is not written: No such file or directory\n"),
            ("start count f", ""), ("save a {}", "{} has no start of latches; witness FILE has\n"),
            ("show {}", "no: no name {}\n"), ("names {}", "no: no name contains {}\n"),
            ("gate {} 4 5", "no: no name {}\n"),
            ("set 0 push {}", "no: {} is no value of 1 bit\n"), ("set {} push 1", "no: {} is no frame\n"),
            ("{}", "no: no command {}; help lists the commands\n"), ("why full {}", "no: {} is no frame\n"),
            ("add {}", "no: {} is no number of frames\n"))


def commands_of(session):
    """The lines after the prompts of a session, and what is written between them."""
    lines = session.splitlines(keepends=True)
    asked = "".join(line[len(PROMPT):] for line in lines if line.startswith(PROMPT))
    return asked, "".join(line for line in lines[1:] if not line.startswith(PROMPT))


class Sessions:
    """Sessions about queue.aig and the run of its witness."""

    def __init__(self, program, tally):
        self.program, self.tally = program, tally

    def run(self, lines, *words):
        words = words or ("--witness", "queue.aig", "queue.wit")
        return self.program.run("shell", *words, input=lines.encode())

    def answers(self, name, lines, out):
        ended = self.run(lines)
        said = re.sub(rb"unsaved: [a-z ]+\n\Z", b"", ended.out)
        self.tally.compare(f"shell: {name}", ended._replace(out=said), Ended(0, out.encode(), b""))

    def transcripts(self):
        for document in ("docs/SESSION.md", "crates/aig_shell/README.md"):
            for command, session in steps(document):
                lines, said = commands_of(session)
                ended = self.run(lines, *command.split()[2:])
                self.tally.compare(f"shell: {document}: {command}", ended, Ended(0, said.encode(), b""))
        verdict = self.program.run("check", "queue.aig", "data.wit")
        self.tally.compare("shell: the witness that is kept", verdict, Ended(0, b"confirmed\n", b""))

    def keeps(self):
        ended = self.run("set 9 push 0\nnew 4 6\nsave new.aag new.stim\nwave new.vcd\nquit\n")
        self.tally.compare("shell: files", ended, Ended(0, b"1244\n", b""))
        self.tally.compare("shell: the circuit that is kept", contents("new.aag").split(b"\n")[0].split()[1], b"622")
        sim = self.program.run("wave", "new.aag", "new.stim")
        self.tally.compare("shell: the dump that is kept", contents("new.vcd"), sim.out)
        ended = self.run("start count f\nsave resets.aag resets.stim\nquit\nquit\n")
        self.tally.compare("shell: a start is none of the resets", ended, Ended(
            0, b"resets.stim has no start of latches; witness FILE has\nunsaved: run; quit again to leave\n", b""))
        plain = self.program.run("toaig", "--to", "aag", "queue.aig")
        self.tally.compare("shell: the resets are as in the file", contents("resets.aag"), plain.out)
        ended = self.run("save /dev/full\nsave a a\nsave nix/a\nwave .\nwitness a.wit\n")
        self.tally.compare("shell: files that are not written", ended, Ended(
            0, b"no: /dev/full is not written: No space left on device\nno: a is not written: it is named twice\n"
            b"no: nix/a is not written: No such file or directory\nno: . is not written: Is a directory\n"
            b"b0 at 10: a.wit\n", b""))
        os.symlink("a.wit", "link.wit")
        self.run("witness link.wit\n")
        self.tally.check("shell: a link stays", os.path.islink("link.wit"), None)
        self.tally.compare("shell: nothing is left behind", [name for name in os.listdir(".") if ".new" in name], [])

    def ends(self):
        self.tally.compare("shell: an edited run", self.run("set 9 push 0\n"), Ended(0, b"unsaved: run\n", b""))
        self.tally.compare("shell: what is unsaved", self.run("set 9 push 0\nnew 4 6\nquit\nshow\nquit\nquit\nshow\n"),
                           Ended(
            0, b"1244\nunsaved: circuit and run; quit again to leave\nno: usage: show NAME .. [@A-B]\n"
            b"unsaved: circuit and run; quit again to leave\n", b""))
        self.tally.compare("shell: no run", self.run("show full\nadd\nshow rst\nwhy\n", "queue.aig"), Ended(
            0, b"no: no frames; add makes one\nframe 0\nrst   x\nno: no property is reached; check says why\nunsaved: run\n", b""))
        write("nothing.aag", "aag 0 0 0 0 0\n")
        self.tally.compare("shell: names of no entries", self.run("names\nnames x\n", "nothing.aag"), Ended(
            0, b"the circuit has no names\nno: no name contains x\n", b""))
        write("twins.aag", "aag 2 2 0 1 0\n2\n4\n2\ni0 a both\ni1 b both\no0 a more\n")
        self.tally.compare("shell: names that come twice", self.run("names\n", "twins.aag"), Ended(
            0, b"a both b more\n", b""))
        for words, wanted in (
                (("nix.aig",), input_or_output("circuit")), (("queue.aig", "queue.wit"),
                                                             refused("stimulus: length of line 1")),
                (("--witness", "queue.aig", "cache.wit"), refused("witness: text"))):
            self.tally.compare(f"shell: {' '.join(words)}", self.run("show full\n", *words), wanted)
        self.tally.compare("shell: a witness that is missing", self.run("", "--witness", "queue.aig").status, 2)
        with open("/dev/full", "wb") as full:
            done = supervised.run([self.program.path, "shell", "queue.aig"], input=b"check\n", stdout=full,
                                  stderr=subprocess.PIPE, check=False)
        self.tally.compare("shell: answers that are not written", (done.returncode, done.stderr),
                           (3, b"aig: shell: input or output\n"))

    def conditions(self):
        """Without a name the property is that of the witness that was opened, though its condition is reached first."""
        write("if.aag", "aag 2 1 1 0 0 3\n2\n4 2\n4\n2\n0\ni0 a\nl0 q\nb0 ok\nb1 if:ok\nb2 late\n")
        write("if.wit", "1\nb0\n0\n1\n0\n.\n")
        lines = "why\nwitness f\nwitness f if:ok\nset 0 a 0\nwhy\nwitness f\n"
        ended = self.run(lines, "--witness", "if.aag", "if.wit")
        self.tally.compare("shell: the property of the witness", ended, Ended(
            0, b"q=1 at 1, by 0: a=1\nb0 at 1: f\nb1 at 0: f\nno: b0 ok is not reached; check says why\n"
            b"no: b0 ok is not reached; check says why\nunsaved: run\n", b""))
        self.tally.compare("shell: conditions come last", self.run("check\n", "--witness", "if.aag", "if.wit"), Ended(
            0, b"b0 ok: reached at 1\nb2 late: not reached\nb1 if:ok: reached at 0\n", b""))

    def helps(self):
        lines = self.run("help\n").out.decode().splitlines()
        self.tally.compare("shell: lines of the help over 79 columns", [line for line in lines if len(line) > 79], [])

    def terminal(self):
        """At a terminal there are a first line and prompts, and ^C ends the program."""
        words = [self.program.path, "shell", "--witness", "queue.aig", "queue.wit"]
        with Terminal() as terminal, supervised.Popen(words, stdin=terminal.end, stdout=subprocess.PIPE,
                                                      stderr=subprocess.PIPE) as run:
            os.write(terminal.user, b"show full @3\nset 9 push 0\n")
            time.sleep(1)
            run.send_signal(signal.SIGINT)
            out, _ = run.communicate()
        self.tally.compare("shell: a terminal", (out.decode(), run.returncode), (
            f"{FIRST}{PROMPT}frame 3\nfull  0\n{PROMPT}{PROMPT}", -signal.SIGINT))

    def escapes(self):
        """A terminal gets no byte of a line as it is that would change it."""
        for word in ESCAPES:
            shown = "".join(chr(byte) if 32 <= byte < 127 else f"\\x{byte:02x}" for byte in word.encode())
            lines = "".join(line.replace("{}", word) + "\n" for line, _ in REPEATED)
            with Terminal() as terminal:
                ended = self.program.run("shell", "--witness", "queue.aig", "queue.wit", input=lines.encode(),
                                         stdout=terminal.end)
                seen = terminal.close()
            wanted = "".join(answer.replace("{}", shown) for _, answer in REPEATED) + "unsaved: run\n"
            self.tally.compare(f"shell: a terminal gets {shown}", (ended.status, ended.err, seen.decode()),
                               (0, b"", wanted))


def shell(program, tally, _):
    for name, folder in (("queue", EXAMPLES), ("cache", DESIGNS)):
        for ending in ("aig", "wit"):
            shutil.copy(f"{folder}/{name}.{ending}", f"{name}.{ending}")
    sessions = Sessions(program, tally)
    for name, lines, out in ANSWERS:
        sessions.answers(name, lines, out)
    sessions.transcripts()
    sessions.keeps()
    sessions.ends()
    sessions.conditions()
    sessions.helps()
    sessions.terminal()
    sessions.escapes()
