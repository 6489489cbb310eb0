"""Talks with the program line by line through two pipes, as a terminal or another program has them: a reply has to come
before the next line does. Then the pipe that the program writes to is closed."""

import os
import select
import subprocess

from library import supervised
from library.circuits import TEXTS, write_all
from library.runs import write

SECONDS = 20


class Failure(Exception):
    """A talk that did not go as it should."""


class Talk:
    """A run of the program that reads its last file from a pipe, and writes to a pipe."""

    def __init__(self, program, *words):
        self.run = supervised.Popen([program.path, *words, "/dev/stdin"], stdin=subprocess.PIPE, stdout=subprocess.PIPE,
                                    stderr=subprocess.PIPE)

    def fail(self, text):
        self.run.kill()
        raise Failure(text)

    def say(self, line, wanted):
        """Writes bytes, and waits for this answer. Without an answer, the program is to be silent for a moment."""
        try:
            self.run.stdin.write(line)
            self.run.stdin.flush()
        except BrokenPipeError:
            self.fail("it ends before its input does")
        got = b""
        while len(got) < len(wanted) or not wanted:
            if not select.select([self.run.stdout], [], [], SECONDS if wanted else 0.3)[0]:
                break
            more = os.read(self.run.stdout.fileno(), 65536)
            got += more
            if not more or not wanted:
                break
        if got != wanted:
            self.fail(f"{line!r} is answered {got!r}, not {wanted!r}, within {SECONDS} seconds")

    def end(self, status=0, said=b"", answer=b""):
        """Ends the input. Nothing more is to be answered than this."""
        try:
            out, err = self.run.communicate(timeout=SECONDS)
        except subprocess.TimeoutExpired:
            self.fail("it does not end")
        if (out, err, self.run.returncode) != (answer, said, status):
            self.fail(f"it ends with {out!r}, {err!r}, status {self.run.returncode}")


def script(program):
    talk = Talk(program, "bench", "two_gates", "rows")
    talk.say(b"v 0 8\n", b"1\n")
    talk.say(b"s 0 1 0\n", b"ok\n")
    talk.say(b"v 0 8", b"")
    talk.say(b"\n", b"0\n")
    talk.say(b"t\nq\n", b" 10 0 \n 01 0 \n.\nbad\n")
    talk.say(b"u\n", b"aag 8 4 0 2 4\n2\n4\n6\n8\n12\n16\n10 4 2\n12 10 2\n14 8 6\n16 14 6\n.\n")
    for _ in range(2000):
        talk.say(b"v 1 8\n", b"0\n")
    talk.say(b"v 0 8\n" * 5000, b"0\n" * 5000)
    talk.end()


def stimulus(program):
    talk = Talk(program, "sim", "toggle")
    talk.say(b"\n", b"0  01 1\n")
    talk.say(b"\n", b"1  10 0\n")
    talk.say(b"\n" * 5000, b"0  01 1\n1  10 0\n" * 2500)
    talk.end()


def faulty_line(program):
    talk = Talk(program, "sim", "toggle")
    talk.say(b"\n", b"0  01 1\n")
    talk.say(b"1\n", b"")
    talk.end(1, b"aig: stimulus: length of line 2\n")


def dump(program):
    talk = Talk(program, "wave", "toggle")
    talk.say(b"", b"""$version aig $end
$timescale 1 ns $end
$scope module latches $end
$var reg 1 ! l0 $end
$upscope $end
$scope module outputs $end
$var wire 1 " o0 $end
$var wire 1 # o1 $end
$upscope $end
$enddefinitions $end
""")
    talk.say(b"\n", b'#0\n$dumpvars\n0!\n0"\n1#\n$end\n')
    talk.say(b"\n", b'#1\n1!\n1"\n0#\n')
    talk.end(answer=b"#2\n")


def closed(program, words, text, part):
    """Nobody reads what the program writes: a failed write, which the program reports."""
    talk = Talk(program, *words.split(" "))
    talk.run.stdout.close()
    try:
        talk.run.stdin.write(text)
        talk.run.stdin.close()
    except BrokenPipeError:
        talk.fail("it ends before its input does")
    try:
        talk.run.wait(timeout=SECONDS)
    except subprocess.TimeoutExpired:
        talk.fail("it does not end")
    if talk.run.returncode != 3 or talk.run.stderr.read() != b"aig: %s: input or output\n" % part:
        talk.fail(f"status {talk.run.returncode}")


def talks(program, tally, _):
    two_gates = TEXTS["two_gates"].encode()
    write_all()
    write("rows", "11\n01\n")
    held = (
        ("a script", script, ()),
        ("a stimulus", stimulus, ()),
        ("a faulty line", faulty_line, ()),
        ("a dump", dump, ()),
        ("bench, a closed pipe", closed, ("bench two_gates rows", b"v 0 8\n", b"script")),
        ("sim, a closed pipe", closed, ("sim toggle", b"\n", b"stimulus")),
        ("wave, a closed pipe", closed, ("wave toggle", b"\n", b"stimulus")),
        ("toaig, a closed pipe", closed, ("toaig --to aag", two_gates, b"output")),
        ("unroll, a closed pipe", closed, ("unroll --frames 2 --to aag", two_gates, b"output")),
        ("cnf, a closed pipe", closed, ("cnf --frames 2", TEXTS["bad_input"].encode(), b"output")),
    )
    for name, talk, details in held:
        try:
            talk(program, *details)
            tally.check(f"talks: {name}", True)
        except Failure as failure:
            tally.check(f"talks: {name}", False, failure)
