#!/usr/bin/env python3
"""Measures edits and questions of a bench that the library for C keeps open, beside calls of the workbench of the C++
program and the lines of a script of both, and prints a table in Markdown: live.py PROGRAM LIBRARY, a folder with
libaig.a.

A line of a script is read, done and answered: its time is that of the whole process, without that of an empty script. A
call has no text: it is timed within a process that keeps the bench. A time is processor time, the least of --times
runs, which take turns. The goal is 1.05 for an edit, and 20 ns for a question."""

import argparse
import os
import tempfile

from measure import machine
from library import supervised
from library.runs import REPOSITORY, write
from tables.edits import EDITED_FRAMES
from tables.files import load
from tables.jobs import Job
from tables.programs import BENCHMARKS, Programs
from tables.runs import head, printed, row

# one gate, and copies of a cipher of 960 gates
TINY, CIPHERS = ("circuit", "random", 1, 1, 1, 1), [(copies, 16, 6) for copies in (1, 10, 104, 1041, 3900)]
EDITS, QUESTIONS = 1_000_000, 1_000_000
# how many edits that evaluate something, that make the circuit longer, and that add or drop a frame
FEW, APPENDED, FRAMES = 2_000, 200_000, 200
BITS = 32  # of the factors of the multiplier


def loads():
    """The name of each load, its circuit, rows and script, how many lines that has, and how `live.c` calls one."""
    tiny = [load(*TINY), load("zeros", 1, 1)]
    yield "input of one gate, as it is", *tiny, write("same", "s 0 0 0\n" * EDITS), EDITS, "edit"
    yield "input of one gate, another", *tiny, write("turns", "s 0 0 1\ns 0 0 0\n" * (EDITS // 2)), EDITS, "edit"
    for cipher in CIPHERS:
        yield from loads_of(cipher)
    multiplier = load("multiplier", BITS)
    files = [multiplier, load("zeros", 2 * BITS, 1)]
    yield "rewire that moves levels, multiplier", *files, load("moves", BITS, FEW), FEW, "edit"
    files = [load("circuit", "random", 1000, 1000, 1000, 10_000), load("stimulus", 1000, 64)]
    yield "question, 10,000 gates", *files, load("values", 64, 12_000, QUESTIONS), QUESTIONS, "question"


def loads_of(cipher):
    """The loads on copies of a cipher: edits that evaluate nothing, a gate at each frame, and some hundred cells."""
    files = [load("cipher", *cipher), load("zeros", cipher[0] * cipher[1], EDITED_FRAMES)]
    sized = f"sparse, {960 * cipher[0]:,} gates"
    yield f"nothing, {sized}", *files, write("same", "s 0 0 0\n" * EDITS), EDITS, "edit"
    yield f"sides swapped, {sized}", *files, load("swaps", *cipher, FEW), FEW, "edit"
    for name in ("late", "bits"):
        yield f"{name}, {sized}", *files, load("edits", name, *cipher, EDITED_FRAMES, FEW), FEW, "edit"
    if cipher[0] <= 104:
        yield f"append_gate, {sized}", *files, write("more", "g 2 4\n" * APPENDED), APPENDED, "edit"
        frames = load("edits", "frames", *cipher, EDITED_FRAMES, FRAMES)
        yield f"add_frame, drop_frame, {sized}", *files, frames, FRAMES, "edit"


def built(library):
    """The program that makes the calls."""
    program = os.path.abspath("live")
    supervised.run(["cc", "-O2", "-std=c99", f"-I{REPOSITORY}/include", f"-I{REPOSITORY}/tests/calls",
                    f"{BENCHMARKS}/live.c", f"{library}/libaig.a", "-o", program], check=True)
    return program


def in_turns(times, *runs):
    """The least of the numbers that each program prints by name."""
    found = [{} for _ in runs]
    for _ in range(times):
        for least, words in zip(found, runs):
            least.update((name, min(number, least.get(name, number))) for name, number in printed(1, words).items())
    return found


def table(programs, live, times):
    head("An edit and a question, in nanoseconds of processor time.", "load", "a call: C++", "a call", "ratio",
         "in an array",
         "a line: C++", "a line: aig bench")
    for name, circuit, rows, script, count, kind in loads():
        files = [circuit, rows]
        job = Job(name, "", 1.05, f"bench {circuit} {rows} {script}", f"bench {circuit} {rows} text.empty", count)
        lines = [seconds / count * 1e9 for seconds in job.measured(programs, times)[0]]
        theirs, ours = in_turns(times, [programs.get("tuned"), "live", *files, script], [live, *files, script])
        array = ours.get(f"{kind}_of_an_array")
        row(name, f"{theirs[kind]:,.1f}", f"{ours[kind]:,.1f}", f"{ours[kind] / theirs[kind]:.2f}",
            f"{array:,.1f}" if array else "", *(f"{it:,.0f}" for it in lines))


def main():
    parser = argparse.ArgumentParser(description=__doc__, formatter_class=argparse.RawDescriptionHelpFormatter)
    parser.add_argument("program", metavar="PROGRAM", help="the program aig that is measured")
    parser.add_argument("library", metavar="LIBRARY", help="the folder of libaig.a")
    parser.add_argument("--room", metavar="FOLDER", help="the folder of what is made, for the next call")
    parser.add_argument("--times", type=int, default=5, metavar="N", help="how many runs of each (5)")
    chosen = parser.parse_args()
    programs, library = Programs(os.path.abspath(chosen.program)), os.path.abspath(chosen.library)
    with tempfile.TemporaryDirectory() as own:
        room = os.path.abspath(chosen.room or own)
        os.makedirs(room, exist_ok=True)
        os.chdir(room)
        machine(programs, chosen)
        table(programs, built(library), chosen.times)
        os.chdir("/")


if __name__ == "__main__":
    main()
