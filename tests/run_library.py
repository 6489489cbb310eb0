#!/usr/bin/env python3
"""Tests the library for C: its header, its calls from C and C++, with sanitizers and without memory, and that each call
gives what the command of its name prints.

usage: run_library.py [--part NAME] [PROGRAM]

The library is libaig.a and libaig.so in the folder `lib` beside the PROGRAM, else the one that the gate made. A part
that needs a compiler or a tool that is missing is left out."""

import ctypes
import os
import re
import shutil
import subprocess
import sys

from at_random import live_scripts
from library import runs, supervised
from library.c_header import HEADER, declared, exports, fields, structs
from library.runs import EXAMPLES, REPOSITORY, TESTS, LeftOut, contents, leave_out

sys.path.insert(0, REPOSITORY + "/tools")
import gate  # noqa: E402
import pack  # noqa: E402

PKG_CONFIG = f"{REPOSITORY}/tools/aig.pc"
DONE, REFUSED, NO_ROOM = 0, 1, 2
# what examples/live.c says of two gates and their rows
LIVE = "set: 0, 2 evaluated, 2 changed\n8 is 1 at 2 of 2 frames\n"
WARNINGS = ("-Wall", "-Wextra", "-Werror", "-pedantic")


def folder_of(program):
    """The folder of the library, if it is there."""
    folder = f"{os.path.dirname(program.path)}/lib" if program.is_named else f"{REPOSITORY}/{gate.PROVED_LIBRARY}"
    if not os.path.exists(f"{folder}/libaig.a"):
        raise LeftOut(f"there is no library in {folder}: `make lib` builds it")
    return folder


def need(*commands):
    for name in commands:
        if not shutil.which(name):
            raise LeftOut(f"there is no {name}")


def ran(*words):
    return supervised.run(words, stdin=subprocess.DEVNULL, stdout=subprocess.PIPE, stderr=subprocess.STDOUT, text=True,
                          errors="replace", timeout=runs.SECONDS, check=False)


def works(*flags):
    """Whether the compiler links a program with these flags that runs."""
    runs.write("empty.c", "int main(void) { return 0; }\n")
    return ran("cc", *flags, "empty.c", "-o", "empty").returncode == 0 and ran("./empty").returncode == 0


def header(program, tally, _):
    """The header declares what the crate exports, with the types of its arguments, and the structs of the crate. The
    library shows nothing else."""
    names = sorted(exports())
    tally.compare("the structs in the header", structs(), fields())
    tally.compare("the names in the header", sorted(declared()), names)
    for name in names:
        tally.compare(f"the arguments of {name}", declared().get(name), exports()[name])
    folder = folder_of(program)
    need("nm")
    for name, words in (("libaig.so", ("-D", "--defined-only")), ("libaig.a", ("-g", "--defined-only"))):
        lines = ran("nm", *words, f"{folder}/{name}").stdout.split("\n")
        shown = {line.split()[2] for line in lines if len(line.split()) == 3}
        tally.compare(f"what {name} shows", sorted(shown), names)


def in_each_way(folder, tally, name, compiler="cc", standard="c99"):
    """Runs a program of tests/calls in threads, under each sanitizer that is there, and by valgrind."""
    need(compiler)
    stem = name.partition(".")[0]
    for flags, times in (("-O2", 200), ("-g -fsanitize=address,undefined", 20), ("-g -fsanitize=thread", 20)):
        if not works(*flags.split()):
            leave_out(f"{stem}: {flags}", "cc has no such flag")
            continue
        built = ran(compiler, *flags.split(), f"-std={standard}", *WARNINGS, f"-I{REPOSITORY}/include",
                    f"{TESTS}/calls/{name}", f"{folder}/libaig.a", "-lpthread", "-o", stem)
        tally.compare(f"{name} {flags}", (built.returncode, built.stdout), (0, ""))
        done = ran(f"./{stem}", EXAMPLES, str(times))
        tally.compare(f"{name} runs, {flags}", (done.returncode, done.stdout), (0, "as wanted\n"))
        if flags == "-O2" and shutil.which("valgrind"):
            done = ran("valgrind", "-q", "--leak-check=full", "--error-exitcode=9", f"./{stem}", EXAMPLES, "1")
            tally.compare(f"{name} by valgrind", (done.returncode, done.stdout), (0, "as wanted\n"))


def calls(program, tally, _):
    """Calls with results that are known, in one thread and in two, under each sanitizer that is there."""
    in_each_way(folder_of(program), tally, "calls.c")


def live(program, tally, _):
    """Benches that stay open, from C and from C++: results that are known, each status, structs at the edge of a page,
    and two threads with a bench each, under each sanitizer that is there."""
    in_each_way(folder_of(program), tally, "live.c")
    in_each_way(folder_of(program), tally, "live.cpp", "c++", "c++11")


def scripts(program, tally, _):
    """Random scripts on benches that stay open: each answer beside `aig bench` and the plain workbench, and each report
    beside the values before and after the edit."""
    library = ctypes.CDLL(f"{folder_of(program)}/libaig.so")
    kinds = live_scripts.small(program, tally, library, 60)
    wide = live_scripts.wide(program, tally, library, 12000)
    return f"{kinds['answers']} answers and {kinds['no']} refusals of small benches, {wide} answers of a wide one; "


def without_memory(folder, tally, name):
    """Builds and runs a program that refuses allocations, and answers what it says."""
    need("cc")
    flags = ["-g", "-fsanitize=address"] if works("-g", "-fsanitize=address") else ["-g"]
    stem = name.partition(".")[0]
    built = ran("cc", *flags, "-std=c99", *WARNINGS, f"-I{REPOSITORY}/include", f"{TESTS}/calls/{name}",
                f"{folder}/libaig.a", "-Wl,--wrap=malloc,--wrap=realloc", "-o", stem)
    tally.compare(f"cc {name}", (built.returncode, built.stdout), (0, ""))
    done = ran(f"./{stem}", EXAMPLES)
    told = re.fullmatch(r"(\d+) done, (\d+) without memory\n", done.stdout)
    tally.check(f"{name}: each allocation", done.returncode == 0 and told and int(told[2]) > 0, done.stdout)
    return f"{done.stdout.strip()}; "


def memory(program, tally, _):
    """Each allocation of each call is refused in turn, and each of a bench that stays open."""
    return "".join(without_memory(folder_of(program), tally, name) for name in ("memory.c", "live_memory.c"))


def examples(program, tally, _):
    """The programs of examples/ in C and C++, with the static and with the shared library."""
    folder = folder_of(program)
    for compiler, source, standard in (("cc", "verdict.c", "c99"), ("c++", "verdict.cpp", "c++11")):
        if not shutil.which(compiler):
            leave_out(f"examples: {source}", f"there is no {compiler}")
            continue
        for name, words in (("libaig.a", ()), ("libaig.so", (f"-Wl,-rpath,{os.getcwd()}",))):
            shutil.copy(f"{folder}/{name}", "libaig.so.0" if words else name)
            built = ran(compiler, f"-std={standard}", *WARNINGS, f"-I{REPOSITORY}/include", f"{EXAMPLES}/{source}",
                        f"{folder}/{name}", *words, "-o", "verdict")
            tally.compare(f"{source} with {name}", (built.returncode, built.stdout), (0, ""))
            runs.write("not.wit", "1\nb0\n00\n1\n.\n")
            for witness, wanted in ((f"{EXAMPLES}/wraps.wit", (0, "confirmed\n")), ("not.wit", (1, "not bad\n")),
                                    (f"{EXAMPLES}/wraps.aag", (1, "witness: text\n")),
                                    ("no", (2, "no cannot be read\n"))):
                done = ran("./verdict", f"{EXAMPLES}/wraps.aag", witness)
                tally.compare(f"{source} of {witness}", (done.returncode, done.stdout), wanted)
    for compiler, standard in (("cc", ("-std=c99",)), ("c++", ("-std=c++11", "-x", "c++"))):
        if shutil.which(compiler):
            built = ran(compiler, *standard, *WARNINGS, f"-I{REPOSITORY}/include", f"{EXAMPLES}/live.c", "-x", "none",
                        f"{folder}/libaig.a", "-o", "live")
            tally.compare(f"live.c by {compiler}", (built.returncode, built.stdout), (0, ""))
            for rows, wanted in (("two_gates.stim", (0, LIVE)), ("wraps.stim", (1, "stimulus: length of line 1\n"))):
                done = ran("./live", f"{EXAMPLES}/two_gates.aag", f"{EXAMPLES}/{rows}", "8")
                tally.compare(f"live.c by {compiler} of {rows}", (done.returncode, done.stdout), wanted)


def called(library, name, arguments, room):
    """Makes a call with these arguments, bytes or numbers, and returns its status and the text in the room."""
    words = []
    for it in arguments:
        words += [it, ctypes.c_size_t(len(it))] if isinstance(it, bytes) else [it]
    text, length = ctypes.create_string_buffer(max(room, 1)), ctypes.c_size_t(77)
    words += [text, ctypes.c_size_t(room), ctypes.byref(length)]
    confirmed = ctypes.c_bool(False)
    if name in ("aig_check", "aig_reduce"):
        words.append(ctypes.byref(confirmed))
    status = getattr(library, name)(*words) & 255
    return status, text.raw[: length.value] if status in (DONE, REFUSED) else length.value


def as_program(program, tally, _):
    """Each call gives what the command prints, or its message, and takes a room as large as the text."""
    library = ctypes.CDLL(f"{folder_of(program)}/libaig.so")
    names = ("wraps.aag", "wraps.cuts", "wraps.wit", "wraps.stim", "wraps.drat", "wraps.model", "ring.aag",
             "ring.cert.aag", "ring.drat", "counter.aag", "counter.aig", "counter.stim", "counter.script", "fifo.aag",
             "cyclic.aag", "delay.aag", "delay.cert.aag")
    file = {name: contents(f"{EXAMPLES}/{name}") for name in names}
    asked = {"s.model": b"s SATISFIABLE\nv 1 2 0\n", "not.wit": b"1\nb0\n00\n1\n.\n", "empty": b"",
             "always": b"aag 1 0 1 0 0 1\n2 2 1\n2\n", "dead": b"aag 0 0 0 0 0 1 1\n0\n0\n"}
    file.update(asked)
    for name, text in file.items():
        runs.write(name, text)
    for words, name, arguments in CALLS:
        wanted = program.run(*words.split())
        given = [file[it] if isinstance(it, str) else it for it in arguments]
        call = f"{name} {words}"
        status, text = called(library, name, given, 1 << 20)
        if not wanted.err:
            tally.compare(call, (status, text), (DONE, wanted.out))
            tally.compare(f"{call}: a room as large", called(library, name, given, len(text)), (DONE, text))
            if text:
                tally.compare(f"{call}: a smaller room", called(library, name, given, len(text) - 1), (NO_ROOM, 77))
        else:
            tally.compare(call, (status, b"aig: " + text + b"\n"), (REFUSED, wanted.err))
            tally.compare(f"{call}: no room for the message", called(library, name, given, 1), (REFUSED, b""))
    of_bytes = {name for name in exports() if not name.startswith("aig_live_")}
    tally.compare("each export", {name for _, name, _ in CALLS} | {"aig_version"}, of_bytes)


def version(program, tally, _):
    """Program, library, header and the file of pkg-config have one version."""
    library = ctypes.CDLL(f"{folder_of(program)}/libaig.so")
    wanted = pack.version_of(program.path).encode()
    for room in (len(wanted), 64):
        tally.compare(f"the version, in a room of {room}", called(library, "aig_version", [], room), (DONE, wanted))
    for room in (0, len(wanted) - 1):
        tally.compare(f"the version, in a room of {room}", called(library, "aig_version", [], room), (NO_ROOM, 77))
    for file, form in ((HEADER, rb'(?m)^#define AIG_VERSION "(.*)"$'), (PKG_CONFIG, rb"(?m)^Version: (.*)$")):
        tally.compare(f"the version in {file}", re.findall(form, contents(file)), [wanted])


# the words of a command, the call of its name, and its arguments: files by their names
CALLS = [
    ("toaig --to aag counter.aig", "aig_toaig", ["counter.aig", False]),
    ("toaig --to aig fifo.aag", "aig_toaig", ["fifo.aag", True]),
    ("toaig --to aig cyclic.aag", "aig_toaig", ["cyclic.aag", True]),
    ("info counter.aig", "aig_info", ["counter.aig"]),
    ("info wraps.wit", "aig_info", ["wraps.wit"]),
    ("info --names fifo.aag", "aig_names", ["fifo.aag"]),
    ("info --names cyclic.aag", "aig_names", ["cyclic.aag"]),
    ("unroll --frames 3 --to aag counter.aag", "aig_unroll", ["counter.aag", 3, False]),
    ("unroll --frames 2 --to aig counter.aag", "aig_unroll", ["counter.aag", 2, True]),
    ("unroll --frames 70000 --to aig counter.aag", "aig_unroll", ["counter.aag", 70000, True]),
    ("cut --to aag --cuts wraps.cuts wraps.aag", "aig_cut", ["wraps.aag", "wraps.cuts", False]),
    ("cut --to aig --cuts wraps.cuts wraps.aag", "aig_cut", ["wraps.aag", "wraps.cuts", True]),
    ("cut --to aag --cuts wraps.stim wraps.aag", "aig_cut", ["wraps.aag", "wraps.stim", False]),
    ("strengthen --to aag --certificate ring.cert.aag ring.aag", "aig_strengthen",
     ["ring.aag", "ring.cert.aag", 0, False]),
    ("strengthen --to aig --certificate delay.cert.aag delay.aag", "aig_strengthen",
     ["delay.aag", "delay.cert.aag", 0, True]),
    ("strengthen --to aig --certificate cyclic.aag ring.aag", "aig_strengthen", ["ring.aag", "cyclic.aag", 0, True]),
    ("check wraps.aag wraps.wit", "aig_check", ["wraps.aag", "wraps.wit"]),
    ("check wraps.aag not.wit", "aig_check", ["wraps.aag", "not.wit"]),
    ("check wraps.aag wraps.stim", "aig_check", ["wraps.aag", "wraps.stim"]),
    ("witness --property 0 wraps.aag wraps.stim", "aig_witness", ["wraps.aag", "wraps.stim", 0]),
    ("witness --property 1 wraps.aag wraps.stim", "aig_witness", ["wraps.aag", "wraps.stim", 1]),
    ("reduce wraps.aag wraps.wit", "aig_reduce", ["wraps.aag", "wraps.wit"]),
    ("reduce wraps.aag not.wit", "aig_reduce", ["wraps.aag", "not.wit"]),
    ("reduce wraps.aag empty", "aig_reduce", ["wraps.aag", "empty"]),
    ("wave --witness wraps.aag wraps.wit", "aig_wave_witness", ["wraps.aag", "wraps.wit"]),
    ("wave --witness wraps.aag empty", "aig_wave_witness", ["wraps.aag", "empty"]),
    ("bench counter.aag counter.stim counter.script", "aig_bench", ["counter.aag", "counter.stim", "counter.script"]),
    ("bench counter.aag wraps.stim counter.script", "aig_bench", ["counter.aag", "wraps.stim", "counter.script"]),
    ("cnf --frames 4 wraps.aag", "aig_cnf", ["wraps.aag", 4, 0, False]),
    ("cnf --frames 4 --step wraps.aag", "aig_cnf", ["wraps.aag", 4, 0, True]),
    ("cnf --frames 4 --property 1 wraps.aag", "aig_cnf", ["wraps.aag", 4, 1, False]),
    ("cnf --alive --frames 4 wraps.aag", "aig_cnf_alive", ["wraps.aag", 4]),
    ("cnf --alive --frames 0 wraps.aag", "aig_cnf_alive", ["wraps.aag", 0]),
    ("cnf --certificate ring.cert.aag ring.aag", "aig_cnf_certified", ["ring.aag", "ring.cert.aag", 0]),
    ("cnf --certificate cyclic.aag ring.aag", "aig_cnf_certified", ["ring.aag", "cyclic.aag", 0]),
    ("witness --model wraps.model --frames 4 wraps.aag", "aig_model_witness",
     ["wraps.aag", "wraps.model", 4, 0, False]),
    ("witness --model s.model --step --frames 1 always", "aig_model_witness", ["always", "s.model", 1, 0, True]),
    ("witness --model empty --frames 4 wraps.aag", "aig_model_witness", ["wraps.aag", "empty", 4, 0, False]),
    ("witness --certificate always --model s.model always", "aig_model_witness_certified",
     ["always", "always", "s.model", 0]),
    ("witness --certificate always --model wraps.stim always", "aig_model_witness_certified",
     ["always", "always", "wraps.stim", 0]),
    ("refute --frames 3 wraps.aag wraps.drat", "aig_refute", ["wraps.aag", "wraps.drat", 3, 0]),
    ("refute --frames 4 wraps.aag wraps.drat", "aig_refute", ["wraps.aag", "wraps.drat", 4, 0]),
    ("refute --alive --frames 2 dead empty", "aig_refute_alive", ["dead", "empty", 2]),
    ("refute --alive --frames 2 wraps.aag empty", "aig_refute_alive", ["wraps.aag", "empty", 2]),
    ("refute --frames 1 --step empty dead empty", "aig_refute_step", ["dead", "empty", "empty", 1, 0]),
    ("refute --frames 3 --step empty wraps.aag wraps.drat", "aig_refute_step",
     ["wraps.aag", "wraps.drat", "empty", 3, 0]),
    ("refute --frames 3 --step wraps.drat wraps.aag empty", "aig_refute_step",
     ["wraps.aag", "empty", "wraps.drat", 3, 0]),
    ("refute --certificate ring.cert.aag ring.aag ring.drat", "aig_refute_certified",
     ["ring.aag", "ring.cert.aag", "ring.drat", 0]),
    ("refute --certificate ring.cert.aag ring.aag empty", "aig_refute_certified",
     ["ring.aag", "ring.cert.aag", "empty", 0]),
]

PARTS = {"header": header, "version": version, "calls": calls, "live": live, "scripts": scripts,
         "memory": memory, "examples": examples, "as_program": as_program}

if __name__ == "__main__":
    runs.main(__doc__, PARTS)
