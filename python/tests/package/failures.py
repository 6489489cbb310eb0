"""A program that is killed, missing or without memory, threads, and a system without memory files."""

import os
import sysconfig
import threading
from pathlib import Path

import aig
from library import runs
from package.common import CONFIRMED, example, raised, running, setting


def failures(program, tally, _):
    counter = example("counter.aag")
    with setting("AIG_LIBRARY", ""), counter.bench(["10"]) as killed:
        killed._engine.process.kill()
        tally.check("a killed bench", isinstance(raised(killed.value, "enable", 0), RuntimeError))
    tally.check("no circuit", raised(aig.Circuit, b"").part == "circuit")
    tally.check("no file", isinstance(raised(aig.read, "nothing.aag"), FileNotFoundError))
    error = aig.errors.error_of(3, "aig: circuit: memory\n")
    tally.check("memory", isinstance(error, MemoryError) and isinstance(error, aig.AigError))
    tally.compare("memory of the circuit", error.part, "circuit")
    error = aig.errors.error_of(3, "aig: memory\nwhy\n")
    tally.compare("memory of no part", (type(error), error.part, error.reason, error.explanation),
                  (aig.OutOfMemory, "program", "memory", "why"))
    tally.compare("another end", f"{aig.errors.error_of(9, '')}", "aig ended with status 9: no message")
    tally.check("a failed read", isinstance(aig.errors.error_of(3, "aig: proof: input or output\n"), OSError))
    runs.write("small", f'#!/bin/sh\nulimit -v 10000\nexec "{program.path}" "$@"\n')
    os.chmod("small", 0o755)
    with running("small"):
        tally.check("a small circuit in little memory", raised(aig.Circuit, "aag 0 0 0 0 0\n") is None)
        latches = "".join(f"{2 * it} 2\n" for it in range(1, 600_001))
        error = raised(aig.Circuit, f"aag 600000 0 600000 0 0\n{latches}")
        tally.check("out of memory", isinstance(error, aig.OutOfMemory), error)
    text = counter.to("aag")
    for most in (len(text), len(text) - 1):
        error = raised(aig.program.run, "toaig", "--to", "aag", files=[counter.file], most=most)
        tally.compare(f"{most} bytes at most", isinstance(error, aig.OutOfMemory), most < len(text))
    runs.write("ends", f'#!/bin/sh\n"{program.path}" "$@"\n[ "$1" != bench ] || exit 3\n')
    os.chmod("ends", 0o755)
    with running("ends"), counter.bench(["10"]) as edited:
        tally.check("a bench that ends with status 3", isinstance(raised(edited.save), RuntimeError))
    found(program, tally)
    with running("none"):
        tally.check("no program", isinstance(raised(aig.Circuit, b""), FileNotFoundError))


def found(program, tally):
    """Which program the package runs: the one that is named, else the one that pip installed, else that on the path."""
    kept, path, get = os.environ.pop("AIG_PROGRAM"), os.environ["PATH"], sysconfig.get_path
    try:
        for folder in ("scripts", "path"):
            os.makedirs(folder)
            runs.write(f"{folder}/aig", f"#!/bin/sh\necho {folder} >> asked\nexec '{program.path}' \"$@\"\n")
            os.chmod(f"{folder}/aig", 0o755)
        os.environ["PATH"] = f"{os.getcwd()}/path:{path}"
        sysconfig.get_path = lambda name: os.path.abspath(name)
        aig.Circuit("aag 0 0 0 0 0\n")
        tally.compare("the program that pip installed", Path("asked").read_text(), "scripts\n")
        os.remove("scripts/aig")
        aig.Circuit("aag 0 0 0 0 0\n")
        tally.compare("the program on the path", Path("asked").read_text(), "scripts\npath\n")
        os.environ["PATH"] = os.getcwd()
        error = raised(aig.Circuit, "aag 0 0 0 0 0\n")
        tally.check("no program anywhere", isinstance(error, FileNotFoundError) and "AIG_PROGRAM" in str(error), error)
    finally:
        os.environ["AIG_PROGRAM"], os.environ["PATH"], sysconfig.get_path = kept, path, get


def threads(_, tally, __):
    wraps, wrong = example("wraps.aag"), []

    def work():
        wrong.extend(1 for _ in range(10) if not wraps.check(CONFIRMED))

    started = [threading.Thread(target=work) for _ in range(4)]
    for thread in started:
        thread.start()
    for thread in started:
        thread.join()
    tally.compare("verdicts of four threads", wrong, [])


def folders(_, tally, __):
    """The same calls where the system has no memory files."""
    made = getattr(os, "memfd_create", None)
    if made is None:
        raise runs.LeftOut("the system has no memory files: all other parts ran without them")
    del os.memfd_create
    try:
        wraps = example("wraps.aag")
        tally.check("a verdict", bool(wraps.check(CONFIRMED)))
        with wraps.bench(["1"] * 4) as edited:
            tally.compare("a value", edited.value("wraps", 3), 1)
        tally.compare("a rejected file", raised(aig.Circuit, b"").part, "circuit")
    finally:
        os.memfd_create = made
