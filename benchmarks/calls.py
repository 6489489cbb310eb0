#!/usr/bin/env python3
"""Measures calls of the Python package: calls.py [PROGRAM [LIBRARY]], else the program that the package finds. It
prints a line for each call: how many a second by the clock, and the processor time of one, in Python and in the
program. LIBRARY is a folder with libaig.so: the same calls of the library for C are measured too, by ctypes."""

import ctypes
import os
import resource
import sys
import time
from pathlib import Path

ROOT = Path(__file__).resolve().parent.parent
sys.path.insert(0, str(ROOT / "python" / "src"))
import aig  # noqa: E402

GATES = 300_000


def chain():
    """A circuit of many gates as text, each over the two before it."""
    gates = "".join(f"{2 * it} {2 * it - 2} {2 * it - 3}\n" for it in range(3, GATES + 3))
    return f"aag {GATES + 2} 2 0 1 {GATES}\n2\n4\n{2 * GATES + 4}\n{gates}"


def seconds():
    used = (resource.getrusage(who) for who in (resource.RUSAGE_SELF, resource.RUSAGE_CHILDREN))
    return sum(it.ru_utime + it.ru_stime for it in used)


def measure(name, call, times):
    call()
    processor, clock = seconds(), time.monotonic()
    for _ in range(times):
        call()
    processor, clock = seconds() - processor, time.monotonic() - clock
    print(f"{name}: {times / clock:.0f} a second, {1000 * processor / times:.3f} ms of processor time", flush=True)


class Library:
    """The library for C, with a room of this size that serves all calls."""

    def __init__(self, folder, size):
        self.calls = ctypes.CDLL(os.path.join(folder, "libaig.so"))
        self.room, self.size = ctypes.create_string_buffer(size), ctypes.c_size_t(size)

    def call(self, name, *arguments, confirms=False):
        """Makes a call that has to go well."""
        words = []
        for it in arguments:
            words += [it, ctypes.c_size_t(len(it))] if isinstance(it, bytes) else [it]
        length, confirmed = ctypes.c_size_t(), ctypes.c_bool()
        words += [self.room, self.size, ctypes.byref(length)] + [ctypes.byref(confirmed)] * confirms
        if getattr(self.calls, name)(*words) & 255:
            sys.exit(f"{name} failed")


def measure_library(folder, small, text, binary):
    """Measures calls of the library with a circuit, its witness and its proof, and with a large one in both formats."""
    wraps, witness, proof = small
    library = Library(folder, 1 << 10)
    measure("check of wraps, library", lambda: library.call("aig_check", wraps, witness, confirms=True), 20_000)
    measure("conversion of wraps, library", lambda: library.call("aig_toaig", wraps, True), 20_000)
    measure("refute of wraps, library", lambda: library.call("aig_refute", wraps, proof, 3, 0), 20_000)
    large = Library(folder, 2 * len(text))
    measure("that text to binary, library", lambda: large.call("aig_toaig", text, True), 10)
    measure("that binary to text, library", lambda: large.call("aig_toaig", binary, False), 10)


def main():
    if len(sys.argv) > 1:
        os.environ["AIG_PROGRAM"] = os.path.abspath(sys.argv[1])
    wraps = aig.read(ROOT / "examples" / "wraps.aag")
    witness, proof = (Path(ROOT, "examples", f"wraps.{kind}").read_bytes() for kind in ("wit", "drat"))
    measure("check of wraps", lambda: wraps.check(witness), 200)
    measure("conversion of wraps", lambda: wraps.to("aig"), 200)
    measure("refute of wraps", lambda: wraps.refute(3, proof), 200)
    text = aig.Circuit(chain())
    binary = aig.Circuit(text.to("aig"))
    measure(f"{len(text.file) / 1e6:.1f} MB of text to binary", lambda: text.to("aig"), 10)
    measure(f"{len(binary.file) / 1e6:.1f} MB of binary to text", lambda: binary.to("aag"), 10)
    measure("reading that text with its names", lambda: aig.Circuit(text.file), 10)
    if len(sys.argv) > 2:
        measure_library(sys.argv[2], (wraps.file, witness, proof), text.file, binary.file)
    with wraps.bench(["1"] * 4) as bench:
        measure("a query to a bench", lambda: bench.value("count[0]", 3), 20_000)
        measure("1,000 queries to a bench", lambda: bench.script(["v 3 4"] * 1000), 200)
    with text.bench(["11"]) as bench:
        measure(f"a query to a bench of {GATES:,} gates", lambda: bench.value(2 * GATES + 4, 0), 20_000)


if __name__ == "__main__":
    main()
