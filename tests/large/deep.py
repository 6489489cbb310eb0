"""The deepest and the widest circuits that the limits allow, through every subcommand, and ones of an eighth of their
size. The results are known, and no signal ends a run (a recursion that grows with its input would end in one). A run
takes at most so many times as long and as much memory for eight times as much."""

import filecmp
import os
import shutil
import subprocess
import sys

from library import supervised
from library.runs import contents, write

MANY = 4194303
FEWER = MANY // 8
# What is linear takes 8 times as much of these, and more where tables leave the caches of the processor.
GROWTH = {"seconds": 30, "memory": 10}
# Below so much of these nothing is said.
LEAST = {"seconds": 0.05, "memory": 20}


# ---- shapes: for a size, a header and the lines after it; all in the short spelling

def chain(n):
    """One input, and each gate reads the variable before it and 1: as deep as can be, and each value is the input's."""
    return f"aag {n} 1 0 1 {n - 1}\n2\n{2 * n}\n", (f"{2 * v} {2 * v - 2} 1\n" for v in range(2, n + 1))


def reversed_chain(n):
    """The same with the last variable as the input and the lines in reverse: each gate reads a greater variable that is
    defined after it."""
    return f"aag {n} 1 0 1 {n - 1}\n{2 * n}\n2\n", (f"{2 * v} {2 * v + 2} 1\n" for v in range(1, n))


def comb(n):
    """Every second gate reads the gate before it and the one before that, the others one gate and the input."""
    sides = lambda v: (2 * v - 2, 2 * v - 4) if v % 2 and v > 3 else (2 * v - 2, 2)
    return f"aag {n} 1 0 1 {n - 1}\n2\n{2 * n}\n", ("%d %d %d\n" % (2 * v, *sides(v)) for v in range(2, n + 1))


def broom(n):
    """Each gate reads the input twice: a variable with as many readers as can be."""
    return f"aag {n} 1 0 1 {n - 1}\n2\n{2 * n}\n", (f"{2 * v} 2 2\n" for v in range(2, n + 1))


def latches(n):
    """A shift register."""
    return f"aag {n} 1 {n - 1} 1 0\n2\n", [*(f"{2 * v} {2 * v - 2} 1\n" for v in range(2, n + 1)), f"{2 * n}\n"]


def symbols(n):
    """Inputs that all have names, the last one first."""
    names = (f"i{at} n{at}\n" for at in reversed(range(n)))
    return f"aag {n} {n} 0 1 0\n", [*(f"{2 * v}\n" for v in range(1, n + 1)), "2\n", *names]


def long_justice(n):
    return f"aag 1 1 0 1 0 0 0 1\n2\n2\n{n}\n", ("2\n" for _ in range(n))


def many_justices(n):
    return f"aag 1 1 0 1 0 0 0 {n}\n2\n2\n", [*("1\n" for _ in range(n)), *("3\n" for _ in range(n))]


def properties(n):
    """Many bad literals, and one constraint that guards each of them where they are unrolled."""
    return f"aag 1 1 0 1 0 {n} 1\n2\n2\n", [*("2\n" for _ in range(n)), "1\n"]


SHAPES = [chain, reversed_chain, comb, broom, latches, symbols, long_justice, many_justices, properties]


class Run:
    """A run of the program: how it ended, and what it took. It writes to the file `out`."""

    def __init__(self, program, words):
        with open("out", "wb") as out, open("err", "wb") as err, supervised.Popen(
                [program.path, *words], stdin=subprocess.DEVNULL, stdout=out, stderr=err) as child:
            usage = child.usage()
        self.status, self.said = child.returncode, contents("err")
        self.took = {"seconds": usage.ru_utime + usage.ru_stime, "memory": usage.ru_maxrss / 1024}


class Runs:
    """All runs on a shape of a size, by name."""

    def __init__(self, program, tally, shape, size):
        self.program, self.tally = program, tally
        self.shape, self.size = shape, size
        self.done = {}

    def check(self, name, is_right, why):
        self.tally.check(f"deep: {self.shape.__name__} {self.size:,}, {name}", is_right, why)

    def run(self, name, *words, status=0, said=b"", text=None, file=None):
        """A run that ends so, and writes this text or the bytes of this file."""
        run = self.done[name] = Run(self.program, words)
        is_right = (run.status, run.said) == (status, said)
        if is_right and text is not None:
            is_right = os.path.getsize("out") == len(text) and contents("out") == text
        if is_right and file is not None:
            is_right = filecmp.cmp("out", file, shallow=False)
        self.check(name, is_right, f"status {run.status}, {run.said[:100]!r}, or other bytes than wanted")

    def conversions(self):
        self.run("to text", "toaig", "--to", "aag", "text", file="text")
        self.run("to binary", "toaig", "--to", "aig", "text")
        os.replace("out", "binary")
        if self.shape is chain:
            shutil.copy("binary", f"chain.{self.size}")
        if self.shape is reversed_chain:
            is_chain = filecmp.cmp("binary", f"chain.{self.size}", shallow=False)
            self.check("the chain, with its variables in order", is_chain, "it is another circuit")
        else:
            # The greater side of each gate is its first, so that nothing is turned.
            self.run("binary to text", "toaig", "--to", "aag", "binary", file="text")

    def simulation(self):
        self.run("sim", "sim", "binary", "rows")
        with open("out", "rb") as file:
            outputs = [line.split(b" ")[2] for line in file]
        self.check("outputs", outputs == ([b"1", b"1"] if self.shape is latches else [b"1", b"x"]), outputs)

    def bench(self):
        end = 2 * self.size if self.shape in (chain, comb, broom, latches) else 2
        write("script", f"v 0 {end}\ns 0 0 0\nv 0 {end}\ns 0 0 1\n")
        self.run("bench", "bench", "text", "row", "script", text=b"1\nok\n%d\nok\n" % (self.shape is latches))
        if self.shape in (chain, comb):
            # A gate in the middle reads the input twice: the levels of its whole fan-out change. Then it would read
            # the last.
            middle = self.size & ~1
            write("script", f"w {middle} 2 2\nv 0 {end}\nw {middle} {end} 1\nv 0 {end}\n")
            self.run("bench: rewire", "bench", "text", "row", "script", text=b"ok\n1\nno 5\n1\n")

    def unrolling(self):
        words = ("unroll", "--frames", "1", "--to", "aig", "text")
        if self.shape in (long_justice, many_justices):
            self.run("unroll", *words, status=1, said=b"aig: unroll: liveness\n", text=b"")
        elif self.shape is properties and self.size == MANY:
            self.run("unroll", *words, status=1, said=b"aig: unroll: limit\n", text=b"")
        else:
            self.run("unroll", *words)

    def formula(self):
        words = ("cnf", "--frames", "1", "text")
        if self.shape is not properties:
            self.run("cnf", *words, status=1, said=b"aig: cnf: property\n", text=b"")
        else:
            self.run("cnf", *words)

    def verdict(self):
        if self.shape is properties:
            self.run("check", "check", "text", "witness", text=b"confirmed\n")
        else:
            self.run("check", "check", "text", "witness", status=1, said=b"aig: witness: property\n", text=b"")


def make(shape, size):
    """Writes the files of a shape in a process of its own: what the measured one holds counts as memory of its runs."""
    child = os.fork()
    if child == 0:
        head, lines = shape(size)
        with open("text", "w", encoding="ascii") as file:
            file.write(head)
            file.writelines(lines)
        width, states = map(int, head.split()[2:4])
        write("rows", "1" * width + "\n" + "x" * width + "\n")
        write("row", "1" * width + "\n")
        write("witness", f"1\nb0\n{'1' * states}\n{'1' * width}\n.\n")
        os._exit(0)
    if os.waitpid(child, 0)[1]:
        sys.exit("FAILED: deep: no files")


def runs_on(program, tally, shape, size):
    make(shape, size)
    runs = Runs(program, tally, shape, size)
    runs.conversions()
    runs.simulation()
    runs.bench()
    runs.unrolling()
    runs.formula()
    runs.verdict()
    return runs.done


def deep(program, tally, _):
    print("| shape | run | seconds for an eighth | seconds | MB for an eighth | MB |")
    print("| --- | --- | --- | --- | --- | --- |")
    for shape in SHAPES:
        small, great = (runs_on(program, tally, shape, size) for size in (FEWER, MANY))
        for name, run in great.items():
            less, more = small[name].took, run.took
            print(f"| {shape.__name__} | {name} | {less['seconds']:.2f} | {more['seconds']:.2f} | "
                  f"{less['memory']:.0f} | {more['memory']:.0f} |", flush=True)
            for what, most in GROWTH.items():
                is_linear = more[what] <= most * max(less[what], LEAST[what])
                why = f"{less[what]:.2f} and {more[what]:.2f}"
                tally.check(f"deep: {shape.__name__}, {name}, {what}", is_linear, why)
