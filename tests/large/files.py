"""Files of more than a block: 100 KB of gates in both formats, a stimulus of 2 MB, a comment of 5 MB, from a file and
from a pipe, and a million gates that each read the next one. All files are made here, in both spellings and with their
traces, without the program: what is written has to be these bytes."""

import random

from large.circuits import characters, fields, random_circuit, shuffled, trace
from large.deep import reversed_chain
from library.plain_reader import delta, in_order, spelled
from library.runs import EXAMPLES, EXPECTED, Ended, contents, write


def large_files(program, tally, _):
    rng = random.Random(20071012)
    gates = random_circuit(rng, (40, 30, 33000, 20))
    runs = Runs(program, tally)
    runs.both_ways("100 KB of gates", gates, 100_000)
    mixed = shuffled(rng, gates)
    write("mixed", spelled(mixed, "aag"))
    runs.same("shuffled, as it stands", spelled(mixed, "aag"), ["toaig", "--to", "aag", "mixed"])
    runs.same("shuffled, renumbered", spelled(in_order(mixed), "aig"), ["toaig", "--to", "aig", "mixed"])
    comment = rng.randbytes(5_000_000)
    runs.both_ways("a comment of 5 MB", random_circuit(rng, (3, 2, 10, 2), comment), 5_000_000)
    ends_with_a_block = random_circuit(rng, (3, 2, 10, 2), bytes(range(256)) * 80)
    runs.both_ways("a comment that ends with a block", ends_with_a_block, 20_000)
    falling_chain(runs)
    long_stimulus(runs, rng)
    binary_examples(runs)


class Runs:
    """Runs of the program, each of which is to write bytes that are known."""

    def __init__(self, program, tally):
        self.program, self.tally = program, tally

    def same(self, name, wanted, words, **settings):
        ended = self.program.run(*words, timeout=60, **settings)
        is_same = ended == Ended(0, wanted, b"")
        why = f"status {ended.status}, {ended.err[:200]!r}, {len(ended.out)} bytes of {len(wanted)}"
        if not is_same:
            why += f", the same up to byte {beginning(ended.out, wanted)}"
        self.tally.check(f"large files: {name}", is_same, why)

    def both_ways(self, name, parts, least):
        """Both spellings of a circuit in order: each as it stands, into the other, and from a pipe."""
        spellings = {"text": spelled(parts, "aag"), "binary": spelled(parts, "aig")}
        self.tally.check(f"large files: the size of {name}", min(map(len, spellings.values())) >= least, "it is small")
        for source, data in spellings.items():
            write(source, data)
            for to, wanted in (("aag", spellings["text"]), ("aig", spellings["binary"])):
                words = ["toaig", "--to", to]
                self.same(f"{name}, {source} to {to}", wanted, [*words, source])
                self.same(f"{name}, {source} to {to}, from a pipe", wanted, [*words, "/dev/stdin"], input=data)


def beginning(one, other):
    """How many bytes both begin with."""
    return next((at for at, (a, b) in enumerate(zip(one, other)) if a != b), min(len(one), len(other)))


def falling_chain(runs):
    """A million gates, each of which reads the variable above, so that all levels wait for the last line's."""
    size = 1_000_001
    header, lines = reversed_chain(size)
    text = (header + "".join(lines)).encode()
    write("falling", text)
    runs.same("a falling chain, as it stands", text, ["toaig", "--to", "aag", "falling"])
    deltas = b"".join(delta(2) + delta(2 * variable - 3) for variable in range(2, size + 1))
    binary = f"aig {size} 1 0 1 {size - 1}\n{2 * size}\n".encode() + deltas
    runs.same("a falling chain, renumbered", binary, ["toaig", "--to", "aig", "falling"])


def long_stimulus(runs, rng):
    """A stimulus of 2 MB, in 65,536 frames of 31 inputs."""
    frames, inputs = 65536, 31
    circuit = random_circuit(rng, (inputs, 12, 60, 9))
    columns = []
    for _ in range(inputs):
        one, other = rng.getrandbits(frames), rng.getrandbits(frames) & rng.getrandbits(frames)
        columns.append((one | other, ~one & (1 << frames) - 1 | other))
    rows = "".join("".join(row) + "\n" for row in zip(*(characters(column, frames) for column in columns))).encode()
    known = fields(circuit, columns, frames)
    wanted = trace(known, frames)
    write("rows", rows)
    for name, data in (("text", spelled(circuit, "aag")), ("binary", spelled(circuit, "aig")),
                       ("mixed", spelled(shuffled(rng, circuit), "aag"))):
        write(name, data)
        runs.same(f"sim of 2 MB, {name}", wanted, ["sim", name, "rows"])
    runs.same("sim of 2 MB, from a pipe", wanted, ["sim", "binary", "/dev/stdin"], input=rows)
    questions, answers = [], []
    for _ in range(20000):
        frame, place = rng.randrange(frames), rng.randrange(len(circuit.outputs))
        questions.append(f"v {frame} {circuit.outputs[place]}\n")
        answers.append(known[2][place][frame] + "\n")
    write("script", "".join(questions) + "t\n")
    replies = "".join(answers).encode() + wanted + b".\n"
    for name in ("text", "binary"):
        runs.same(f"bench of 2 MB, {name}", replies, ["bench", name, "rows", "script"])


def binary_examples(runs):
    """The binary examples, of which the traces are known."""
    write("script", "t\n")
    for name in ("two_gates", "counter", "fifo"):
        wanted = contents(f"{EXPECTED}/{name}.trace")
        words = [f"{EXAMPLES}/{name}.aig", f"{EXAMPLES}/{name}.stim"]
        runs.same(f"sim: {name}.aig", wanted, ["sim", *words])
        runs.same(f"bench: {name}.aig", wanted + b".\n", ["bench", *words, "script"])
