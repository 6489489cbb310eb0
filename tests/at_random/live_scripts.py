"""Random scripts on benches that the library keeps open: each line as a call, beside the replies of `aig bench` and of
the plain workbench; the report of each edit beside the values before and after it."""

import collections
import copy
import ctypes
import random

from at_random.scripts import script
from library import broken
from library.live_bench import NOT_OPEN, OK, Live
from library.reference import Parts, Workbench, rows_of, values
from library.runs import contents, write

# the kinds of an array of edits, by the letters of a script
KINDS = {"s": 0, "w": 1, "r": 2, "g": 3, "o": 4, "-": 5}
UNROLLINGS = {b"unroll: no frames": 9, b"unroll: liveness": 12, b"unroll: limit": 10}


def character(code):
    """A place of `values`, as a script replies."""
    return "01x"[code] if code < 3 else f"no {code - 16}"


def reply(bench, line, rng):
    """The reply of the calls to a line of a script, in one of the ways in which it can be asked; nothing if no call can
    ask it."""
    letter, *words = line.split(" ")
    if letter in ("t", "u"):
        status, text = bench.text("trace") if letter == "t" else bench.text("unrolled", ctypes.c_bool(False))
        return f"no {UNROLLINGS[text]}\n" if status else f"{text.decode()}.\n"
    if letter == "+":
        status = bench.add_frame(words[0])
        return f"no {status}\n" if status else "ok\n"
    numbers = ["01x".index(word) if word in "01x" and letter in "sr" and place == len(words) - 1 else int(word)
               for place, word in enumerate(words)]
    if letter == "v":
        status, value = bench.value(*numbers)
        if rng.randrange(2):
            _, codes = rng.choice((lambda: bench.values([(0, 0), tuple(numbers)]),
                                   lambda: bench.row(numbers[0], [0, numbers[1]])))()
            return character(codes[1]) + "\n"
        return f"no {status}\n" if status else f"{'01x'[value]}\n"
    if rng.randrange(2):
        status, done = bench.edits([(KINDS[letter], *numbers, *[0] * (3 - len(numbers)))])
        if done != (status == OK):
            raise AssertionError(f"{done} edits are done with status {status}")
    else:
        status = bench.edit(letter, *numbers)
    return f"no {status}\n" if status else "ok\n"


def counts(before, after, line):
    """How many cells of gates an edit has to evaluate, and how many change, from the values before and after it."""
    (old, old_rows), (new, new_rows) = before, after
    letter, *words = line.split(" ")
    old_values, new_values = values(old, old_rows), values(new, new_rows)
    evaluated = changed = 0
    for frame, known in enumerate(new_values):
        then = old_values[frame] if frame < len(old_values) else None
        for lhs, sides in new.gates.items():
            if then is None:
                evaluated += letter == "+"
                continue
            forced = (letter == "w" and lhs == int(words[0])) or (letter == "g" and lhs == 2 * new.maximum)
            others = any(l & ~1 in then and then[l & ~1] != known[l & ~1] for l in sides)
            evaluated += forced or others
            changed += lhs in then and then[lhs] != known[lhs]
    return evaluated, changed


class Judged:
    """A random script on a small circuit, judged line by line."""

    def __init__(self, library, rng):
        self.rng = rng
        self.circuit = broken.circuit(rng)
        self.rows = broken.stimulus(rng, len(Parts(self.circuit.decode()).inputs))
        self.plain = Workbench(Parts(self.circuit.decode()), rows_of(self.rows.decode()))
        self.bench = Live(library, self.circuit, self.rows)
        self.lines, self.replies = [], []

    def step(self, line):
        """Asks one line, and says what is wrong with the answer."""
        before = copy.deepcopy((self.plain.parts, self.plain.rows))
        wanted = self.plain.reply(line)
        if wanted == "bad\n":
            return ""
        got = reply(self.bench, line, self.rng)
        self.lines.append(line + "\n")
        self.replies.append(wanted)
        if got != wanted:
            return f"{line}: {got!r}, wanted {wanted!r}"
        if wanted == "ok\n":
            found = self.bench.report.evaluated, self.bench.report.changed
            due = counts(before, (self.plain.parts, self.plain.rows), line)
            if found != due:
                return f"{line}: it evaluated and changed {found}, wanted {due}"
        return ""

    def more(self):
        """Asks for a script's lines."""
        lines = script(self.rng, self.plain.parts, len(self.plain.rows)).split("\n")[:-1]
        return next(filter(None, map(self.step, lines)), "")


def compare_files(program, bench, circuit, rows):
    """What is wrong with the texts of a bench, beside the files that `aig bench` keeps and the commands on them."""
    program.run("bench", "--circuit-out", "kept", "--stimulus-out", "kept_rows", circuit, rows, "script")
    frames = str(bench.sizes().frames)
    made = program.run("unroll", "--frames", frames, "--to", "aig", "kept")
    wanted = {"circuit": contents("kept"), "stimulus": contents("kept_rows")}
    got = {name: bench.text(name)[1] for name in wanted}
    got["unrolled"] = bench.text("unrolled", ctypes.c_bool(True), room=1 << 22)[1]
    wanted["unrolled"] = made.out or made.err[5:-1]
    return [name for name in wanted if got[name] != wanted[name]]


def small(program, tally, library, count):
    """Small circuits: each answer and each report."""
    kinds = collections.Counter()
    for number in range(count):
        rng = random.Random(f"live {number}")
        judged = Judged(library, rng)
        why = next(filter(None, (judged.more() for _ in range(4))), "")
        for name, text in (("circuit", judged.circuit), ("rows", judged.rows), ("script", "".join(judged.lines))):
            write(name, text)
        if not why and program.run("bench", "circuit", "rows", "script").out != "".join(judged.replies).encode():
            why = "`aig bench` replies otherwise"
        if not why:
            why = ", ".join(compare_files(program, judged.bench, "circuit", "rows"))
        sizes, parts = judged.bench.sizes(), judged.plain.parts
        found = (sizes.frames, sizes.inputs, sizes.latches, sizes.outputs, sizes.gates, sizes.max_var)
        sections = map(len, (parts.inputs, parts.latches, parts.outputs, parts.gates))
        due = (len(judged.plain.rows), *sections, parts.maximum)
        tally.check(f"live script {number}", not why and found == due, why or f"sizes {found}, wanted {due}")
        tally.compare(f"live script {number}: close", (judged.bench.close(), judged.bench.close()), (OK, NOT_OPEN))
        kinds.update("no" if it.startswith("no") else "answers" for it in judged.replies)
    return kinds


# ---- past the first bounds: more inputs, latches, gates and frames than a word has bits

WIDE = {"inputs": 130, "latches": 70, "gates": 300, "outputs": 70, "frames": 150}


def wide_circuit(rng):
    """A circuit of these sizes, whose gates read any variable before them."""
    first = WIDE["inputs"] + WIDE["latches"] + 1
    most = first + WIDE["gates"] - 1
    lines = [str(2 * v) for v in range(1, WIDE["inputs"] + 1)]
    lines += [f"{2 * v} {rng.randrange(2 * most + 2)} {rng.choice((0, 1, 2 * v))}"
              for v in range(WIDE["inputs"] + 1, first)]
    lines += [str(rng.randrange(2 * most + 2)) for _ in range(WIDE["outputs"])]
    lines += [f"{2 * v} {rng.randrange(2 * v)} {rng.randrange(2 * v)}" for v in range(first, most + 1)]
    header = f"aag {most} {WIDE['inputs']} {WIDE['latches']} {WIDE['outputs']} {WIDE['gates']}"
    return "\n".join([header, *lines]) + "\n", first, most


def wide_lines(rng, first, most, count):
    """Edits and questions in runs of some length; most are taken."""
    def literal():
        return rng.randrange(2 * most + 4)

    for _ in range(count // 8):
        for _ in range(rng.randrange(8)):
            kind = rng.choice("sssswwrgo-")
            frame, gate = rng.randrange(WIDE["frames"] + 2), 2 * rng.randrange(first - 1, most + 2)
            yield {"s": f"s {frame} {rng.randrange(WIDE['inputs'] + 1)} {rng.choice('01x')}",
                   "w": f"w {gate} {rng.randrange(max(gate, 2))} {literal()}", "g": f"g {literal()} {literal()}",
                   "r": f"r {2 * rng.randrange(WIDE['inputs'], first + 1)} {rng.choice('01x')}",
                   "o": f"o {rng.randrange(WIDE['outputs'] + 1)} {literal()}", "-": "-"}[kind]
        for _ in range(9):
            yield f"v {rng.randrange(WIDE['frames'] + 1)} {literal()}"
        if rng.randrange(2):
            yield "+ " + broken.values(rng, WIDE["inputs"])


def numbers_of(line):
    """The numbers of a line, with a value as its number."""
    letter, *words = line.split(" ")
    return [2 if word == "x" else int(word) for word in words] if letter != "+" else []


def in_arrays(bench, lines):
    """The replies to lines, where edits that follow each other are an array, and questions too."""
    replies = []
    while len(replies) < len(lines):
        at = len(replies)
        letter = lines[at][0]
        if letter == "+":
            status = bench.add_frame(lines[at][2:])
            replies.append(f"no {status}" if status else "ok")
        elif letter == "v":
            end = next((n for n in range(at, len(lines)) if lines[n][0] != "v"), len(lines))
            status, codes = bench.values([tuple(numbers_of(line)) for line in lines[at:end]])
            replies += [character(code) if status == OK else f"status {status}" for code in codes]
        else:
            end = next((n for n in range(at, len(lines)) if lines[n][0] in "v+"), len(lines))
            entries = [(KINDS[line[0]], *numbers_of(line), 0, 0, 0)[:4] for line in lines[at:end]]
            status, done = bench.edits(entries)
            replies += ["ok"] * done + [f"no {status}"] * (status != OK)
    return replies


def wide(program, tally, library, count):
    """A wide circuit with many frames, in arrays: each answer, and the texts at the end."""
    rng = random.Random("wide")
    circuit, first, most = wide_circuit(rng)
    rows = "".join(broken.values(rng, WIDE["inputs"]) + "\n" for _ in range(WIDE["frames"]))
    lines = [*wide_lines(rng, first, most, count)]
    for name, text in (("circuit", circuit), ("rows", rows), ("script", "".join(line + "\n" for line in lines))):
        write(name, text)
    bench = Live(library, circuit.encode(), rows.encode())
    got = in_arrays(bench, lines)
    wanted = program.run("bench", "circuit", "rows", "script").out.decode().split("\n")[:-1]
    differ = [(line, *pair) for line, *pair in zip(lines, got, wanted) if pair[0] != pair[1]]
    tally.check("a wide script", len(got) == len(wanted) and not differ, differ[:3])
    tally.compare("the texts of a wide bench", compare_files(program, bench, "circuit", "rows"), [])
    other = [broken.values(rng, WIDE["inputs"]) for _ in range(bench.sizes().frames)]
    tally.compare("all rows of a wide bench", (bench.replace_rows(other), bench.text("stimulus")[1].decode()),
                  (OK, "".join(row + "\n" for row in other)))
    tally.compare("its row of a frame", bench.row(7, [*range(0, 2 * most + 2)]),
                  bench.values([(7, l) for l in range(0, 2 * most + 2)]))
    tally.compare("a wide bench: close", bench.close(), OK)
    return len(got)
