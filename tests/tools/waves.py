"""Dumps beside those of other tools. Icarus Verilog simulates the same circuit, written as Verilog, and its dump has
our values at every frame. GTKWave's `vcd2fst` takes our dumps, and its own format has the same names and values in it.
GTKWave itself shows them: each vector has its highest bit first, and the values are those of library/reference.py."""

import random
import re
import subprocess

from library import supervised, wave_names
from library.broken import circuit, stimulus
from library.dump_reader import Dump
from library.plain_reader import Reader
from library.reference import Parts, rows_of
from library.reference import literal as value_of
from library.reference import values as values_of
from library.runs import DESIGNS, EXAMPLES, contents, write
from tools import viewer
from tools.external import LOGIC, Tools

CASES = 40
# The counter of examples/, frame by frame, until an unknown input makes it unknown.
COUNTED = [0, 0, 1, 2, 3, 4, 0]
# Names of properties as `aig-verdicts` and Yosys give them, at which GTKWave must not stop.
COLONS = b"aag 2 2 0 0 0 2\n2\n4\n2\n4\nb0 queue.v:37\nb1 $assert$queue.v:36$46\n"
# Designs of Yosys, each with some of the signals that GTKWave has to show for it.
SHOWN = {f"{DESIGNS}/hier.v": ("latches.u1.q[3:0]", "latches.u2.st[1:0]", "latches.y[3:0]", "outputs.x[3:0]"),
         f"{EXAMPLES}/queue.v": ("inputs.din[7:0]", "latches.mem[7][7:0]", "latches.full_r")}


def waves(program, tally, _):
    viewer.needs("iverilog", "vvp", *viewer.TOOLS)
    for design in ("two_gates", "counter", "fifo"):
        each(program, tally, design, *(contents(f"{EXAMPLES}/{design}.{ending}") for ending in ("aag", "stim")))
    for case in range(CASES):
        rng = random.Random(f"waves {case}")
        design = circuit(rng)
        rows = stimulus(rng, len(Parts(design.decode()).inputs))
        if rows:
            each(program, tally, f"case {case}", design, rows)
    vectors(program, tally)


def each(program, tally, name, design, rows):
    """The three dumps of a circuit on these rows."""
    write("circuit", design)
    write("rows", rows)
    write("ours.vcd", program.run("wave", "circuit", "rows").out)
    parts, frames = Parts(design.decode()), rows_of(rows.decode())
    lists = (parts.inputs, parts.latches, parts.outputs, parts.bad, parts.constraints)
    signals = [f"{letter}{place}" for letter, entries in zip("ilobc", lists) for place in range(len(entries))]
    # A reader of our dumps puts the signals into this order, that of their codes.
    ours = Dump(contents("ours.vcd"))
    write("circuit.v", verilog(parts, frames, signals))
    run("iverilog", "-o", "circuit.vvp", "circuit.v")
    run("vvp", "-n", "circuit.vvp")
    named, at = changes("theirs.vcd")
    place = {said[-1]: code for said, code in named}
    theirs = values([place[signal] for signal in signals], at, len(frames))
    tally.compare(f"waves: {name}, Icarus Verilog", ours.frames, theirs)
    run("vcd2fst", "ours.vcd", "ours.fst")
    write("again.vcd", run("fst2vcd", "ours.fst"))
    again, at = changes("again.vcd")
    names, _ = changes("ours.vcd")
    tally.compare(f"waves: {name}, the names of vcd2fst", [said for said, _ in again], [said for said, _ in names])
    # Each name with the values of its signal.
    codes = {said.code: place for place, said in enumerate(ours.signals)}
    wanted = ["".join(frame[codes[code.encode()]] for _, code in names) for frame in ours.frames]
    tally.compare(f"waves: {name}, vcd2fst", values([code for _, code in again], at, len(frames)), wanted)


def vectors(program, tally):
    """GTKWave shows the counter, and designs of Yosys: one with two instances, and a queue with a memory."""
    seen = shows(program, tally, "counter", *(contents(f"{EXAMPLES}/counter.{ending}") for ending in ("aag", "stim")))
    for scope in ("latches", "outputs"):
        counted = [int(value, 2) for value in seen.get(f"{scope}.count[3:0]", [])[:len(COUNTED)] if "x" not in value]
        tally.compare(f"waves: the counter as GTKWave shows it, {scope}", counted, COUNTED)
    seen = shows(program, tally, "colons", COLONS, b"01\n10\n11\n")
    for signal in ("bad.queue.v_37", "bad._assert$queue.v_36$46"):
        tally.check(f"waves: {signal} in GTKWave", signal in seen, sorted(seen))
    tools = Tools()
    for file, wanted in SHOWN.items():
        name = re.search(r"(\w+)\.v$", file)[1]
        if not tools.yosys(f"read_verilog -sv -formal {file}; prep -flatten -top {name}; async2sync; memory_map; {LOGIC}; "
                           f"write_aiger -ascii -symbols {name}.aag"):
            tally.check(f"waves: yosys {name}", False, tools.last_lines())
            continue
        design = contents(f"{name}.aag")
        rng, width = random.Random(f"waves {name}"), len(Parts(design.decode()).inputs)
        rows = "".join("".join(rng.choices("01", k=width)) + "\n" for _ in range(12))
        seen = shows(program, tally, name, design, rows.encode())
        for signal in wanted:
            tally.check(f"waves: {name}, {signal} in GTKWave", signal in seen, sorted(seen))


def shows(program, tally, name, design, rows):
    """Compares what GTKWave shows of a dump with the values of the plain simulator; what it shows."""
    write("circuit", design)
    write("rows", rows)
    write("ours.vcd", program.run("wave", "circuit", "rows").out)
    frames = rows_of(rows.decode())
    bits = named_bits(design, frames)
    seen = viewer.shown("ours.vcd", len(frames))
    left = set(bits)
    for signal, got in seen.items():
        joined = re.fullmatch(r"(.*)\[(\d+):(\d+)\]", signal)
        if not joined:
            left.discard(signal)
            tally.compare(f"waves: {name}, {signal} in GTKWave", got, bits.get(signal))
            continue
        first, last = int(joined[2]), int(joined[3])
        names = [f"{joined[1]}[{number}]" for number in range(first, last - 1, -1)]
        left.difference_update(names)
        wanted = ["".join(each) for each in zip(*(bits.get(bit, ["?"] * len(frames)) for bit in names))]
        tally.check(f"waves: {name}, {signal} in GTKWave: its highest bit first", first > last, got)
        tally.compare(f"waves: {name}, {signal} in GTKWave", got, wanted)
    tally.check(f"waves: {name}, all signals in GTKWave", not left, sorted(left))
    return seen


def named_bits(design, frames):
    """The values of each entry by the plain simulator, frame by frame, under each full name of the entry."""
    parts, known = Parts(design.decode()), values_of(Parts(design.decode()), frames)
    symbols = {(letter.decode(), place): said for letter, place, said in Reader(design).parts().names}
    lists = (parts.inputs, [latch[0] for latch in parts.latches], parts.outputs, parts.bad, parts.constraints)
    bits = {}
    for (section, letter, _), entries in zip(wave_names.SECTIONS, lists):
        for place, lit in enumerate(entries):
            for pieces in wave_names.names_of(symbols.get((letter, place)), f"{letter}{place}".encode()):
                full = ".".join([section, *(piece.decode() for piece in pieces)])
                bits[full] = [value_of(now, lit) for now in known]
    return bits


def run(*words):
    return supervised.run(words, stdin=subprocess.DEVNULL, stdout=subprocess.PIPE, stderr=subprocess.STDOUT,
                          check=True).stdout


def changes(file):
    """The names of a dump, each with its scopes and its code, and for each code the values by time."""
    words = iter(contents(file).decode("latin-1").split())
    scopes, signals, at, time = [], [], {}, 0
    for word in words:
        if word in ("$scope", "$var", "$upscope", "$date", "$version", "$timescale", "$comment", "$enddefinitions"):
            inside = list(iter(lambda: next(words), "$end"))
            if word == "$scope":
                scopes.append(inside[1])
            elif word == "$upscope":
                scopes.pop()
            elif word == "$var":
                signals.append(((*scopes, "".join(inside[3:])), inside[2]))
        elif word[0] == "#":
            time = int(word[1:])
        elif word[0] in "01xz" and word[1:]:
            at.setdefault(word[1:], {})[time] = word[0]
    return signals, at


def values(codes, at, frames):
    """The values of these codes at each frame."""
    now, rows = {}, []
    for time in range(frames):
        for code in codes:
            now[code] = at[code].get(time, now.get(code))
        rows.append("".join(now[code] for code in codes))
    return rows


def literal(l):
    return f"~v{l >> 1}" if l & 1 else f"v{l >> 1}"


def verilog(parts, frames, signals):
    """A module of the circuit that gives its inputs the rows, a unit of time a frame, and dumps its signals."""
    latches = [latch[0] for latch in parts.latches]
    lines = ["module top;", "wire v0 = 1'b0;", *(f"reg v{l >> 1};" for l in parts.inputs + latches)]
    lines += [f"wire v{lhs >> 1};" for lhs in parts.gates]
    lines += [f"assign v{lhs >> 1} = {literal(a)} & {literal(b)};" for lhs, (a, b) in parts.gates.items()]
    shown = parts.inputs + latches + parts.outputs + parts.bad + parts.constraints
    lines += [f"wire {name} = {literal(l)};" for name, l in zip(signals, shown)]
    lines += ["initial begin", '$dumpfile("theirs.vcd");', "$dumpvars(0, top);"]
    lines += [f"v{lit >> 1} = 1'b{reset if reset in (0, 1) else 'x'};" for lit, _, reset in parts.latches]
    for time, row in enumerate(frames):
        if time and latches:
            sides = (", ".join(said) for said in ([literal(l) for l in latches],
                                                  [literal(latch[1]) for latch in parts.latches]))
            lines.append("{%s} = {%s};" % tuple(sides))
        lines += [f"v{l >> 1} = 1'b{value};" for l, value in zip(parts.inputs, row)]
        lines.append("#1;")
    return "\n".join(lines + ["$finish;", "end", "endmodule", ""])
