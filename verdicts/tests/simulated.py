"""A circuit and the Verilog that it was made of, under the same random inputs: the circuit by a plain interpreter, the
Verilog by Icarus Verilog. Neither `aig` nor Yosys simulates anything here."""

import random
import re
import subprocess
from collections import namedtuple
from pathlib import Path

Port = namedtuple("Port", "name width")
TOP = "probes"  # the top module of the sources
STEP = 10  # of simulated time, for each frame
SEEN = 5  # when the signals of a frame are compared: after its inputs and before its edge


class Circuit:
    """A binary AIGER file."""

    def __init__(self, text):
        lines = iter(text.split(b"\n"))
        head = [int(word) for word in next(lines).split()[1:]]
        _, inputs, latches, outputs, gates, bads, constraints = (head + [0] * 7)[:7]
        self.inputs = [2 * k + 2 for k in range(inputs)]
        self.latches = []
        for k in range(latches):
            own, words = 2 * (inputs + k + 1), [int(word) for word in next(lines).split()]
            self.latches.append((own, words[0], words[1] if len(words) > 1 else 0))
        ends, fails = ([int(next(lines)) for _ in range(count)] for count in (outputs, bads))
        rest = text.split(b"\n", 1 + latches + outputs + bads + constraints)[-1]
        self.gates, at = [], 0
        for k in range(gates):
            left = 2 * (inputs + latches + k + 1)
            first, at = _number(rest, at)
            second, at = _number(rest, at)
            self.gates.append((left, left - first, left - first - second))
        self.names = {}  # the literal of each name of a bit; an assertion fails where LABEL! is on
        literals = {"i": self.inputs, "l": [it[0] for it in self.latches], "o": ends, "b": fails}
        for line in rest[at:].decode("latin-1").split("\n"):
            match = re.fullmatch(r"([ilobc])(\d+) (.*)", line)
            if not match:
                break
            if match[1] in literals:
                for name in [match[3] + "!"] if match[1] == "b" else match[3].split(" "):
                    self.names[name] = literals[match[1]][int(match[2])]

    def frames(self, given, seed):
        """The value of each name in each frame. `given` has the values of named inputs; others are random."""
        chance = random.Random(seed)
        values = [0, 1] + [0, 1] * (len(self.inputs) + len(self.latches) + len(self.gates))

        def put(literal, value):
            values[literal], values[literal ^ 1] = value, 1 - value

        known = {self.names[name]: name for name in given[0] if name in self.names}
        for own, _, start in self.latches:
            put(own, start if start < 2 else chance.getrandbits(1))
        for frame in given:
            for literal in self.inputs:
                put(literal, frame[known[literal]] if literal in known else chance.getrandbits(1))
            for left, first, second in self.gates:
                put(left, values[first] & values[second])
            yield {name: values[literal] for name, literal in self.names.items()}
            for (own, _, _), value in zip(self.latches, [values[it[1]] for it in self.latches]):
                put(own, value)


def _number(text, at):
    value = shift = 0
    while True:
        value |= (text[at] & 127) << shift
        shift, at = shift + 7, at + 1
        if text[at - 1] < 128:
            return value, at


def stimulus(ports, frames, seed):
    """Random values of the ports in each frame; the small and the extreme ones come often."""
    chance = random.Random(seed)
    for _ in range(frames):
        words = {}
        for port in ports:
            top = (1 << port.width) - 1
            small = chance.randint(0, min(top, 9))
            middle = chance.choice([top >> 1, (top >> 1) + 1])
            words[port.name] = chance.choice([chance.randint(0, top), chance.randint(0, top), small, top - small, middle])
        yield words


def bits_of(ports, words):
    """The values of words as those of the names of their bits."""
    return {f"{port.name}[{k}]" if port.width > 1 else port.name: words[port.name] >> k & 1
            for port in ports for k in range(port.width)}


def testbench(top, ports, words, edge):
    """`edge` is the one of the clock `clk` that ends a frame, or "free" where `clk` and `c` are clocks, and inputs as
    the others. An edge of these samples the frame before, so they change first."""
    go = {"rise": "clk = 1;", "fall": "clk = 0;", "free": ""}[edge]
    rest = {"rise": "clk = 0;", "fall": "clk = 1;", "free": ""}[edge]
    early = ("clk", "c") if edge == "free" else ("clk",)
    starts = {name: f" = {words[0][name]}" for name in early}
    lines = ["`timescale 1s/1s", "module testbench;"]
    lines += [f"reg [{port.width - 1}:0] {port.name}{starts.get(port.name, '')};" for port in ports]
    lines += [f"{top} probe({', '.join(f'.{port.name}({port.name})' for port in ports)});"]
    lines += ['initial begin $dumpfile("values.vcd"); $dumpvars(0, probe);']
    for frame in words:
        lines += ["#1", *(f"{name} = {value};" for name, value in frame.items() if name in early)]
        lines += ["#1", *(f"{name} = {value};" for name, value in frame.items() if name not in early)]
        lines += [f"#4 {go} #2 {rest} #2"]
    return "\n".join([*lines, "$finish; end", "endmodule", ""])


def simulated(folder, sources, ports, words, edge="rise"):
    """Runs Icarus Verilog in a folder. The text of each bit in each frame, and what it says where it stops."""
    Path(folder, "testbench.v").write_text(testbench(TOP, ports, words, edge))
    build = ["iverilog", "-g2012", "-s", "testbench", "-o", "simulation", *map(str, sources), "testbench.v"]
    for command in (build, ["vvp", "-n", "simulation"]):
        done = subprocess.run(command, cwd=folder, stdin=subprocess.DEVNULL, capture_output=True, text=True)
        if done.returncode != 0:
            return None, done.stdout + done.stderr
    return list(_waves(Path(folder, "values.vcd").read_text().split("\n"), len(words))), ""


_VARIABLE = re.compile(r"\$var (\w+) +(\d+) (\S+) (\S+)(?: \[(-?\d+)(?::(-?\d+))?\])? \$end")


def _waves(lines, frames):
    path, names, values = [], {}, {}
    time, wanted = 0, 0
    for line in lines:
        words = line.split()
        line = line.strip()
        if line.startswith("$scope"):
            path.append((words[1], words[2]))
        elif line.startswith("$upscope"):
            path.pop()
        elif line.startswith("$var"):
            match = _VARIABLE.match(line)
            if match and match[1] != "real" and not any(kind in ("function", "task") for kind, _ in path):
                left, right = int(match[5] or 0), int(match[6] or match[5] or 0)
                name = ".".join([*(it for _, it in path[2:]), match[4]])
                names.setdefault(match[3], []).append((name, left, right))
        elif line.startswith("#"):
            time = int(line[1:])
            while wanted < frames and time > wanted * STEP + SEEN:
                yield _bits(names, values)
                wanted += 1
        elif line and line[0] in "01xz" and line[1:] in names:
            values[line[1:]] = line[0]
        elif line and line[0] == "b":
            values[words[1]] = words[0][1:]


def _bits(names, values):
    """The bits by their names: the index of a bit is that of its declaration."""
    found = {}
    for key, each in names.items():
        value = values.get(key, "x")
        for name, left, right in each:
            width = abs(left - right) + 1
            bits = value.rjust(width, "0" if value[0] == "1" else value[0])
            step = 1 if left < right else -1
            found.update((f"{name}[{left + step * k}]" if width > 1 else name, bits[k]) for k in range(width))
    return found


Difference = namedtuple("Difference", "name frame simulated circuit")


def compared(circuit, waves, ports, words, seed):
    """The differences, at most one for each name, and the names that have values. The signal LABEL_is of the source
    says whether the assertion LABEL holds."""
    differences, seen = {}, set()
    for at, (values, wave) in enumerate(zip(circuit.frames([bits_of(ports, it) for it in words], seed), waves)):
        for name, value in values.items():
            if name.endswith("!"):
                name, value = name.replace("!", "_is"), 1 - value
            told = wave.get(name, "x")
            if told in "01":
                seen.add(name)
                if int(told) != value and name not in differences:
                    differences[name] = Difference(name, at, told, str(value))
    return list(differences.values()), seen
