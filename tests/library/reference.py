#!/usr/bin/env python3
"""A plain simulator of AIGER text files and a plain workbench, apart from the toolkit: it makes the expected outputs in
tests/expected, and tests compare the program with it. Each answer is computed from the parts and the rows.

usage: tests/library/reference.py sim CIRCUIT STIM              the trace
       tests/library/reference.py bench CIRCUIT STIM SCRIPT     the replies to a script
"""

import re
import sys

MOST = 4194303
FRAMES = 65536
CELLS = 67108864


class Parts:
    """A circuit: its sections as lists, a latch as literal, next and reset, the gates by their left sides in order."""

    def __init__(self, text):
        lines = text.split("\n")
        counts = [int(word) for word in lines[0].split()[1:]] + [0] * 4
        self.maximum, inputs, latches, outputs, gates, bad, constraints, justice, fairness = counts[:9]
        rest = iter(lines[1:])

        def take(number):
            return [[int(word) for word in next(rest).split()] for _ in range(number)]

        self.inputs = [row[0] for row in take(inputs)]
        self.latches = [row + [0] * (3 - len(row)) for row in take(latches)]
        self.outputs, self.bad, self.constraints = [[row[0] for row in take(n)] for n in (outputs, bad, constraints)]
        self.is_live = justice + fairness > 0
        take(sum(row[0] for row in take(justice)) + fairness)
        self.gates = {row[0]: (row[1], row[2]) for row in take(gates)}

    def is_defined(self, l):
        l &= ~1
        return l == 0 or l in self.inputs or l in self.gates or any(l == latch[0] for latch in self.latches)

    def order(self):
        """The gates by level and then by literal; None where they close a cycle."""
        levels = {}
        left = dict(self.gates)
        while left:
            ready = {lhs: sides for lhs, sides in left.items() if not any(l & ~1 in left for l in sides)}
            if not ready:
                return None
            for lhs, sides in ready.items():
                levels[lhs] = 1 + max(levels.get(l & ~1, 0) for l in sides)
                del left[lhs]
        return sorted(levels, key=lambda lhs: (levels[lhs], lhs))


def negated(value):
    return {"0": "1", "1": "0", "x": "x"}[value]


def conjunction(a, b):
    return "0" if "0" in (a, b) else "1" if (a, b) == ("1", "1") else "x"


def literal(known, l):
    value = known[l & ~1]
    return negated(value) if l & 1 else value


def values(parts, rows):
    """For each frame a map from even literals to values."""
    order = parts.order()
    frames = []
    for t, row in enumerate(rows):
        known = {0: "0", **dict(zip(parts.inputs, row))}
        for lit, following, reset in parts.latches:
            known[lit] = literal(frames[-1], following) if t else {0: "0", 1: "1"}.get(reset, "x")
        for lhs in order:
            known[lhs] = conjunction(*(literal(known, l) for l in parts.gates[lhs]))
        frames.append(known)
    return frames


def trace(parts, rows):
    text = ""
    for known in values(parts, rows):
        fields = [[x[0] for x in parts.latches], parts.inputs, parts.outputs, [x[1] for x in parts.latches]]
        text += " ".join("".join(literal(known, l) for l in field) for field in fields) + "\n"
    return text


def unrolled(parts, frames):
    """The text of the circuit unrolled for all frames, or the number of a fault."""
    if frames == 0:
        return 9
    if parts.is_live:
        return 12
    order = parts.order()
    guards = bool(parts.bad and parts.constraints)
    uninitialised = [lit for lit, _, reset in parts.latches if reset not in (0, 1)]
    size = frames * len(parts.inputs) + len(uninitialised)
    step = len(order) + (len(parts.constraints) + len(parts.bad) if guards else 0)
    maximum = size + frames * step
    if max(maximum, *(frames * len(each) for each in (parts.outputs, parts.bad, parts.constraints))) > MOST:
        return 10
    lines, outputs, bad, constraints = [], [], [], []
    chain = 1
    before = {}
    for t in range(frames):
        now = {0: 0}

        def frame(l, now=now):
            return now[l & ~1] ^ (l & 1)

        def gate(lhs, a, b):
            lines.append(f"{lhs} {max(a, b)} {min(a, b)}")
            return lhs

        for p, lit in enumerate(parts.inputs):
            now[lit] = 2 * (t * len(parts.inputs) + p + 1)
        for lit, following, reset in parts.latches:
            if t:
                now[lit] = before[following & ~1] ^ (following & 1)
            elif reset in (0, 1):
                now[lit] = reset
            else:
                now[lit] = 2 * (frames * len(parts.inputs) + uninitialised.index(lit) + 1)
        lhs = 2 * (size + t * step + 1)
        for place, old in enumerate(order):
            a, b = parts.gates[old]
            now[old] = gate(lhs + 2 * place, frame(a), frame(b))
        lhs += 2 * len(order)
        outputs += [frame(l) for l in parts.outputs]
        if guards:
            for place, l in enumerate(parts.constraints):
                chain = gate(lhs + 2 * place, frame(l), chain)
            lhs += 2 * len(parts.constraints)
            bad += [gate(lhs + 2 * place, frame(l), chain) for place, l in enumerate(parts.bad)]
        else:
            bad += [frame(l) for l in parts.bad]
            constraints += [frame(l) for l in parts.constraints]
        before = now
    header = f"aag {maximum} {size} 0 {len(outputs)} {len(lines)} {len(bad)} {len(constraints)}"
    while header.count(" ") > 5 and header.endswith(" 0"):
        header = header[:-2]
    body = [2 * (v + 1) for v in range(size)] + outputs + bad + constraints
    return "\n".join([header, *map(str, body), *lines]) + "\n"


class Workbench:
    """A circuit and rows. An edit answers the number of its fault, or 0."""

    def __init__(self, parts, rows):
        self.parts, self.rows = parts, rows

    def fault_of(self, *literals):
        if any(l > 2 * self.parts.maximum + 1 for l in literals):
            return 3
        return 0 if all(map(self.parts.is_defined, literals)) else 4

    def rewire(self, lhs, a, b):
        gates = self.parts.gates
        fault = self.fault_of(a, b) if lhs in gates else 1
        if fault == 0:
            old, gates[lhs] = gates[lhs], (a, b)
            if self.parts.order() is None:
                gates[lhs] = old
                fault = 5
        return fault

    def append_gate(self, a, b):
        fault = self.fault_of(a, b)
        maximum = self.parts.maximum
        if fault == 0 and (maximum == MOST or (maximum + 2) * len(self.rows) > CELLS):
            fault = 10
        if fault == 0:
            self.parts.maximum += 1
            self.parts.gates[2 * self.parts.maximum] = (a, b)
        return fault

    def set_output(self, p, l):
        fault = self.fault_of(l) or (0 if p < len(self.parts.outputs) else 13)
        if fault == 0:
            self.parts.outputs[p] = l
        return fault

    def set_reset(self, l, value):
        for latch in self.parts.latches:
            if latch[0] == l:
                latch[2] = {"0": 0, "1": 1, "x": l}[value]
                return 0
        return 2

    def set_bit(self, t, p, value):
        fault = 6 if t >= len(self.rows) else 7 if p >= len(self.parts.inputs) else 0
        if fault == 0:
            self.rows[t][p] = value
        return fault

    def add_frame(self, row):
        frames = len(self.rows) + 1
        fault = 8 if len(row) != len(self.parts.inputs) else 0
        if fault == 0 and (frames > FRAMES or (self.parts.maximum + 1) * frames > CELLS):
            fault = 10
        if fault == 0:
            self.rows.append(list(row))
        return fault

    def drop_frame(self):
        if not self.rows:
            return 9
        self.rows.pop()
        return 0

    def value(self, t, l):
        fault = self.fault_of(l) or (6 if t >= len(self.rows) else 0)
        return f"no {fault}" if fault else literal(values(self.parts, self.rows)[t], l)

    def reply(self, line):
        """The reply to a whole line."""
        letter, *words = line.split(" ")
        kinds = {"w": "nnn", "g": "nn", "o": "nn", "r": "nv", "s": "nnv", "v": "nn", "+": "b"}
        shapes = {"n": "0|[1-9][0-9]*", "v": "[01x]", "b": "[01x]*"}
        kind = kinds.get(letter, "")
        if letter not in (*kinds, "-", "t", "u") or len(words) != len(kind):
            return "bad\n"
        if not all(re.fullmatch(shapes[k], word, re.ASCII) for k, word in zip(kind, words)):
            return "bad\n"
        given = [int(word) if k == "n" else word for k, word in zip(kind, words)]
        if any(number >= 2 ** 32 for k, number in zip(kind, given) if k == "n"):
            return "bad\n"
        if letter == "v":
            return self.value(*given) + "\n"
        if letter == "t":
            return trace(self.parts, self.rows) + ".\n"
        if letter == "u":
            made = unrolled(self.parts, len(self.rows))
            return f"no {made}\n" if isinstance(made, int) else made + ".\n"
        edits = {"w": self.rewire, "g": self.append_gate, "o": self.set_output, "r": self.set_reset, "s": self.set_bit,
                 "+": self.add_frame, "-": self.drop_frame}
        fault = edits[letter](*given)
        return f"no {fault}\n" if fault else "ok\n"


def rows_of(text):
    return [list(line) for line in text.split("\n")[:-1]]


def replies(parts, rows, script):
    bench = Workbench(parts, rows)
    *lines, rest = script.split("\n")
    return "".join(map(bench.reply, lines)) + ("bad\n" if rest else "")


def text_of(path):
    with open(path, encoding="latin-1", newline="") as file:
        return file.read()


def main():
    command, circuit, stimulus, *script = sys.argv[1:]
    parts, rows = Parts(text_of(circuit)), rows_of(text_of(stimulus))
    if command == "sim":
        sys.stdout.write(trace(parts, rows))
    else:
        sys.stdout.write(replies(parts, rows, text_of(script[0])))


if __name__ == "__main__":
    main()
