"""Random circuits, and random calls on a bench: right ones, and ones that are refused."""

from array import array

import aig


def circuit_of(chance, inputs, latches, gates):
    """A circuit whose gates read smaller variables."""
    variables = inputs + latches + gates
    outputs = 3
    lines = [f"aag {variables} {inputs} {latches} {outputs} {gates}"]
    lines += [str(2 * (at + 1)) for at in range(inputs)]
    for at in range(latches):
        literal = 2 * (inputs + at + 1)
        lines.append(f"{literal} {chance.randrange(2 * variables + 2)} {chance.choice((0, 1, literal))}")
    lines += [str(chance.randrange(2 * variables + 2)) for _ in range(outputs)]
    for at in range(gates):
        literal = 2 * (inputs + latches + at + 1)
        lines.append(f"{literal} {chance.randrange(literal)} {chance.randrange(literal)}")
    lines += [f"i{at} in[{at}]" for at in range(inputs)] + [f"l{at} st[{at}]" for at in range(latches)]
    return aig.Circuit("\n".join(lines) + "\n")


def said(bench, name, words):
    """What a call answers, or what it raises."""
    try:
        found = getattr(bench, name)(*words) if name != "rows" else bench.rows
    except (aig.AigError, ValueError, KeyError) as error:
        return type(error).__name__, str(error), getattr(error, "number", None), getattr(error, "done", None)
    if name in ("trace", "witness"):
        return found.text
    return (found[0].file, found[1]) if name == "save" else found


class Calls:
    """Calls on a bench of a circuit. Most of their numbers are of what is there, and some are one too large."""

    def __init__(self, chance, circuit):
        self.chance, self.circuit = chance, circuit
        self.frames, self.variables = 0, int(circuit.info()["variables"])
        self.inputs, self.latches = len(circuit.inputs), len(circuit.latches)
        self.gates = [gate for gate, *_ in circuit.gates]

    def rows(self, count):
        """So many rows, which the bench has from the start."""
        self.frames = count
        return [self.row() for _ in range(count)]

    def row(self):
        return "".join(self.chance.choice("01x") for _ in range(self.inputs))

    def note(self, name, answer):
        """Counts what a call changed."""
        if name == "add_gate" and isinstance(answer, int):
            self.variables += 1
            self.gates.append(answer)
        if name in ("append", "pop") and answer is None:
            self.frames += 1 if name == "append" else -1
        if name == "trace":
            self.frames = answer.count("\n")

    def any(self):
        """A call: the name of a method, and its arguments."""
        name = self.chance.choice(("set", "append", "pop", "rewire", "reset", "add_gate", "set_output", "value",
                                   "value", "values", "cells", "edits", "array", "trace", "unroll", "save", "vector",
                                   "frame", "replace_rows", "prompt"))
        if name == "vector":
            return self.of_vector()
        if name == "frame":
            return name, (self.frame(),)
        if name == "replace_rows":
            return name, ([self.row() for _ in range(self.frames + (self.chance.random() < 0.1))],)
        if name == "prompt":
            return self.chance.choice((("diff", ()), ("rows", ()), ("check", ()), ("witness", ()), ("wave", ()),
                                       ("why", ("in", 0, 2)), ("why", ("o0", None, 2))))
        if name == "cells":
            return "values", (array("I", [it for _ in range(self.chance.randrange(40)) for it in self.cell()]),)
        if name == "array":
            return "edits", (array("I", [it for _ in range(self.chance.randrange(9)) for it in self.four()]),)
        if name == "edits":
            return name, ([self.edit() for _ in range(self.chance.randrange(9))],)
        if name == "values":
            return name, ([self.literal() for _ in range(4)], [self.frame() for _ in range(self.chance.randrange(4))])
        if name == "append":
            return name, (self.row() + self.chance.choice(("", "", "", "1", "z")),)
        if name in ("trace", "unroll", "save"):
            return name, ()
        if name == "value":
            return name, self.cell()[::-1]
        return (edit := self.edit(name))[0], edit[1:]

    def frame(self):
        return self.chance.randrange(self.frames + 1 + (self.chance.random() < 0.05))

    def literal(self):
        return self.chance.randrange(2 * self.variables + 2 + 3 * (self.chance.random() < 0.05))

    def of_vector(self):
        """A call of a vector."""
        value = self.chance.choice((aig.X, self.chance.getrandbits(self.inputs + 1)))
        return self.chance.choice((("value", ("in", self.frame())), ("value", ("!st", self.frame())),
                                   ("set", ("in", self.frame(), value)), ("reset", ("st", value)),
                                   ("edits", ([("set", "in", self.frame(), value), self.edit(), self.edit()],))))

    def cell(self):
        return self.frame(), self.literal()

    def gate(self):
        return self.chance.choice([*self.gates[-200:], self.literal()])

    def latch(self):
        return 2 * (self.inputs + self.chance.randrange(self.latches + 1) + 1)

    def edit(self, name=None):
        """An edit by the name of its method."""
        name = name or self.chance.choice(("set", "rewire", "reset", "add_gate", "set_output", "pop"))
        words = {
            "set": lambda: (self.chance.randrange(self.inputs), self.frame(), self.chance.choice((0, 1, aig.X))),
            "rewire": lambda: (self.gate(), self.literal(), self.literal()),
            "reset": lambda: (self.latch(), self.chance.choice((0, 1, aig.X))),
            "add_gate": lambda: (self.literal(), self.literal()),
            "set_output": lambda: (self.chance.randrange(3), self.literal()),
            "pop": lambda: (),
        }[name]()
        return (name, *words)

    def four(self):
        """An edit as the numbers of an array."""
        kind = self.chance.randrange(6 + (self.chance.random() < 0.05))
        value = self.chance.choice((0, 1, 2, 2, 1, 0, 3))
        words = {
            0: lambda: (self.frame(), self.chance.randrange(self.inputs + 1), value),
            1: lambda: (self.gate(), self.literal(), self.literal()),
            2: lambda: (self.latch(), value, 0),
            3: lambda: (self.literal(), self.literal(), 0),
            4: lambda: (self.chance.randrange(4), self.literal(), 0),
        }.get(kind, lambda: (0, 0, 0))()
        return (kind, *words)
