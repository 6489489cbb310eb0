"""A model that is strengthened by a certificate, and the formula that its property is inductive, from the parts of a
plain reader. It shares nothing with the toolkit."""

import re

from library.families import searched
from library.part import read_from
from library.plain_reader import Fault, levels_of

LIMIT = 4194303
NUMBER = rb"(0|[1-9][0-9]*)"
LITERAL = re.compile(NUMBER)
HEADING = re.compile(rb"MAPPING " + NUMBER)
PAIR = re.compile(NUMBER + rb" " + NUMBER)


# ---- what the certificate's inputs and latches stand for

def literals_of(parts):
    """The literals of its inputs and of its latches, by the letter of the section."""
    return {b"i": list(parts.inputs), b"l": [latch[0] for latch in parts.latches]}


def meanings(model, certificate):
    """For each input and each latch of the certificate the literal of the model that it stands for, or None."""
    names = {(letter, place): name for letter, place, name in certificate.names if letter in (b"i", b"l")}
    defined = {0, *model.inputs, *(latch[0] for latch in model.latches), *(gate[0] for gate in model.gates)}
    if not any(name.startswith(b"= ") for name in names.values()):
        said = mapping(defined, certificate)
        if said is not None:
            return {letter: [said.get(literal) for literal in literals]
                    for letter, literals in literals_of(certificate).items()}
        shared = literals_of(model)
        return {letter: [shared[letter][place] if place < len(shared[letter]) else None for place in range(len(literals))]
                for letter, literals in literals_of(certificate).items()}
    return {letter: [named(defined, letter, place, names.get((letter, place), b"")) for place in range(len(literals))]
            for letter, literals in literals_of(certificate).items()}


def mapping(defined, certificate):
    """What a mapping in the comment says of inputs and latches, by their literals; None if there is no mapping."""
    lines = (certificate.comment or b"").split(b"\n")
    start = next((at for at, line in enumerate(lines) if line.startswith(b"MAPPING")), None)
    if start is None:
        return None
    heading = HEADING.fullmatch(lines[start])
    # A number of more digits is more than any file has lines.
    count = int(heading[1][:12]) if heading else len(lines)
    entries = {literal for literals in literals_of(certificate).values() for literal in literals}
    said = {}
    for line in lines[start + 1:][:count]:
        own, literal = pair_of(line)
        if own & ~1 not in entries or literal & ~1 not in defined or own & ~1 in said:
            raise Fault("certificate: comment")
        said[own & ~1] = literal ^ (own & 1)
    if len(said) < count:
        raise Fault("certificate: comment")
    return said


def pair_of(line):
    """The two numbers of a line of a mapping."""
    found = PAIR.fullmatch(line)
    if found is None or len(line) > 30:
        raise Fault("certificate: comment")
    return int(found[1]), int(found[2])


def named(defined, letter, place, name):
    """The literal that a name names, None where it names none."""
    if not name.startswith(b"= "):
        return None
    word = name[2:]
    if not LITERAL.fullmatch(word) or int(word) & ~1 not in defined:
        raise Fault(f"certificate: symbol {letter.decode()}{place}")
    return int(word)


# ---- the strengthened circuit

class Translation:
    """What the literals of a certificate are in the strengthened circuit."""

    def __init__(self, model, certificate, shared):
        self.most = model.most
        self.new = {0: 0}
        for letter, literals in literals_of(certificate).items():
            for literal, meaning in zip(literals, shared[letter]):
                self.new[literal] = self.fresh() if meaning is None else meaning
        for left, _, _ in certificate.gates:
            self.new[left] = self.fresh()

    def fresh(self):
        self.most += 1
        return 2 * self.most

    def __call__(self, literal):
        return self.new[literal & ~1] ^ (literal & 1)


def strengthened(model, asked, certificate, word="strengthen"):
    """The parts of the strengthened circuit, or a fault. The word is the part that refuses a property or a size."""
    shared = meanings(model, certificate)
    if asked >= len(model.bad):
        raise Fault(f"{word}: property")
    to = Translation(model, certificate, shared)
    inputs = [to(literal) for literal, meaning in zip(certificate.inputs, shared[b"i"]) if meaning is None]
    latches = [(to(state), to(after), reset if reset < 2 else to(reset))
               for (state, after, reset), meaning in zip(certificate.latches, shared[b"l"]) if meaning is None]
    gates = [*model.gates, *((to(left), to(first), to(second)) for left, first, second in certificate.gates)]
    claims = [to(literal) for literal in certificate.bad or certificate.outputs]
    claims += [to(literal) ^ 1 for literal in certificate.constraints]
    good = model.bad[asked] ^ 1
    for claim in claims:
        left = to.fresh()
        gates.append((left, max(claim ^ 1, good), min(claim ^ 1, good)))
        good = left
    made = model._replace(
        most=to.most, inputs=[*model.inputs, *inputs], latches=[*model.latches, *latches],
        outputs=[model.bad[asked], *claims], bad=[good ^ 1], justice=[], fairness=[], gates=gates,
        names=names_of(model, asked, certificate, shared), comment=None)
    if max([made.most, *map(len, (made.inputs, made.latches, made.outputs, made.gates))]) > LIMIT:
        raise Fault(f"{word}: limit")
    return made


def names_of(model, asked, certificate, shared):
    """The model's names and then the certificate's, in the order of the files."""
    names = []
    for letter, place, name in model.names:
        if letter in (b"i", b"l", b"c"):
            names.append((letter, place, name))
        elif (letter, place) == (b"b", asked):
            names.append((b"o", 0, name))
    lengths = {letter: len(literals) for letter, literals in literals_of(model).items()}
    listed = b"b" if certificate.bad else b"o"
    for letter, place, name in certificate.names:
        if letter in lengths:
            if shared[letter][place] is None:
                names.append((letter, lengths[letter] + shared[letter][:place].count(None), name))
        elif letter == listed:
            names.append((b"o", 1 + place, name))
        elif letter == b"c":
            names.append((b"o", 1 + len(certificate.bad or certificate.outputs) + place, name))
    return names


# ---- the formula

def part_of(circuit):
    """What the property of a strengthened circuit reads."""
    sides = {left: both for left, *both in circuit.gates}
    read = read_from([circuit.bad[0], *circuit.constraints], circuit.latches, sides)
    return circuit._replace(
        inputs=[literal for literal in circuit.inputs if literal in read], outputs=[],
        latches=[latch for latch in circuit.latches if latch[0] in read],
        gates=[gate for gate in circuit.gates if gate[0] in read])


class TwoFrames:
    """A part of a circuit in two frames from any state, by the numbers of `aig unroll`: the inputs of both frames, the
    latches, and the gates of each frame by level and variable. With constraints each frame has a chain of them, and a
    guarded property."""

    def __init__(self, circuit):
        self.circuit, self.gates, self.goals = circuit, [], []
        self.width = len(circuit.inputs)
        self.size = 2 * self.width + len(circuit.latches)
        levels = levels_of(circuit)
        self.order = sorted(circuit.gates, key=lambda gate: (levels[gate[0]], gate[0]))
        now, held = {latch[0]: 2 * (2 * self.width + at + 1) for at, latch in enumerate(circuit.latches)}, 1
        for frame in range(2):
            now, held = self.frame(frame, now, held)

    def gate(self, first, second):
        left = 2 * (self.size + len(self.gates) + 1)
        self.gates.append((left, max(first, second), min(first, second)))
        return left

    def frame(self, frame, now, held):
        """Adds a frame with these states, where the constraints held before; the next states, and what holds then."""
        now = {0: 0, **now, **{l: 2 * (frame * self.width + at + 1) for at, l in enumerate(self.circuit.inputs)}}

        def at(literal):
            return now[literal & ~1] ^ (literal & 1)

        for left, first, second in self.order:
            now[left] = self.gate(at(first), at(second))
        for literal in self.circuit.constraints:
            held = self.gate(at(literal), held)
        bad = at(self.circuit.bad[0])
        self.goals.append(self.gate(bad, held) if self.circuit.constraints else bad)
        return {state: at(after) for state, after, _ in self.circuit.latches}, held

    def cone(self):
        """The gates that the goals read, in order."""
        wanted = {literal & ~1 for literal in self.goals}
        for left, first, second in reversed(self.gates):
            if left in wanted:
                wanted |= {first & ~1, second & ~1}
        return [gate for gate in self.gates if gate[0] in wanted]


def signed(literal):
    """The literal in DIMACS; variable 1 is the constant."""
    return -(literal // 2 + 1) if literal & 1 else literal // 2 + 1


def clauses_of(circuit):
    """How many variables the formula has, its two goals, and its clauses."""
    made = TwoFrames(part_of(circuit))
    start, after = map(signed, made.goals)
    clauses = [[-1], [start, after]]
    for at, (state, _, reset) in enumerate(made.circuit.latches):
        variable = 2 * made.width + at + 2
        if reset != state:
            clauses.append([-start, variable if reset else -variable])
    for gate in made.cone():
        left, first, second = map(signed, gate)
        clauses += [[-left, first], [-left, second], [left, -first, -second]]
    return made.size + len(made.gates) + 1, (start, after), clauses


def formula(circuit, position=0):
    """The text of the formula of a circuit that was strengthened for the property at a position: an assignment
    satisfies it where a start or a step breaks the property."""
    variables, goals, clauses = clauses_of(circuit)
    names = {(letter, place): name for letter, place, name in circuit.names}
    part = part_of(circuit)
    inputs = [place for place, literal in enumerate(circuit.inputs) if literal in part.inputs]
    latches = [place for place, latch in enumerate(circuit.latches) if latch in part.latches]
    width = len(inputs)
    lines = [b"c aig cnf --certificate --property %d " % position + names.get((b"o", 0), b"")]
    lines += [b"c i %d %d %d " % (frame * width + at + 2, frame, place) + names.get((b"i", place), b"")
             for frame in range(2) for at, place in enumerate(inputs)]
    lines += [b"c l %d %d " % (2 * width + at + 2, place) + names.get((b"l", place), b"") for at, place in enumerate(latches)]
    lines += [b"c b %d %d" % (goal, frame) for frame, goal in enumerate(goals)]
    lines.append(b"p cnf %d %d" % (variables, len(clauses)))
    lines += [b" ".join(b"%d" % literal for literal in [*clause, 0]) for clause in clauses]
    if variables - 1 > LIMIT:
        raise Fault("cnf: limit")
    return b"".join(line + b"\n" for line in lines)


def proof_of(clauses):
    """A proof in DRAT that no assignment satisfies the clauses."""
    return "".join(" ".join(map(str, [*clause, 0])) + "\n" for _, clause in searched(clauses))
