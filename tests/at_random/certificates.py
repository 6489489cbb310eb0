"""Random circuits and certificates. Those with names of any kind: `strengthen` and `cnf --certificate` write the bytes
of library/certificate.py, or its fault, and the same if a mapping takes the place of the names. Small ones, right and
wrong, beside a search of all states (library/all_states.py): `refute` takes a proof exactly where start and step keep
the property, and then no run reaches it; else `witness` writes the run of the start or of the step that fails, and
`check` shows the part."""

from at_random.cases import Wrong, each
from at_random.waves import renamed
from library.all_states import broken_by, model_of, reaches, run_of
from library.broken import circuit
from library.certificate import clauses_of, formula, literals_of, proof_of, strengthened
from library.dimacs import read_formula
from library.families import searched
from library.plain_reader import Fault, Parts, Reader, in_order, spelled
from library.runs import Ended, refused, write

EMPTY = Parts(0, [], [], [], [], [], [], [], [], [], None)
UNREACHABLE = Ended(0, b"unreachable\n", b"")


# ---- bytes

def any_circuit(rng):
    """The parts of a circuit with names."""
    design, _ = renamed(rng, circuit(rng))
    return Reader(design).parts()


def in_either(rng, parts):
    """The parts and their file, in one of the formats; the binary one wants the variables in order."""
    return rng.choice(((parts, spelled(parts, "aag")), (in_order(parts), spelled(in_order(parts), "aig"))))


def named(rng, parts, model):
    """The certificate with a comment, and with names that begin with `= ` or look like it."""
    defined = [0, *model.inputs, *(latch[0] for latch in model.latches), *(gate[0] for gate in model.gates)]

    def name(old):
        kind = rng.randrange(12)
        literal = rng.choice(defined) + rng.randrange(2)
        if kind == 0:
            return rng.choice((b"= %d" % (2 * model.most + 2), b"= 0%d" % literal, b"= ", b"= x", b"= %d " % literal))
        return rng.choice((b"=%d" % literal, b" = %d" % literal, b"= 4294967296")) if kind == 1 else b"= %d" % literal

    chosen = rng.choice((0, 0, 1, 4))
    names = [(letter, place, name(old) if letter in b"il" and rng.randrange(4) < chosen else old)
             for letter, place, old in parts.names]
    comment = rng.choice((None, None, b"", b"by hand", b"MAPPING 1\n2 2\n", b" MAPPING",
                          any_mapping(rng, parts, defined)))
    return parts._replace(names=names, comment=comment)


def any_mapping(rng, parts, defined):
    """A mapping of some inputs and latches, which is wrong now and then."""
    entries = [literal for literals in literals_of(parts).values() for literal in literals]
    chosen = rng.sample(entries, rng.randrange(len(entries) + 1))
    if rng.randrange(8) == 0:
        chosen.append(rng.choice((0, *entries)))
    lines = [b"%d %d" % (own ^ rng.randrange(2), rng.choice(defined) ^ rng.randrange(2)) for own in chosen]
    if lines and rng.randrange(8) == 0:
        lines[rng.randrange(len(lines))] = rng.choice((b"", b"2", b"2 x", b" 2 2", b"2 2 ",
                                                       b"%d 2" % (2 * parts.most + 2)))
    return b"".join(line + b"\n" for line in (b"MAPPING %d" % (len(lines) + (rng.randrange(12) == 0)), *lines))


def is_mark(name):
    """Whether a name says what an input or a latch stands for."""
    letter, _, text = name
    return letter in (b"i", b"l") and text.startswith(b"= ")


def mapped(rng, parts):
    """The certificate with the lines of a mapping in the place of the names that begin with `= `."""
    own = literals_of(parts)
    pairs = [(own[letter][place], int(name[2:])) for letter, place, name in filter(is_mark, parts.names)]
    rng.shuffle(pairs)
    lines = [rng.choice((b"", b"by hand\n")) + b"MAPPING %d" % len(pairs)]
    for literal, meaning in pairs:
        sign = rng.randrange(2)
        lines.append(b"%d %d" % (literal ^ sign, meaning ^ sign))
    names = [name for name in parts.names if not is_mark(name)]
    return parts._replace(names=names, comment=b"\n".join(lines) + rng.choice((b"", b"\n", b"\nmore\n")))


def bytes_of(program, rng):
    """Compares what is written of any circuits, and answers whether they go together."""
    model, text = in_either(rng, any_circuit(rng))
    write("model", text)
    claims, text = in_either(rng, named(rng, any_circuit(rng), model))
    write("claims", text)
    asked = rng.randrange(len(model.bad) + (rng.randrange(8) == 0)) if model.bad else 0
    words = ["--certificate", "claims", "--property", str(asked), "model"]
    answers = []
    for word, command, written in (("strengthen", ["strengthen", "--to", "aag"], lambda x: spelled(x, "aag")),
                                   ("strengthen", ["strengthen", "--to", "aig"], lambda x: spelled(in_order(x), "aig")),
                                   ("cnf", ["cnf"], lambda x: formula(x, asked))):
        got = program.run(*command, *words)
        try:
            wanted = Ended(0, written(strengthened(model, asked, claims, word)), b"")
        except Fault as fault:
            wanted = refused(f"{fault}")
        if got != wanted:
            raise Wrong(f"{command}: {got}, wanted {wanted}")
        answers.append((command, got))
    if answers[0][1].status == 0 and any(map(is_mark, claims.names)):
        # The binary format may want other numbers, and a mapping has those of the text.
        formats = ("aag", "aig") if in_order(claims) == claims else ("aag",)
        write("claims", spelled(mapped(rng, claims), rng.choice(formats)))
        for command, wanted in answers:
            got = program.run(*command, *words)
            if got != wanted:
                raise Wrong(f"{command}, by a mapping: {got}, wanted {wanted}")
    return "written" if wanted.status == 0 else "refused"


# ---- verdicts

class Builder:
    """A circuit that grows."""

    def __init__(self, parts=EMPTY):
        self.parts = parts._replace(**{section: [*getattr(parts, section)] for section in Parts._fields[1:10]})

    def fresh(self):
        self.parts = self.parts._replace(most=self.parts.most + 1)
        return 2 * self.parts.most

    def input(self, name=None):
        self.parts.inputs.append(self.fresh())
        if name is not None:
            self.parts.names.append((b"i", len(self.parts.inputs) - 1, name))
        return self.parts.inputs[-1]

    def latch(self, after, reset, name=None):
        """A latch; its reset is 0, 1 or x."""
        state = self.fresh()
        self.parts.latches.append((state, after, {"0": 0, "1": 1, "x": state}[reset]))
        if name is not None:
            self.parts.names.append((b"l", len(self.parts.latches) - 1, name))
        return state

    def both(self, first, second):
        left = self.fresh()
        self.parts.gates.append((left, max(first, second), min(first, second)))
        return left

    def differ(self, first, second):
        return self.both(self.both(first, second) ^ 1, self.both(first ^ 1, second ^ 1) ^ 1)

    def all_of(self, literals):
        """1 where each of these is 1."""
        last = 1
        for literal in literals:
            last = literal if last == 1 else self.both(last, literal)
        return last

    def is_in(self, literals, states):
        """1 where these literals, as the digits of a number, are one of the states."""
        none = 1
        for state in sorted(states):
            none = self.both(none, self.all_of(l ^ 1 ^ (state >> at & 1) for at, l in enumerate(literals)) ^ 1)
        return none ^ 1


def small_model(rng):
    """A model of one property, with at most two inputs and three latches."""
    made = Builder()
    known = [0] + [made.input() for _ in range(rng.randrange(3))]
    known += [made.latch(0, rng.choice("01x")) for _ in range(rng.randrange(1, 4))]

    def one():
        return rng.choice(known) ^ rng.randrange(2)

    for _ in range(rng.randrange(2, 9)):
        known.append(made.both(one(), one()))
    latches = [(state, one(), reset) for state, _, reset in made.parts.latches]
    return made.parts._replace(latches=latches, bad=[one()],
                               constraints=[one() for _ in range(rng.choice((0, 0, 1, 2)))])


def invariant(rng, model, states):
    """A certificate over the model's latches, or some of them: one of these states, or of some more or fewer."""
    made = Builder()
    chosen = [at for at in range(len(model.latches)) if rng.randrange(5)]
    sign = rng.randrange(2)
    literals = [made.input(b"= %d" % (model.latches[at][0] ^ sign)) ^ sign for at in chosen]
    states = {sum((state >> at & 1) << place for place, at in enumerate(chosen)) for state in states}
    every = {*range(1 << len(chosen))}
    kind = rng.randrange(5)
    if kind == 0:
        states ^= {rng.choice(sorted(every))}
    elif kind == 1:
        states |= {state for state in every if rng.randrange(2)}
    elif kind == 2:
        states -= {rng.choice(sorted(states))} if states else set()
    literal = made.is_in(literals, states)
    if rng.randrange(3) == 0:
        return made.parts._replace(constraints=[literal])
    return made.parts._replace(**{rng.choice(("bad", "outputs")): [literal ^ 1]})


def copy(rng, model, states):
    """A copy of the model by position, whose property is that the state is none of these. Its resets, next states and
    constraints may differ: they are not read, or only more is claimed."""
    made = Builder(model)
    literal = made.is_in([latch[0] for latch in model.latches], states)
    latches = [(state, after ^ (rng.randrange(4) == 0), rng.choice((reset, reset, 0, 1)))
               for state, after, reset in made.parts.latches]
    kept = rng.choice(([], model.constraints))
    return made.parts._replace(latches=latches, bad=[literal ^ 1], constraints=kept)


def going_along(rng, model, states):
    """A copy of the model with a second copy of some latches, which goes along with them."""
    made = Builder(model)
    twins, literals = [], []
    for state, after, reset in model.latches:
        if rng.randrange(3):
            twin = made.latch(after, "x" if reset == state else str(reset))
            twins.append(made.differ(twin, state))
            literals.append(twin)
        else:
            literals.append(state)
    claims = [made.is_in(literals, states) ^ 1] + [literal for literal in twins if rng.randrange(6)]
    return made.parts._replace(bad=claims, constraints=[])


def remembering(rng, model, _):
    """Latches of its own that keep the property and the states of the frame before: a certificate of an induction over
    two frames. Its inputs are the model's latches and property by name."""
    made = Builder()
    now = [made.input(b"= %d" % latch[0]) for latch in model.latches]
    bad = made.input(b"= %d" % model.bad[0])
    before = [made.latch(literal, "0") for literal in now]
    begun = made.latch(1, "0", rng.choice((None, b"begun")))
    claims = [made.both(begun ^ 1, literal ^ reset)
              for literal, (state, _, reset) in zip(now, model.latches) if reset != state]
    states = [made.both(begun, made.differ(literal, made.input(b"= %d" % after)))
              for literal, (_, after, _) in zip(before, model.latches)] if rng.randrange(2) else []
    return made.parts._replace(bad=[bad, *claims, *states])


def anything(rng, model, _):
    """A random circuit, with random names."""
    claims = small_model(rng)
    defined = [0, *model.inputs, *(latch[0] for latch in model.latches), *(gate[0] for gate in model.gates)]
    names = [(letter, place, b"= %d" % (rng.choice(defined) + rng.randrange(2)))
             for letter, section in ((b"i", claims.inputs), (b"l", claims.latches)) for place in range(len(section))
             if rng.randrange(3)]
    return claims._replace(names=names)


KINDS = (invariant, invariant, copy, going_along, remembering, anything)


def verdict_of(program, rng):
    """Compares the answers on small circuits with the search, and answers what is right."""
    while True:
        model = small_model(rng)
        is_reached, states = reaches(model, 0)
        if is_reached and rng.randrange(3):
            continue
        claims = rng.choice(KINDS)(rng, model, states)
        if any(map(is_mark, claims.names)) and rng.randrange(2):
            claims = mapped(rng, claims)
        x = strengthened(model, 0, claims)
        if 2 * len(x.inputs) + len(x.latches) <= 12 and len(x.gates) <= 60:
            break
    write("model", in_either(rng, model)[1])
    write("claims", spelled(claims, "aag"))
    words = ["--certificate", "claims", "model"]
    got = program.run("cnf", *words)
    if got != Ended(0, formula(x), b""):
        raise Wrong(f"another formula: {got}")
    broken = broken_by(x)
    write("x", program.run("strengthen", "--to", "aag", *words).out)
    agrees(program, broken is None)
    if broken is None:
        if is_reached:
            raise Wrong("start and step keep the property, and a run reaches it")
        write("proof", proof_of(clauses_of(x)[2]))
        got = program.run("refute", *words, "proof")
        if got != UNREACHABLE:
            raise Wrong(f"a right certificate: {got}")
        return "right"
    write("proof", "".join(f"{rng.choice((1, -1)) * rng.randrange(2, 9)} 0\n" for _ in range(rng.randrange(9))) + "0\n")
    got = program.run("refute", *words, "proof")
    if (got.status, got.out, got.err[:12]) != (1, b"", b"aig: proof: "):
        raise Wrong(f"a wrong certificate: {got}")
    fails(program, words, x, broken)
    return "wrong at the start" if len(broken) == 1 else "wrong in a step"


def agrees(program, is_right):
    """The induction over one frame of the strengthened circuit, of two formulas, goes as that of one formula."""
    found = []
    for name, words in (("base", []), ("step", ["--step"])):
        _, _, clauses = read_formula(program.run("cnf", *words, "--frames", "1", "x").out.decode())
        found.append(searched(clauses) is not None)
        write(name, proof_of(clauses) if found[-1] else "")
    got = program.run("refute", "--frames", "1", "--step", "step", "x", "base")
    if all(found) != is_right or (got == UNREACHABLE) != is_right:
        raise Wrong(f"base and step are refuted: {found}; {got}")


def fails(program, words, x, broken):
    """A solver's model of these rows is the run over them, and its trace shows that a part fails in the last one alone."""
    write("found", model_of(x, broken))
    got = program.run("witness", "--model", "found", *words)
    if got != Ended(0, run_of(x, broken), b""):
        raise Wrong(f"another run: {got}, wanted {run_of(x, broken)}")
    write("run", got.out)
    *lines, verdict = program.run("check", "--trace", "x", "run").out.decode().splitlines()
    parts = [line.split(" ")[2] for line in lines]
    if ["1" in values for values in parts] != [False, True][-len(broken):]:
        raise Wrong(f"other parts: {parts}")
    if verdict != "confirmed" and (len(broken) == 1 or not verdict.startswith("initial ")):
        raise Wrong(f"{verdict} of {len(broken)} rows")


def certificates(program, tally, chosen):
    answers = []
    each("certificates", tally, chosen,
         lambda rng: answers.append(verdict_of(program, rng) if rng.randrange(3) else bytes_of(program, rng)))
    counted = ", ".join(f"{answers.count(word)} {word}" for word in sorted(set(answers)))
    return f"cases of seed {chosen.seed}, {counted}: "
