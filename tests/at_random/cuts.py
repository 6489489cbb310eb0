"""Random circuits with names, of which parts are cut: the file is that of library/cuts.py to the byte, in both formats,
and a wrong line is reported. A run of the circuit, with the values of what was cut as its new inputs, is a run of the
cut circuit: each witness that is confirmed stays confirmed, and one that keeps its constraints keeps them."""

from at_random.cases import Wrong, each
from at_random.replays import circuit_to_check, started
from at_random.waves import renamed
from library.broken import circuit, values as random_values
from library.cuts import cut, stands_for
from library.plain_reader import Fault, Reader, in_order, spelled
from library.reference import literal, values
from library.runs import Ended, refused, write


def lines(rng, parts):
    """Lines of cuts in any order, of which some may be wrong, and some twice."""
    entries = [latch[0] for latch in parts.latches] + [gate[0] for gate in parts.gates]
    every = [b"f %d\n" % literal for literal in entries] + [b"r %d\n" % latch[0] for latch in parts.latches]
    every += [b"c %d\n" % at for at in range(len(parts.constraints))]
    share = rng.choice((0.1, 0.3, 0.8))
    chosen = [line for line in every if rng.random() < share]
    chosen += rng.sample(chosen, min(len(chosen), rng.choice((0, 0, 1))))
    if rng.randrange(6) == 0:
        chosen.append(rng.choice((b"f %d\n" % (rng.randrange(2 * parts.most + 4)), b"r %d\n" % rng.randrange(9), b"\n",
                                  b"c %d\n" % (len(parts.constraints) + rng.randrange(3)), b"f 2")))
    rng.shuffle(chosen)
    return b"".join(chosen)


def written(program, rng, text):
    """What is written of a circuit and cuts is what the plain writer has; returns the cuts unless they are refused."""
    parts = Reader(text).parts()
    cuts = lines(rng, parts)
    write("circuit", text)
    write("cuts", cuts)
    for to in ("aag", "aig"):
        try:
            made = cut(parts, cuts)
            wanted = Ended(0, spelled(made if to == "aag" else in_order(made), to), b"")
        except Fault as fault:
            made, wanted = None, refused(str(fault))
        got = program.run("cut", "--to", to, "--cuts", "cuts", "circuit")
        if got != wanted:
            raise Wrong(f"{to}, {cuts}: {got}, wanted {wanted}")
        write(f"cut.{to}", got.out)
    return None if made is None else cuts


def carried_over(program, rng, text, cuts):
    """Runs of the circuit are runs of the cut circuit."""
    parts = Reader(text.encode()).parts()
    means = stands_for(parts, cuts)
    for _ in range(3):
        start = "".join(rng.choice("01x") if latch[2] == latch[0] else str(latch[2]) for latch in parts.latches)
        rows = [random_values(rng, len(parts.inputs)) for _ in range(rng.randrange(1, 6))]
        known = values(started(text, start), rows)
        longer = [row + "".join(literal(frame, meant) for meant in means) for row, frame in zip(rows, known)]
        for asked in range(len(parts.bad)):
            for name, run in (("run", rows), ("longer", longer)):
                write(name, f"1\nb{asked}\n{start}\n" + "".join(row + "\n" for row in run) + ".\n")
            for option in ([], ["--alive"]):
                one = program.run("check", *option, "circuit", "run")
                for file in ("cut.aag", "cut.aig"):
                    other = program.run("check", *option, file, "longer")
                    if one.status == 0 and other != one:
                        raise Wrong(f"{option}, {start}, {rows}: {one}, and {other} of {file} with {longer}")


def case(program, rng):
    written(program, rng, renamed(rng, circuit(rng))[0])
    text, _ = circuit_to_check(rng)
    said = written(program, rng, text.encode())
    if said is not None:
        carried_over(program, rng, text, said)


def cuts(program, tally, chosen):
    each("cuts", tally, chosen, lambda rng: case(program, rng))
