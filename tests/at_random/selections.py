"""Random circuits with names, of which properties are selected: the file is that of library/selection.py to the byte,
in both formats. Where a position is not there, nothing is written."""

from at_random.cases import Wrong, each
from at_random.waves import renamed
from library.broken import circuit
from library.plain_reader import Reader, in_order, spelled
from library.runs import Ended, refused, write
from library.selection import selected

SECTIONS = ("bad", "outputs")


def case(program, rng):
    design, _ = renamed(rng, circuit(rng))
    parts = Reader(design).parts()
    parts = parts._replace(comment=rng.choice((None, b"", b"by hand\n", b"\x00\xff")))
    write("circuit", spelled(parts, "aag"))
    source, target = rng.choice(SECTIONS), rng.choice(SECTIONS)
    count = len(getattr(parts, source))
    named = [rng.randrange(count + (rng.randrange(8) == 0)) for _ in range(rng.choice((0, 1, 1, 2, 3, 9))) if count]
    to = rng.choice(("aag", "aig"))
    words = ["select", "--to", to, "circuit"]
    words += ["--from", source] if source == "outputs" or rng.randrange(2) else []
    words += ["--as", target] if target == "outputs" or rng.randrange(2) else []
    for position in named:
        words += ["--property", str(position)]
    new = selected(parts, source, target, named)
    if new is None:
        wanted = refused("select: property")
    else:
        wanted = Ended(0, spelled(new if to == "aag" else in_order(new), to), b"")
    got = program.run(*words)
    if got != wanted:
        raise Wrong(f"{words}: {got}, wanted {wanted}")


def selections(program, tally, chosen):
    each("selections", tally, chosen, lambda rng: case(program, rng))
