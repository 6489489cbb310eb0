"""Small random circuits and stimuli: `aig witness` writes the witness of the first frame that library/first_reached.py
finds, and `aig check` confirms it."""

from at_random.cases import Wrong, each
from at_random.replays import circuit_to_check
from library.broken import values as random_values
from library.first_reached import first_reached
from library.runs import Ended, refused, write


def case(program, rng):
    text, parts = circuit_to_check(rng)
    asked = rng.choice((None, rng.randrange(len(parts.bad) + (rng.randrange(8) == 0))))
    rows = [random_values(rng, len(parts.inputs)) for _ in range(rng.randrange(9))]
    write("circuit", text)
    write("rows", "".join(row + "\n" for row in rows))
    words = ["witness", "circuit", "rows"] + ([] if asked is None else ["--property", str(asked)])
    got = program.run(*words)
    if asked is not None and asked >= len(parts.bad):
        wanted = refused("witness: property")
    else:
        found = first_reached(parts, rows, asked)
        wanted = refused("witness: no run") if found is None else Ended(0, found.encode(), b"")
    if got != wanted:
        raise Wrong(f"{words}: {got}, wanted {wanted}")
    if got.status == 0:
        write("found", got.out)
        verdict = program.run("check", "circuit", "found")
        if verdict != Ended(0, b"confirmed\n", b""):
            raise Wrong(f"{got.out}: {verdict}")


def witnesses(program, tally, chosen):
    each("witnesses", tally, chosen, lambda rng: case(program, rng))
