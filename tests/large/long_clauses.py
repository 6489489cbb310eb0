"""Proofs of many steps on a first literal, each of which tries many clauses. For each of these a search goes through
one long clause, as all of its literals but two are known to be false. The search counts among the looks that such steps
may take: without that, a proof of 523 KB takes ten seconds, and one of 1.4 MB over 45. The steps are right. They are
taken, or refused at the limit of looks. A time is processor time of a whole run."""

from library.runs import EXAMPLES, Ended, write
from library.times import processor_time

QUESTION = ("--frames", "20", "--property", "1", f"{EXAMPLES}/queue.aig")
# Seconds of processor time for proofs of so many bytes.
MOST_SECONDS = {523_000: 3.0, 1_400_000: 10.0}
LONG, TRIED = 17, 22  # bytes for a literal of the long clause, and for a clause that is tried
ENDS = (b"aig: proof: step ", b"aig: proof: no refutation\n")


def lines(first, size):
    """Steps of a proof whose own variables begin with this one. Three fifths of its bytes are for the long clause, and
    a fifth is for the clauses that are tried."""
    last = first + size * 3 // 5 // LONG
    one, other, conflict, tried = range(last, last + 4)
    literals = range(first, last)
    yield from (f"-{at}" for at in literals)
    yield f"{one} {other} {' '.join(map(str, literals))}"
    yield f"{conflict} -{other}"
    free = last + 4
    for at in range(free, free + size // 5 // TRIED):
        yield f"{at} -{tried} {one}"
    for at in range(free + size // 5 // TRIED, free + size):
        yield f"{tried} {conflict} {at}"


def proof_of(first, size):
    """The text of these steps, up to a size."""
    made, left = [], size
    for line in lines(first, size):
        made.append(line + " 0\n")
        left -= len(made[-1])
        if left <= 0:
            break
    return "".join(made)


def long_clauses(program, tally, _):
    formula = program.run("cnf", *QUESTION).out
    variables = int(next(line for line in formula.split(b"\n") if line.startswith(b"p cnf ")).split()[2])
    told = []
    for size, most in MOST_SECONDS.items():
        write("proof", proof_of(variables + 1, size))
        seconds, ended = processor_time(lambda: program.run("refute", *QUESTION, "proof"))
        tally.check(f"{size} bytes", ended == Ended(1, b"", ended.err) and ended.err.startswith(ENDS), f"{ended}")
        tally.check(f"{size} bytes: its time", seconds <= most, f"{seconds:.2f} s")
        told.append(f"{size} bytes {seconds:.2f} s")
    return ", ".join(told) + ": "
