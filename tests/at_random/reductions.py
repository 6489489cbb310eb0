"""Small random circuits and witnesses: `aig reduce` writes the witness that library/reduction.py makes, which `aig
check` confirms, and of which no other value can be x; or the verdict that `aig check` prints."""

from at_random.cases import Wrong, each
from at_random.replays import circuit_to_check, start_of, started, verdict_of
from library.broken import values as random_values
from library.reduction import is_confirmed, reduced, replaced, witness_text
from library.reference import literal, values
from library.runs import Ended, refused, write


def cut_at_property(parts, known, bad):
    """The number of frames up to the first at which the property is 1, or of all."""
    found = (frame for frame, now in enumerate(known) if literal(now, parts.bad[bad]) == "1")
    return next(found, len(known) - 1) + 1


def case(program, rng):
    """Compares a reduction, and answers the verdict without numbers, or `refused`."""
    text, parts = circuit_to_check(rng)
    start, bad = start_of(rng, parts), rng.randrange(len(parts.bad) + (rng.randrange(8) == 0))
    # now and then so many frames that values go many at once
    count = rng.randrange(1, 6) if rng.randrange(4) else rng.randrange(6, 40)
    rows = [random_values(rng, len(parts.inputs)) for _ in range(count)]
    write("circuit", text)
    if bad == len(parts.bad):
        write("witness", witness_text(bad, start, rows))
        got = program.run("reduce", "circuit", "witness")
        if got != refused("witness: property"):
            raise Wrong(f"{got} at a property that is not there")
        return "refused"
    known = values(started(text, start), rows)
    if rng.randrange(8):
        frames = cut_at_property(parts, known, bad)
        known, rows = known[:frames], rows[:frames]
    verdict = verdict_of(parts, start, known, bad)
    write("witness", witness_text(bad, start, rows))
    got = program.run("reduce", "circuit", "witness")
    if verdict != "confirmed\n":
        if got != Ended(1, verdict.encode(), b""):
            raise Wrong(f"{got} for {verdict}")
        return verdict.rstrip("\n 0123456789")
    start, rows = reduced(parts, bad, start, rows)
    if got != Ended(0, witness_text(bad, start, rows).encode(), b""):
        raise Wrong(f"{got}, wanted {start} {rows}")
    if any(is_confirmed(parts, bad, *more) for more in replaced(start, rows)):
        raise Wrong(f"{start} {rows}: one more value can be x")
    write("found", got.out)
    checked = program.run("check", "circuit", "found")
    if checked != Ended(0, b"confirmed\n", b""):
        raise Wrong(f"{got.out}: {checked}")
    return "confirmed"


def reductions(program, tally, chosen):
    verdicts = []
    each("reductions", tally, chosen, lambda rng: verdicts.append(case(program, rng)))
    counted = ", ".join(f"{verdicts.count(word)} {word}" for word in sorted(set(verdicts)))
    return f"cases of seed {chosen.seed}, {counted}: "
