"""Small random circuits and witnesses: the verdict, the trace (`aig check --trace`), the trace with properties and the
dump (`aig wave --witness`, read back by library/dump_reader.py) are those of library/reference.py, of the circuit with
the witness's start as its resets."""

from at_random.cases import Wrong, each
from library.broken import circuit, values as random_values
from library.dump_reader import Dump
from library.reference import Parts, literal, trace, values
from library.runs import Ended, refused, write


def circuit_to_check(rng):
    """The text and the parts of a circuit that has a bad state property."""
    while True:
        text = circuit(rng).decode()
        parts = Parts(text)
        if parts.bad:
            return text, parts


def started(text, start):
    """The parts of the circuit whose latches start at these values."""
    parts = Parts(text)
    resets = [{"0": 0, "1": 1, "x": latch[0]}[value] for latch, value in zip(parts.latches, start)]
    parts.latches = [[lit, following, reset] for (lit, following, _), reset in zip(parts.latches, resets)]
    return parts


def start_of(rng, parts):
    """Values of the latches, most of them as the resets allow."""
    allowed = ["01"[latch[2]] if latch[2] < 2 else rng.choice("01x") for latch in parts.latches]
    return "".join(rng.choice("01x") if rng.randrange(6) == 0 else value for value in allowed)


def verdict_of(parts, start, known, bad):
    """The verdict's line, of the values at each frame."""
    for place, (latch, value) in enumerate(zip(parts.latches, start)):
        if latch[2] < 2 and value != str(latch[2]):
            return f"initial {place}\n"
    for frame, now in enumerate(known):
        for place, l in enumerate(parts.constraints):
            if literal(now, l) != "1":
                return f"constraint {frame} {place}\n"
    return "confirmed\n" if literal(known[-1], parts.bad[bad]) == "1" else "not bad\n"


def shown(parts, known):
    """The values of each scope of the dump at each frame."""
    lists = {"inputs": parts.inputs, "latches": [latch[0] for latch in parts.latches], "outputs": parts.outputs,
             "bad": parts.bad, "constraints": parts.constraints}
    return {scope: ["".join(literal(now, l) for l in each) for now in known] for scope, each in lists.items()}


def case(program, rng):
    """Compares a run, and answers its verdict without numbers, or `refused`."""
    text, parts = circuit_to_check(rng)
    start, bad = start_of(rng, parts), rng.randrange(len(parts.bad) + (rng.randrange(8) == 0))
    rows = [random_values(rng, len(parts.inputs)) for _ in range(rng.randrange(1, 6))]
    write("circuit", text)
    write("witness", f"1\nb{bad}\n{start}\n" + "".join(row + "\n" for row in rows) + ".\n")
    commands = (["check"], ["check", "--trace"], ["check", "--trace", "--properties"], ["wave", "--witness"])
    checked, traced, listed, waved = (program.run(*words, "circuit", "witness") for words in commands)
    if bad == len(parts.bad):
        if not checked == traced == listed == waved == refused("witness: property"):
            raise Wrong(f"{checked}, {traced}, {listed} and {waved} at a property that is not there")
        return "refused"
    replay = started(text, start)
    known = values(replay, rows)
    verdict = verdict_of(parts, start, known, bad)
    status = 0 if verdict == "confirmed\n" else 1
    if checked != Ended(status, verdict.encode(), b""):
        raise Wrong(f"{checked} for {verdict}")
    if traced != Ended(status, (trace(replay, rows) + verdict).encode(), b""):
        raise Wrong(f"another trace: {traced}")
    wanted = shown(parts, known)
    lines = zip(trace(replay, rows).splitlines(), wanted["bad"], wanted["constraints"])
    if listed != Ended(status, ("".join(" ".join(line) + "\n" for line in lines) + verdict).encode(), b""):
        raise Wrong(f"another trace with properties: {listed}")
    dump = Dump(waved.out)
    if (waved.status, waved.err, dump.times) != (0, b"", list(range(len(rows) + 1))):
        raise Wrong(f"another dump: {waved}")
    if {scope: dump.of(scope) for scope in wanted} != wanted:
        raise Wrong(f"other values in the dump: {waved}")
    return verdict.rstrip("\n 0123456789")


def replays(program, tally, chosen):
    verdicts = []
    each("replays", tally, chosen, lambda rng: verdicts.append(case(program, rng)))
    counted = ", ".join(f"{verdicts.count(word)} {word}" for word in sorted(set(verdicts)))
    return f"cases of seed {chosen.seed}, {counted}: "
