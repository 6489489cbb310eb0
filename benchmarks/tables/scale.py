"""What one job of each kind takes by the number of gates, beside the C++ program; and a picture of it."""

import plot as drawing
from library.runs import write
from tables.edits import PLOTTED, Edits
from tables.files import MILLION, kept, missing, resolved
from tables.jobs import S, both
from tables.runs import Run, head, least, milliseconds, row, same

SIZES = (10_000, 100_000, MILLION, 4 * MILLION)
FRAMES = 20
# A ring of latches beside so many gates: its property reads the ring alone.
RING = "ring.64.1000.1000.{size}"
LOADED = f"sim circuit.random.{S}.{{size}} stimulus.1000"
# Jobs by their words, and the words whose time is taken off, in so many units.
WORDS = {
    "reading a circuit": (f"{LOADED}.0", "", 1),
    "a frame": (f"{LOADED}.{FRAMES}", f"{LOADED}.0", FRAMES),
    "the formula of a small cone": (f"cnf --frames {FRAMES} {RING}", "", 1),
}
CHECK = f"refute --frames {FRAMES} --property 0 {RING}"


def proof_of(programs, size):
    """cadical's proof that no run of so many frames breaks the ring."""
    formula, proof = f"ring.{size}.cnf", f"ring.{size}.proof"
    words = resolved(programs, f"cnf --frames {FRAMES} {RING.format(size=size)}")
    kept(formula, lambda part: Run([programs.get("aig"), *words], part))
    return kept(proof, lambda part: Run(["cadical", "-q", formula, part], expected=20))


def jobs(programs):
    """Yields the name of a job, its gates, the runs of both programs, those whose time is taken off, and the units."""
    for name, (words, idle, units) in WORDS.items():
        for size in SIZES:
            texts = [each.format(size=size) for each in (words, idle) if each]
            yield name, size, [run for each in texts for run in both(programs, resolved(programs, each))], units
    for cipher in PLOTTED["sparse"]:
        edits = Edits(programs, cipher, "bits")
        yield "an edit", edits.gates, edits.job("").runs(programs), edits.count
    for size in () if missing("cadical") else SIZES:
        words = f"{CHECK.format(size=size)} {proof_of(programs, size)}"
        yield "checking a proof about it", size, both(programs, resolved(programs, words)), 1


def scale(programs, chosen):
    """What one job of each kind takes by the number of gates."""
    head("One job of each kind by the number of gates (processor time).", "job", "gates", "C++", "aig", "aig / C++")
    ours, theirs = {}, {}
    for name, gates, runs, units in jobs(programs):
        same(*runs[:2])
        found = least(chosen.times, *runs)
        tuned, own = ((found[at] - (found[at + 2] if len(found) > 2 else 0)) / units for at in range(2))
        row(name, f"{gates:,}", *map(milliseconds, (tuned, own)), f"{own / tuned:.2f}")
        ours.setdefault(name, []).append((gates, own))
        theirs.setdefault(f"{name}, C++", []).append((gates, tuned))
    if chosen.svg:
        write(chosen.svg, drawing.drawn({**ours, **theirs}, "gates", "time of one job", paired=True).encode())
