"""How jobs grow with their size, how much memory they take, and how far they are from what the machine can do."""

import dataclasses

from tables.edits import Edits
from tables.files import MILLION, file_of, resolved
from tables.jobs import ASKED, JOBS, LINES, S, Job, both
from tables.runs import head, least, megabytes, milliseconds, printed, resident, row


@dataclasses.dataclass
class Growing:
    """A job of `{size}` gates, names, bytes or lines. With `cells`, it has so many in all, in `{frames}`."""

    name: str
    words: str
    idle: str = ""
    sizes: tuple = (100_000, MILLION, 4 * MILLION)
    cells: int = 0

    def each(self, programs):
        """Yields each size, how many units there are, and the runs of both programs, then those taken off."""
        for size in self.sizes:
            frames = self.cells // size
            texts = [words.format(size=size, frames=frames) for words in (self.words, self.idle) if words]
            runs = [run for words in texts for run in both(programs, resolved(programs, words))]
            yield size, size * frames or size, runs


GATES = "sim circuit.random." + S + ".{size} stimulus.1000"
BENCH = "bench circuit.random." + S + ".{size} zeros.1000"
GROWING = (
    Growing("text to text, random", f"toaig --to aag circuit.random.{S}.{{size}}"),
    Growing("text to binary, random", f"toaig --to aig circuit.random.{S}.{{size}}"),
    Growing("text to binary, shuffled", f"toaig --to aig circuit.shuffled.{S}.{{size}}"),
    Growing("binary to text, random", f"toaig --to aag aig:circuit.random.{S}.{{size}}"),
    Growing("binary to binary, random", f"toaig --to aig aig:circuit.random.{S}.{{size}}"),
    Growing("names, text to text, a name", "toaig --to aag names.in_order.{size}"),
    Growing("comment, text to text, a byte", "toaig --to aag comment.{size}",
            sizes=(2 * MILLION, 20 * MILLION, 80 * MILLION)),
    Growing("sim, loading, random", GATES + ".0"),
    Growing("sim, loading, shuffled", GATES.replace("random", "shuffled") + ".0"),
    Growing("sim, lines of 1,000 characters, a line", LINES + ".{size}", LINES + ".0", (5_000, 50_000, 200_000)),
    Growing("bench, `v`, a line", ASKED + " values.64.12000.{size}", ASKED + " text.empty"),
    Growing("bench, `t`, a line", ASKED + " text.traces.{size}", ASKED + " text.empty", (20, 200, 800)),
    Growing("sim, a gate of a frame", GATES + ".{frames}", GATES + ".0", cells=2**27),
    Growing("making a bench, a gate of a frame", BENCH + ".{frames} text.empty", BENCH + ".0 text.empty", cells=2**25),
    Growing("new frames (`+`), a gate of a frame", BENCH + ".1 text.wide_frames.{frames}", BENCH + ".1 text.empty",
            cells=2**25),
)
# Jobs whose memory is measured.
RESIDENT = {
    "4,000,000 gates in order, text to text": f"toaig --to aag circuit.random.{S}.{4 * MILLION}",
    "4,000,000 gates out of order, text to binary": f"toaig --to aig circuit.shuffled.{S}.{4 * MILLION}",
    "a bench of 1,000,000 gates and 32 frames": f"bench circuit.random.{S}.{MILLION} zeros.1000.32 text.empty",
    "a bench of `aag 4194303 0 0 0 0` and one frame": "bench text.claims zeros.0.1 text.empty",
    "1,000,000 names, text to text": f"toaig --to aag names.in_order.{MILLION}",
}


def sizes(programs, chosen):
    """How jobs grow with the number of gates, or of names, bytes or lines."""
    head("Growth (processor time, nanoseconds a gate, or what the job names).", "job", "size", "C++", "aig",
         "aig / C++")
    for job in GROWING:
        for size, units, runs in job.each(programs):
            found = least(chosen.times, *runs)
            tuned, ours = (found[at] - (found[at + 2] if job.idle else 0) for at in range(2))
            row(job.name, f"{size:,}", *(f"{time / units * 1e9:.2f}" for time in (tuned, ours)), f"{ours / tuned:.2f}")


def memory(programs, _):
    """The greatest resident sizes."""
    head("Greatest resident size.", "job", "C++", "aig")
    for name, words in RESIDENT.items():
        row(name, *(megabytes(resident(run)) for run in both(programs, resolved(programs, words))))


def limits(programs, chosen):
    """What the machine can do at all, and how far from it each kind of job is."""
    circuit, gates = f"circuit.random.{S}.{MILLION}", MILLION

    def machine_of(word):
        return printed(chosen.times, [programs.get("limits"), file_of(programs, word)])

    def seconds(job):
        return job.measured(programs, chosen.times)[0][1] / job.units

    found = machine_of(circuit)
    head("What the machine can do (processor time).", "what", "nanoseconds")
    for name, number in found.items():
        row(name.replace("_", " "), f"{number:,.2f}")
    head("How far from it each kind of job is.", "job", "limit", "of what", "aig", "aig / limit")
    for name, to, word in (("text to text", "aag", circuit), ("binary to binary", "aig", f"aig:{circuit}")):
        job = Job(name, "random", 1, f"toaig --to {to} {word}")
        # the time of as many new pages as the run has
        pages = resident([programs.get("aig"), *resolved(programs, job.words)]) / 4096 * found["new_page"] * 1e-9
        limit, took = machine_of(word)["read_a_file"] * 1e-9 + pages, seconds(job)
        row(name, milliseconds(limit), "reading the file, and new pages", milliseconds(took), f"{took / limit:.1f}")
    job = next(it for it in JOBS if it.name == f"sim, frames alone, {gates:,} gates")
    limit, took = 12 * found["copy_a_byte"], seconds(job) * 1e9
    row(job.name, f"{limit:.2f} ns a gate", "12 bytes a gate, as copying goes", f"{took:.2f} ns", f"{took / limit:.1f}")
    measured = Edits(programs, (1, 64, 156), "bits")
    (_, took), _ = measured.times(chosen.times)
    took, limit = took / measured.cells() * 1e9, found["miss_that_overlaps"]
    row("an edit, dense, 99,840 gates", f"{limit:.2f} ns an event", "one miss that overlaps with others",
        f"{took:.2f} ns", f"{took / limit:.1f}")
