"""The jobs that `aig` and the C++ program do beside each other, and the tables of their times."""

import dataclasses
import statistics

from tables.files import ABC, CHANNELS, MILLION, file_of, missing, resolved
from tables.runs import counted, head, microseconds, milliseconds, row, same, taken

# Inputs, latches and outputs of most circuits.
S = "1000.1000.100"
SHAPES = ("random", "chain", "wide", "shuffled")
FORMS = {"aag": "text", "aig": "binary"}
COLUMNS = ("C++", "aig", "aig / C++", "by medians", "goal")


def tuned_words(words):
    """The arguments of the C++ program for what these ask of `aig`."""
    if words[0] == "toaig":
        return ["to" + words[2], words[3]]
    if words[:2] == ["cnf", "--certificate"]:
        return ["induction", 0, *words[2:]]
    if words[0] == "cnf":
        return ["cnf", words[2], 0, words[3]]
    if words[0] == "refute":
        return ["refute", words[2], words[4], *words[5:]]
    return words


def both(programs, words):
    """The runs of the C++ program and of `aig` with these arguments."""
    return [[programs.get("tuned"), *tuned_words(words)], [programs.get("aig"), *words]]


@dataclasses.dataclass
class Job:
    """The same work of both programs, beside work that is to be taken off, in so many units; and the ratio wished for.
    `beside`: the words of another run, in place of the C++ program's; `tools`: what it needs."""

    name: str
    shape: str
    goal: float
    words: str
    idle: str = ""
    units: int = 1
    unit: str = "ms"
    beside: str = ""
    tools: tuple = ()
    bytes: int = 0

    def runs(self, programs):
        """The runs of the C++ program and of `aig`, and then those whose work is taken off."""
        if self.beside:
            program, words = self.beside.split(" ", 1)
            other = [programs.get("aig") if program == "aig" else program, *resolved(programs, words)]
            if program == ABC:
                other = [ABC, "-q", f"&r -s {file_of(programs, words)}; &w back.aig"]
            return [other, [programs.get("aig"), *resolved(programs, self.words)]]
        return [run for words in (self.words, self.idle) if words for run in both(programs, resolved(programs, words))]

    def net(self, found):
        """What was found of the work alone, of the C++ program and of `aig`."""
        return [found[at] - (found[at + 2] if self.idle else 0) for at in range(2)]

    def measured(self, programs, times):
        """The times of the C++ program and of `aig`: the least ones, and the medians."""
        runs = self.runs(programs)
        if not self.beside:
            self.bytes = same(*runs[:2])
        found = taken(times, *runs)
        return self.net([*map(min, found)]), self.net([*map(statistics.median, found)])

    def shown(self, seconds):
        if self.unit == "ms":
            return milliseconds(seconds)
        if self.unit == "µs":
            return microseconds(seconds / self.units)
        return f"{seconds / (self.bytes if self.unit == 'a byte' else self.units) * 1e9:.2f} ns {self.unit}"


# From a form to another: the ratio meant, and that for circuits out of order.
CONVERSIONS = (("aag", "aag", 1.05, 1.15), ("aag", "aig", 1.0, 1.1), ("aig", "aag", 1.0, 1.15),
               ("aig", "aig", 1.05, 1.1))
ASKED = "bench circuit.random.1000.1000.1000.10000 stimulus.1000.64"
TINY = "bench circuit.random.1.1.1.1 zeros.1.1"
LINES = "sim circuit.random.1000.10.10.10 stimulus.1000"
JOBS = (
    *(Job(f"{FORMS[form]} to {FORMS[to]}", f"made by Yosys, {CHANNELS} channels", goal,
          f"toaig --to {to} {'' if form == 'aig' else 'aag:'}yosys.large", tools=("yosys", ))
      for form, to, goal, _ in CONVERSIONS),
    *(Job(f"{FORMS[form]} to {FORMS[to]}", shape, out_of_order if shape == "shuffled" else goal,
          f"toaig --to {to} {'' if form == 'aag' else 'aig:'}circuit.{shape}.{S}.{MILLION}")
      for form, to, goal, out_of_order in CONVERSIONS for shape in SHAPES),
    *(Job(f"500,000 names, text to {FORMS[to]}", order, goal, f"toaig --to {to} names.{order}.500000")
      for order, goal in (("in_order", 1.35), ("shuffled", 1.6)) for to in FORMS),
    Job("20 MB of comment, text to text", "comment", 1.1, "toaig --to aag comment.20000000"),
    *(Job(f"sim, frames alone, {gates:,} gates", shape, 0.95, f"sim circuit.{shape}.{S}.{gates} stimulus.1000.{frames}",
          f"sim circuit.{shape}.{S}.{gates} stimulus.1000.0", gates * frames, "a gate")
      for gates, frames in ((100_000, 1000), (MILLION, 100)) for shape in SHAPES),
    *(Job("sim, loading 1,000,000 gates", shape, 1.1 if shape == "shuffled" else 1.05,
          f"sim circuit.{shape}.{S}.{MILLION} stimulus.1000.0") for shape in SHAPES),
    Job("sim, lines of 1,000 characters", "random", 0.8, f"{LINES}.50000", f"{LINES}.0", 50_000, "a line"),
    *(Job(name, "random", 1.5, f"sim circuit.random.{inputs}.1.1.1 stimulus.{inputs}.{MILLION}",
          f"sim circuit.random.{inputs}.1.1.1 stimulus.{inputs}.0", MILLION, "a line")
      for inputs, name in ((0, "sim, empty lines"), (1, "sim, lines of 1 character"))),
    Job("bench, `t`", "random", 1.0, f"{ASKED} text.traces.200", f"{ASKED} text.empty", 1, "a byte"),
    Job("bench, `v`", "random", 1.2, f"{ASKED} values.64.12000.{MILLION}", f"{ASKED} text.empty", MILLION, "a line"),
    Job("bench, lines that are no command", "random", 1.3, f"{ASKED} text.wrong.{MILLION}", f"{ASKED} text.empty",
        MILLION, "a line"),
    Job("bench, `+` and `-` of a tiny circuit", "random", 1.3, f"{TINY} text.frames.250000", f"{TINY} text.empty",
        500_000, "a line"),
    Job("cnf, 10 frames of 100,000 gates", "random", 1.2, f"cnf --frames 10 bad:circuit.random.{S}.100000"),
    *(Job("info, beside toaig --to aag", shape, 1.05, f"info circuit.{shape}.{S}.{MILLION}",
          beside=f"aig toaig --to aag circuit.{shape}.{S}.{MILLION}") for shape in ("random", "shuffled")),
    Job("binary to binary, beside ABC", "random, as ABC writes it", 1.0, "toaig --to aig abc.random",
        beside=f"{ABC} abc.random", tools=(ABC, )),
)
# Making a bench: its circuit, and its frames.
MAKING = tuple(
    Job(f"making a bench, {part}", f"{name}, {frames} frames", goal, f"bench {circuit}.{count} text.empty",
        f"bench {circuit}.0 text.empty" if count else "")
    for name, frames, circuit in (
        ("1,000,000 gates, random", 32, f"circuit.random.{S}.{MILLION} zeros.1000"),
        ("998,400 gates, copies of a cipher", 64, f"cipher.1040.16.6 zeros.{1040 * 16}"))
    for part, goal, count in (("load", 1.05, 0), ("frames", 0.95, frames)))


def picked(jobs, chosen):
    """Those of the jobs whose names and shapes hold what was chosen, and whose tools are there."""
    return (job for job in jobs if chosen.jobs in job.name and chosen.shapes in job.shape and not missing(*job.tools))


def measure_jobs(programs, jobs, times):
    for job in jobs:
        (tuned, ours), (tuned_median, our_median) = job.measured(programs, times)
        row(job.name, job.shape, job.shown(tuned), job.shown(ours), f"{ours / tuned:.2f}",
            f"{our_median / tuned_median:.2f}", f"{job.goal:.2f}")


def ratios(programs, chosen):
    jobs = [*picked(JOBS, chosen)]
    if chosen.list:
        print(*(f"{job.name} ({job.shape})" for job in jobs), sep="\n")
        return
    head("Beside the C++ program (processor time).", "job", "shape", *COLUMNS)
    measure_jobs(programs, jobs, chosen.times)


def benches(programs, chosen):
    """Making a bench: its circuit, and its frames."""
    head("Making a bench (processor time).", "job", "load", *COLUMNS)
    measure_jobs(programs, MAKING, chosen.times)


def count(programs, jobs):
    """Rows of the instructions and misses of jobs."""
    for job in jobs:
        cells = []
        for found in zip(*map(counted, job.runs(programs))):
            tuned, ours = job.net(found)
            cells += [f"{tuned / 1e6:,.2f}", f"{ours / 1e6:,.2f}", f"{ours / max(tuned, 1):.2f}"]
        row(job.name, job.shape, *cells)
