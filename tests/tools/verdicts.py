"""`aig-verdicts` on designs of the tests, whose verdicts, and the lengths and last cycles of runs, are those of
tests/expected/verdicts, whatever the number of workers is. The witnesses are confirmed. Each line that is named has an
assertion, and those of `order.v` fail for the number of their line, so each name is that of its property."""

import os
import re

from library.runs import DESIGNS, EXAMPLES, EXPECTED, Ended, contents
from tools.external import Tools
from tools.table import table

# The designs, and how many properties are worked on at once.
TABLES = {f"{EXAMPLES}/queue.v": 1, f"{EXAMPLES}/decimal.v": 2, f"{DESIGNS}/order.v": 1, f"{DESIGNS}/edges.v": 1,
          f"{DESIGNS}/clocks.v": 1, f"{DESIGNS}/vacuous.v": 2, f"{DESIGNS}/reset.v": 1, f"{DESIGNS}/registers.v": 2,
          f"{DESIGNS}/credit.v": 2, f"{DESIGNS}/hier.v": 2, f"{DESIGNS}/arbiter.v": 1, f"{DESIGNS}/fifo.v": 2,
          f"{DESIGNS}/unwritten.v": 4, f"{DESIGNS}/delayed.v": 3, f"{DESIGNS}/lock.v": 2, f"{DESIGNS}/mutex.v": 1,
          f"{DESIGNS}/pipe.v": 1}


def verdicts(program, tally, _):
    Tools()
    for file, jobs in TABLES.items():
        of_design(program, tally, file, jobs)
    names_of_order(tally)
    bounds(program, tally)


def asked(program, file, out, *more):
    """The table of a design, whose folder is `out`."""
    return table(program, file, "--top", top_of(file), "--out", out, *more)


def top_of(file):
    return os.path.basename(file).removesuffix(".v")


def of_design(program, tally, file, jobs):
    name = top_of(file)
    found = asked(program, file, name, "--jobs", str(jobs))
    tally.compare(f"verdicts: {name}", found.short, contents(f"{EXPECTED}/verdicts/{name}.txt").decode())
    lines = contents(file).decode().splitlines()
    for row in found.rows:
        place = re.search(r"\.v:(\d+)$", row.name)
        if place:
            tally.check(f"verdicts: {row.name}", "assert" in lines[int(place[1]) - 1], lines[int(place[1]) - 1])
        for witness in (file for file in row.files if file.endswith(".wit")):
            tally.compare(f"verdicts: {name}, {witness}", program.run("check", f"{name}/circuit.aig",
                                                                      f"{name}/{witness}"),
                          Ended(0, b"confirmed\n", b""))


def names_of_order(tally):
    """Each assertion of `order.v` fails for one value of the input, the number of its line."""
    lines = contents("order/circuit.aig").decode("latin-1").splitlines()
    for position, line in (re.match(r"b(\d+) order\.v:(\d+)$", it).groups() for it in lines if it.startswith("b")):
        row = contents(f"order/{position}.wit").decode().split("\n")[3]
        # the clock comes first, and then the bits of the value
        tally.compare(f"verdicts: the name of line {line}", int(row[:0:-1], 2), int(line))


def bounds(program, tally):
    few = asked(program, f"{EXAMPLES}/retimed.v", "few", "--frames", "2", "--seconds", "1")
    tally.compare("verdicts: bounds", few.short, "retimed.v:16  holds within 2\nstatus 4\n")
    without = asked(program, f"{EXAMPLES}/decimal.v", "without", "--frames", "2", "--abc", "")
    tally.compare("verdicts: without ABC", without.short, "never_13  holds within 2\nsame  holds within 2\nstatus 4\n")
    none = asked(program, f"{DESIGNS}/adder.v", "none")
    tally.compare("verdicts: no assertion", (none.status, none.rows), (1, []))
