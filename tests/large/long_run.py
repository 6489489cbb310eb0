"""A wide circuit and a long script: 524,287 inputs and as many gates, gate p with both right sides input p, one frame
of zeros, and a million edits of the first input. An edit touches one cell; with a pass over all inputs or gates in
each edit, the run would take many minutes. Then a chain of 100,000 gates is appended, each of which is made the
output; with a copy of the circuit or of the row in each edit, that would take as long."""

import resource

from library.runs import Ended, write

INPUTS, EDITS, GATES = 524287, 1_000_000, 100_000
SECONDS = 60  # of processor time


def long_run(program, tally, _):
    lines = [f"aag {2 * INPUTS} {INPUTS} 0 1 {INPUTS}\n", *(f"{2 * at}\n" for at in range(1, INPUTS + 1)), "0\n"]
    lines += [f"{2 * (INPUTS + at)} {2 * at} {2 * at}\n" for at in range(1, INPUTS + 1)]
    write("circuit", "".join(lines))
    write("rows", "0" * INPUTS + "\n")
    first = 2 * (INPUTS + 1)
    script = ["s 0 0 1\ns 0 0 0\n" * (EDITS // 2), f"s 0 0 1\nv 0 {first}\nv 0 {first + 2}\n"]
    last = first
    for gate in range(1, GATES + 1):
        script.append(f"g {last} {last}\no 0 {2 * (2 * INPUTS + gate)}\n")
        last = 2 * (2 * INPUTS + gate)
    write("script", "".join(script) + f"v 0 {last}\ns 0 0 0\nv 0 {last + 1}\n")
    wanted = "ok\n" * (EDITS + 1) + "1\n0\n" + "ok\n" * (2 * GATES) + "1\nok\n1\n"
    ended = program.run("bench", "circuit", "rows", "script", preexec_fn=limited, timeout=10 * SECONDS)
    if ended.status is None or ended.status < 0:
        tally.check("the long run", False, f"it does not end within {SECONDS} seconds")
    else:
        why = f"status {ended.status}, {ended.err[:80]!r}"
        tally.check("the long run", ended == Ended(0, wanted.encode(), b""), why)


def limited():
    resource.setrlimit(resource.RLIMIT_CPU, (SECONDS, SECONDS))
