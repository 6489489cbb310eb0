"""A proof that only deletes clauses which are not there, and names a new variable in each. `refute` keeps the names, in
240 bytes each at most. If it looked for a name among all others, or kept more, the time or the memory would not do."""

import resource

from library.runs import refused, write

SECONDS = 15  # of processor time
NAMES = 300_000
MEMORY = 60_000_000 + 2 * 240 * NAMES  # a table that grows is there twice
FAR = 2_654_435_761  # so names are far apart, and in no order


def own_names(program, tally, _):
    write("circuit", "aag 2 1 1 0 0 1\n2\n4 2\n4\n")
    write("proof", "".join(f"d {at * FAR % 2_000_000_000 + 1000} 0\n" for at in range(NAMES)))
    ended = program.run("refute", "--frames", "2", "circuit", "proof", preexec_fn=limited, timeout=10 * SECONDS)
    tally.compare("deletions that name new variables", ended, refused("proof: no refutation"))


def limited():
    resource.setrlimit(resource.RLIMIT_CPU, (SECONDS, SECONDS))
    resource.setrlimit(resource.RLIMIT_AS, (MEMORY, MEMORY))
