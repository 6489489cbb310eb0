"""Without a word the program runs the programs of docs/CALLING.md, makes the calls that no command makes, and marks a
sample of proofs. The gate compares the same lines, of both compilers."""

from library.runs import REPOSITORY, contents

CRATE = REPOSITORY + "/crates/aig_tests"


def calls(program, tally, _):
    ended = program.run(input=contents(f"{CRATE}/stdin"))
    lines, wanted = ended.out.decode().splitlines(), contents(f"{CRATE}/stdout").decode().splitlines()
    tally.compare("calls: how it ends", (ended.status, ended.err, len(lines)), (0, b"", len(wanted)))
    for got, line in zip(lines, wanted):
        tally.compare(f"calls: {line}", got, line)
