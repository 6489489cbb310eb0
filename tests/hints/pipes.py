"""Proofs with hints of some hundred KB, which tests/hints/drat2lrat.cpp makes, from pipes: whole, and some bytes at a
time. Those that are cut off are rejected where they end."""

from hints.programs import ran
from library.big_proofs import FOLDER
from library.runs import Ended, contents, refused, write
from program.proofs import BLOCK, REFUTED, in_pieces

# So many bytes at a read, and of how many bytes from the beginning on.
PIECES = ((1, 3_000), (7, 20_000), (4_099, None), (BLOCK - 1, None), (BLOCK, None), (BLOCK + 1, None), (1 << 16, None))


def pipes(program, tally, _):
    circuit = f"{FOLDER}/long.aag"
    write("f.cnf", program.run("cnf", "--frames", "1", circuit).out)
    for form, more in (("whole", []), ("trimmed", ["--trim"])):
        done = ran("drat2lrat", *more, "f.cnf", f"{FOLDER}/long.binary.drat", "f.lrat")
        tally.compare(f"pipes: {form}", done, (0, "", ""))
        proof = contents("f.lrat")
        tally.check(f"pipes: {form} is long", len(proof) > 10 * BLOCK, len(proof))
        for source in ("/dev/stdin", "fifo"):
            words = ["refute", "--frames", "1", circuit, source]
            for size, most in PIECES:
                part = proof[:most]
                wanted = REFUTED if most is None else cut_off(part)
                tally.compare(f"pipes: {form}, {size} bytes at a time from {source}",
                              in_pieces(program, words, part, size), wanted)
        for cut in range(len(proof) // 2, len(proof) // 2 + 60):
            part = write("part", proof[:cut])
            ended = program.run("refute", "--frames", "1", circuit, part)
            tally.compare(f"pipes: {form}, cut off at {cut}", ended, cut_off(proof[:cut]))


def cut_off(part):
    """How a right proof ends that is cut off: within a step, or after one."""
    last = part.rpartition(b"\n")[2]
    words = last.split()
    # A minus alone, and a number before a clause or hints, are no step either. A 0 at the end may be the first one.
    is_whole = not words or words[-1] == b"0" and (words[1:2] == [b"d"] or words.count(b"0") == 2)
    return refused("proof: no refutation") if is_whole else refused(f"proof: text at {len(part)}")
