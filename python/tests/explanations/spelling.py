"""How a proof is spelled, beside the plain readers of tests/library, which random tests compare with the program; and walks
through proofs, beside those that pass no line."""

import itertools
import random
from unittest import mock

from explanations.solvers import KINDS_OF_PROOFS, NEVER, PROOFS
from library import plain_hints, plain_steps
from library.explained import steps
from library.runs import write

ALPHABET = (b"0", b"1", b"d", b"a", b" ", b"\t", b"\n", b"c", b"-", b"\0")
LENGTH = 5
PIECES = (b"0", b"1", b"-1", b"7", b"d", b"24", b"x", b"c", b" ", b" ", b" ", b"\t", b"\n", b"\n", b" 0\n", b" 0\n", b"9 d 3 0\n",
          b"24 2 0 1 0\n", b"c one\n", b"2 3 0\n", b"d 2 3 0\n", b"25 -1 7 0 -3 4 0\n", b"9 d -3 0\n", b"\0", b"\x82\x01")


def spelling(program, tally, _):
    # A file of one `d` ends within a step, however it is read.
    wrong = [text for text in texts() if text != b"d" and steps.spelling_of(text) != plainly(text)]
    tally.compare("spelling: texts that are read in another way", wrong[:5], [])
    edge = b"d " + b"1 " * (plain_steps.BLOCK // 2 - 1)
    for text in (edge + b"\0", edge[:-1] + b"\0", edge + b"0\n"):
        tally.compare(f"spelling: the end of a block, {text[-9:]!r}", steps.spelling_of(text), plainly(text))
    first_block(program, tally)
    walks(tally)


def first_block(program, tally):
    """What shows that a text is in LRAT has to be in the first block: then a hint is wrong, and else the text."""
    write("never", NEVER)
    for count in range(plain_steps.BLOCK // 2 - 6, plain_steps.BLOCK // 2 + 2):
        text = b"9 " + b"1 " * count + b"0 1 0\n"
        said = program.run("refute", "--frames", "1", "never", write("f", text)).err
        wanted = {b"aig: proof: s": steps.HINTED, b"aig: proof: t": steps.TEXT}.get(said[:13])
        tally.compare(f"spelling: {count} literals before the 0", steps.spelling_of(text), wanted)


def texts():
    """All short texts, and the proofs of the rows."""
    for length in range(LENGTH + 1):
        yield from map(b"".join, itertools.product(ALPHABET, repeat=length))
    for _, text, *_ in PROOFS + KINDS_OF_PROOFS:
        yield text if isinstance(text, bytes) else text.encode()
    rng = random.Random(7)
    for _ in range(20000):
        yield b"".join(rng.choice(PIECES) for _ in range(rng.randrange(12)))


def plainly(text):
    """How the plain readers take a proof."""
    if plain_steps.is_binary(text):
        return steps.BINARY
    return steps.HINTED if plain_hints.is_hinted(text) else steps.TEXT


def end_of(walk):
    step = walk.step
    return (walk.is_over, walk.word, walk.at, walk.wanted, step.number, step.is_open,
            (step.at, step.is_deletion, step.own, step.clause, step.greatest) if step.is_open or walk.is_over else None)


def walks(tally):
    """A walk that passes whole lines, or whole binary steps, ends as one that does not."""
    rng = random.Random(8)
    for _ in range(20000):
        text = b"".join(rng.choice(PIECES) for _ in range(rng.randrange(16)))
        goal = rng.choice((steps.Goal(), steps.Goal(byte=rng.randrange(len(text) + 2)), steps.Goal(step=rng.randrange(1, 6))))
        found = end_of(steps.Walk(text, goal))
        with mock.patch.object(steps, "skipped_lines", lambda *_: (0, 0)), \
                mock.patch.object(steps, "skipped_binary", lambda *_: (0, 0)):
            plain = end_of(steps.Walk(text, goal))
        tally.compare(f"spelling: a walk through {text!r} to {goal}", found, plain)
