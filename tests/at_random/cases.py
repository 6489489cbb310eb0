"""Cases that are made from a seed and a number alone, each in an empty folder, which is kept where the case fails."""

import os
import random
import shutil
import tempfile


class Wrong(Exception):
    """What a run did that it may not do."""


def options(parser):
    parser.add_argument("--count", type=int, default=300, help="how many cases of each part")
    parser.add_argument("--seed", type=int, default=1)
    parser.add_argument("--only", type=int, metavar="CASE", help="one case alone, of those of the seed")


def each(part, tally, chosen, case):
    """Runs the chosen cases, each a function of its random numbers; after ten that failed no more."""
    for number in range(chosen.count) if chosen.only is None else [chosen.only]:
        room = tempfile.mkdtemp(prefix=f"{part}-{chosen.seed}-{number}-")
        os.chdir(room)
        why = ""
        try:
            case(random.Random(f"{chosen.seed} {number}"))
        except Wrong as wrong:
            why = f"{wrong} (its files: {room})"
        os.chdir("/")
        tally.check(f"{part}, seed {chosen.seed}, case {number}", not why, why)
        if not why:
            shutil.rmtree(room)
        elif tally.failed == 10:
            break
