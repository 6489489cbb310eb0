"""Replies of a bench that are none: to a line that the program does not know, and of a program that ends in a line."""

import os

from library import runs
from package.common import example, raised, running


def replies(_, tally, __):
    """An edit that was not done is an error, and a reply without its end is none."""
    counter = example("counter.aag")
    with counter.bench(["10"] * 2) as edited:
        error = raised(edited.set, "clear", "first", 1)
        tally.check("an edit that is no line", isinstance(error, ValueError) and "'s first 1 1'" in str(error), error)
        tally.compare("nothing changed", edited.trace().text, counter.simulate(["10"] * 2).text)
    for name, said, wanted in (("whole", "1\\n", ["1"]), ("half", "1", None), ("none", "", None)):
        runs.write("replies", f"#!/bin/sh\nread line\necho bad\nread line\nprintf '{said}'\n")
        os.chmod("replies", 0o755)
        with running("replies"), counter.bench() as edited:
            found = []
            error = raised(lambda: found.extend(edited.script(["v 0 2"])))
            tally.compare(f"a {name} reply", (found, isinstance(error, RuntimeError)), (wanted or [], wanted is None))
    runs.write("replies", "#!/bin/sh\nread line\necho bad\nread line\necho bad\n")
    with running("replies"), counter.bench() as edited:
        error = raised(edited.pop)
        tally.check("an edit that is not known", isinstance(error, ValueError) and "'-'" in str(error), error)
