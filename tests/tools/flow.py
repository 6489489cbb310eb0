"""Each command of verdicts/docs/FLOW.md, and then of examples/README.md, in their order and in one folder, prints what
the page shows. verdicts/README.md has the same table of the queue, and GTKWave shows in the page's waveform how the queue overflows."""

import os

from hints.programs import built
from library.runs import EXAMPLES, REPOSITORY, contents
from library.tour import as_shown, room, steps, typed, verdicts_on_path
from tools import viewer
from tools.external import Tools

FIRST = "aig-verdicts run examples/queue.v --out queue"


def flow(program, tally, _):
    Tools()
    typed_page(program, tally)
    viewer.needs(*viewer.TOOLS)
    in_gtkwave(tally)


def typed_page(program, tally):
    room(program, EXAMPLES, "page")
    verdicts_on_path(program)
    os.symlink(built("drat2lrat"), "path/drat2lrat")
    for command, shown in (*steps("verdicts/docs/FLOW.md"), *steps("examples/README.md")):
        tally.compare(f"flow: {command}", as_shown(typed("page", command)), as_shown(shown))
        if command == FIRST:
            table = "".join(f"    {line}\n" for line in shown.splitlines() if line.startswith("b"))
            tally.check("flow: the table of README", table in contents(f"{REPOSITORY}/verdicts/README.md").decode(), table)


def in_gtkwave(tally):
    """The queue takes nine bytes, one more than it has places."""
    frames = contents("page/queue.wit").count(b"\n") - 4
    seen = viewer.shown("page/queue.vcd", frames)
    counted = [int(value, 2) for value in seen.get("latches.count[3:0]", [])]
    tally.compare("flow: the queue in GTKWave takes nine bytes", counted, [0, *range(10)])
