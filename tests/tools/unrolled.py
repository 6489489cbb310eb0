"""Unrolled designs of Yosys: ABC proves each equivalent to what its own `frames` makes. Then each output is taken as a
bad state property under the design's constraints: the first frame whose guarded bad literal ABC finds satisfiable is
the one at which ABC's `bmc3` reaches the bad state."""

import re

from library.plain_reader import in_order, spelled
from library.runs import DESIGNS, write
from tools.external import FORMAL, LOGIC, Tools, parts_of, with_bad

FRAMES = 20


def unrolled(program, tally, _):
    tools = Tools()
    for design in ("adder", "multiplier", "counter", "shift_register", "fifo", "arbiter"):
        outputs(program, tally, tools, design)
    reached = 0
    for design in FORMAL:
        parts = tools.formal_text(design)
        if parts is None:
            tally.check(f"unrolled: yosys {design}", False, tools.last_lines())
            continue
        for place in range(len(parts.outputs)):
            reached += bad_state(program, tally, tools, f"{design}, output {place}", with_bad(parts, place))
    tally.check("unrolled: bad states", reached > 0, "none is reached")
    return f"{reached} outputs reach a bad state within {FRAMES} frames: "


def outputs(program, tally, tools, design):
    """The outputs, frame by frame."""
    if not tools.yosys(f"read_verilog {DESIGNS}/{design}.v; prep -flatten -top {design}; async2sync; memory_map; {LOGIC}; "
                       f"setundef -init -zero; write_aiger {design}.aig"):
        tally.check(f"unrolled: yosys {design}", False, tools.last_lines())
        return
    for frames in (1, 3, 20):
        ended = program.run("unroll", "--frames", str(frames), "--to", "aig", f"{design}.aig")
        write("got.aig", ended.out)
        tally.check(f"unrolled: {design}, {frames} frames", ended.status == 0, ended.err)
        said = tools.abc(f"read_aiger {design}.aig; zero; frames -F {frames} -i; write_aiger wanted.aig; "
                         "cec wanted.aig got.aig")
        is_proved = "Networks are equivalent" in said
        tally.check(f"unrolled: {design}, {frames} frames: equivalent to ABC's", is_proved, tools.last_lines())


def bad_state(program, tally, tools, name, parts):
    """Compares the first frame that reaches the bad state; whether there is one."""
    write("bad.aag", spelled(parts, "aag"))
    write("bad.aig", spelled(in_order(parts), "aig"))
    said = tools.abc(f"read_aiger bad.aig; fold; bmc3 -F {FRAMES} -T 20")
    asserted = re.search(r"was asserted in frame (\d+)\.", said)
    wanted = int(asserted[1]) if asserted else None
    ended = program.run("unroll", "--frames", str(FRAMES), "--to", "aag", "bad.aag")
    write("unrolled.aag", ended.out)
    tally.check(f"unrolled: {name}", ended.status == 0, ended.err)
    got = first_satisfiable(tools, parts_of("unrolled.aag")) if ended.status == 0 else None
    tally.compare(f"unrolled: {name}, the first frame that reaches the bad state, by bmc3", got, wanted)
    return got is not None


def first_satisfiable(tools, parts):
    """The first bad literal that ABC finds satisfiable, alone as an output."""
    for frame, literal in enumerate(parts.bad):
        write("frame.aig", spelled(parts._replace(outputs=[literal], bad=[]), "aig"))
        if re.search(r"(?m)^SATISFIABLE", tools.abc("read_aiger frame.aig; sat")):
            return frame
    return None
