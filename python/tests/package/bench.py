"""The workbench: edits, queries and replies."""

import aig
from package.common import CHAIN, example, raised


def bench(_, tally, __):
    counter = example("counter.aag")
    with counter.bench(["10"] * 4) as edited:
        tally.compare("values", edited.values(["count[0]", "!count[0]"], range(4)), [[0, 1], [1, 0], [0, 1], [1, 0]])
        error = raised(edited.rewire, 3, 1, 1)
        tally.compare("no gate", (error.number, f"{error}"),
                      (1, "bench: not the literal of a gate (no 1 to the line 'w 3 1 1')"))
        tally.compare("no frame", raised(edited.value, "enable", 4).number, 6)
        tally.compare("no frame of many", raised(edited.values, ["enable"], [3, 4]).number, 6)
        edited.append({"enable": 1, "clear": 1})
        tally.compare("appended", edited.trace().text, counter.simulate(["10"] * 4 + ["11"]).text)
        edited.pop()
        tally.compare("unrolled", aig.Circuit(edited.unroll()).to("aig"), counter.unroll(4).to("aig"))
        tally.compare("a bench, shown", repr(edited), f"<Bench of {counter!r}>")
        edited.reset("count[0]", 1)
        edited.set_output("wrap", 1)
        circuit, kept = edited.save()
        tally.compare("saved rows", kept, ["10"] * 4)
        tally.compare("saved circuit", circuit.simulate(kept)["o4"], "1111")
        tally.compare("the bench after saving", edited.value("count[0]", 0), 1)
        gates = [edited.add_gate("enable", "clear") for _ in range(2)]
        tally.compare("new gates", [gate - 2 * circuit.info()["variables"] for gate in gates], [2, 4])
        edited.set("clear", 0, "x")
        tally.check("x", edited.value(gates[0], 0) is aig.X)
        tally.compare("many lines", len(edited.script(["v 3 6"] * 50_000)), 50_000)
        tally.compare("an unknown line", edited.script(["q", "v 9 6"]), ["bad", "no 6"])
        for line in ("t", " u ", "v 3 6\nv 3 6"):
            tally.check("a line with a long reply", isinstance(raised(edited.script, [line]), ValueError), line)
    some(tally)
    tally.check("a closed bench", isinstance(raised(edited.value, 2, 0), ValueError))
    error = raised(counter.bench, ["1"])
    tally.compare("rejected rows", (error.part, "line 1" in error.explanation), ("stimulus", True))
    toggle = aig.Circuit("aag 1 0 1 1 0\n2 3\n2\n")
    with toggle.bench([""] * 2) as edited:
        edited.append({})
        tally.compare("a circuit without inputs", len(edited.trace()), 3)
    wide = aig.Circuit("aag 100000 100000 0 0 0\n" + "".join(f"{2 * it}\n" for it in range(1, 100_001)))
    tally.compare("100,000 entries", (len(wide.inputs), wide.inputs[-1]), (100_000, "i99999"))
    with wide.bench(["1" * 100_000]) as edited:
        edited.append("0" * 100_000)
        tally.compare("a row longer than a pipe", edited.value(200_000, 1), 0)


def some(tally):
    """An edit is of the input, the frame, the latch and the output that it names."""
    chain = aig.Circuit(CHAIN)
    with chain.bench(["0" * 13] * 13) as edited:
        edited.set("d[12]", 11, 1)
        edited.reset("q[10]", "x")
        edited.set_output("o11", "!d[12]")
        trace = edited.trace()
        tally.compare("an input at a frame", (trace["d[12]"], trace["d[9]"]), ("0" * 11 + "10", "0" * 13))
        tally.compare("a latch", (trace["q[10]"], trace["q[9]"]), ("x" + "0" * 12, "0" * 13))
        tally.compare("an output", (trace["o11"], trace["o9"]), ("1" * 11 + "01", "0" * 13))
