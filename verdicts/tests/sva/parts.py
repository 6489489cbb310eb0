"""The parts of run_sva.py."""

from __future__ import annotations

import collections
import random
import re
import time
from pathlib import Path

from aig_verdicts.sva.translation import Untranslated, has_concurrent, translated

from . import rejections, rows
from .judge import judged, random_properties, random_run, reason

HERE = Path(__file__).resolve().parent
DESIGNS = [HERE.parent / "designs" / "known", HERE.parent.parent.parent / "examples"]
SEED, RUNS = 1, 8
SAMPLE, MANY, TOGETHER = 40, 2000, 40
# A source whose comments say what becomes of its lines.
SOURCE = HERE / "lines.sv"
# Words of a module, what their translation has, and whether there is one clock.
TEXTS = [
    ("x: assert property (@(posedge clk) a |=> b);", r"if \(x_pending\[0\]\) x: assert", True),
    ("x: assert property (@(posedge clk) a |-> b);", r"if \(a\) x: assert", True),
    ("x: assume property (@(posedge clk) a |-> b);", r"always @\(posedge clk\) x: assume", True),
    ("localparam N = 3; x: assert property (@(posedge clk) a |-> ##N b);",
     r"if \(\{N\} != 3\) constant_of_an_assertion_is_not_3 differs \(\);", True),
    ("x: assert property (@(posedge clk) $rose(q) |-> b);", r"\(\$rose\(q\)\)|\|\(\$rose\(q\)\)", True),
    ("x: assert property (@(posedge clk) $rose(y) |-> b);", r"\|\(\$rose\(y\)\)", True),
    ("x: assert property (@(posedge clk) $rose(z) |-> b);", r"x_begun\[0\] \? \$rose\(z\)", True),
    ("x: assert property (@(posedge clk) disable iff (a) b |=> a);", r"if \(\|\(a\)\) x_pending <= 0; else", True),
    ("x: assert property (@(posedge clk) disable iff (a) b |=> a);", r"always @\(posedge clk or posedge x_off_now\)", False),
    ("x: assert property (@(posedge clk) disable iff (a) b |=> a);", r"x_pending\[0\] && !x_off\)", False),
    ("if (1) x: assert property (@(posedge clk) b |=> a);", r"if \(1\) begin reg .* end end\s+endmodule module other", True),
    ("x: restrict property (@(posedge clk) b |=> a);", r"x: assume \(", True),
    ("always @(posedge clk) x: assert property (@(posedge clk) a);", r"always @\(posedge clk\) x: assert\s+\(\s*a\);", True),
]
# A property that grows is rejected in so many seconds of a processor.
MOST_SECONDS = 1.0


def _compared(tally, name, properties, runs):
    for wrong in judged(properties, [random_run(random.Random(seed)) for seed in range(runs)]):
        for line in wrong:
            tally.check(name, False, line)
        for _ in range(len(properties) - len(wrong)):
            tally.check(name, True)


def operators(_, tally, __):
    """Each operator of sequences and properties, in Icarus Verilog beside a plain reading of the standard."""
    _compared(tally, "operators", list(rows.operators()), RUNS)


def first_edges(_, tally, __):
    """Each function of the past at the first edges of a clock, with the x of Icarus Verilog."""
    _compared(tally, "first edges", list(rows.first_edges()), RUNS)


def _random(tally, count, seed):
    why = collections.Counter()
    for number in range(0, count, TOGETHER):
        rng = random.Random(seed * 100_000 + number)
        found = list(random_properties(rng, min(TOGETHER, count - number)))
        why.update(reason(said) for _, said in found if said)
        _compared(tally, "random properties", [it for it, said in found if not said], RUNS)
    return f"{sum(why.values())} rejected while made, "


def sample(_, tally, __):
    """Some random properties, in the same way."""
    return _random(tally, SAMPLE, SEED)


def many(_, tally, chosen):
    """2,000 random properties; --seed N has others."""
    return _random(tally, MANY, chosen.seed)


def said_of(text, read=("x.sv",), more=None):
    """What is rejected of a source; None where it is translated."""
    try:
        translated({"x.sv": text, **(more or {})}, list(read), [])
    except Untranslated as error:
        return str(error)
    return None


def rejected(_, tally, __):
    """What is not understood is rejected by its line and word, and all of it at once."""
    assertions = [(f"x: assert property (@(posedge clk) {words});", said) for words, said in rejections.ROWS]
    both = [*assertions, *rejections.WHOLE]
    for words, said in both:
        got = said_of(f"{rejections.MODULE}{words}\nendmodule\n")
        tally.check(words, got is not None and (said is None or re.sub(r"^x\.sv:[23]: ", "", got) == said), (got, said))
    lines = [words for words, _ in rejections.WHOLE[:5]]
    got = said_of(rejections.MODULE + "\n".join(lines) + "\nendmodule\n") or ""
    tally.compare("all at once", [line.split(":")[1] for line in got.splitlines()], [str(at) for at in range(3, 8)])


def live(_, tally, __):
    """An assertion or a cover that asks for liveness is left out with its line, and the others go on. An assumption is not
    dropped, and what Yosys reads by itself is left to it."""
    for words, said in rejections.LIVE:
        for kind in ("assert", "cover") if "s_" in words else ("assert",):
            text = f"{rejections.MODULE}x:\n{kind} property (@(posedge clk) {words});\ny: assert property (@(posedge clk) a |=> b);\nendmodule\n"
            found = translated({"x.sv": text}, ["x.sv"], [])
            made = found.texts["x.sv"]
            tally.compare(f"live: {kind} {words}", (found.left, "x:" in made, made.count("assert ("), made.count("\n")),
                          (["x.sv:4"], False, 1, text.count("\n")))
        got = said_of(f"{rejections.MODULE}assume property (@(posedge clk) {words});\nendmodule\n")
        tally.check(f"live: assume {words}", (got or "").endswith(said), got)
    branch = f"{rejections.MODULE}if (1) assert property (@(posedge clk) s_always a); else assert property (@(posedge clk) a |=> b);\nendmodule\n"
    made = translated({"x.sv": branch}, ["x.sv"], []).texts["x.sv"]
    tally.check("live: a branch stays one", "if (1) begin end" in " ".join(made.split()), made)
    for words in ("assert property (s_eventually b);", "always @(posedge clk) assert property (eventually b);"):
        text = f"{rejections.MODULE}{words}\ny: assert property (@(posedge clk) a |=> b);\nendmodule\n"
        found = translated({"x.sv": text}, ["x.sv"], [])
        tally.check(f"live: left to Yosys: {words}", words in found.texts["x.sv"] and found.left == [], found)
    got = said_of(f"{rejections.MODULE}assert property (s_eventually a |=> b);\nendmodule\n")
    tally.check("live: more than an expression is not Yosys' own", got is not None, got)


def bounded(_, tally, __):
    """A property that grows without a bound is rejected by its line, within a second of a processor."""
    for words in rejections.GROWING + rejections.LARGE:
        began = time.process_time()
        got = said_of(f"{rejections.MODULE}x: assert property (@(posedge clk) {words});\nendmodule\n")
        seconds = time.process_time() - began
        is_growing = got is not None and got.startswith("x.sv:3: ") and "too many states" in got
        tally.check(words, is_growing if words in rejections.GROWING else got is None, got)
        tally.check(f"{words}: its time", seconds < MOST_SECONDS, f"{seconds:.2f} s")


def copies(_, tally, __):
    """Lines stay where they are, and sources without concurrent assertions stay as they are."""
    for folder in DESIGNS:
        for path in sorted(it for it in folder.iterdir() if it.suffix == ".v"):
            texts = {path.name: path.read_text(encoding="latin-1")}
            if not has_concurrent(texts):
                tally.compare(path.name, translated(texts, [path.name], []).texts, {})
    text = SOURCE.read_text()
    got = translated({"x.sv": text}, ["x.sv"], []).texts["x.sv"].split("\n")
    old = text.split("\n")
    tally.compare("lines", len(got), len(old))
    for at, (line, new) in enumerate(zip(old, got), 1):
        found = re.search(r"// (becomes|stays|goes)(?: (.*))?$", line)
        if found is None or found[1] == "stays":
            tally.compare(f"line {at}", new, line)
        else:
            wanted = r"\s*(//.*)?" if found[1] == "goes" else f".*{found[2] or ''}.*"
            tally.check(f"line {at}", re.fullmatch(wanted, new), new)
    doubled(tally)


def doubled(tally):
    """Macros that use each other twice, and macros with their argument in them several times: a limit ends them."""
    lines = [f"`define X{at} (`X{at - 1} & `X{at - 1})" for at in range(1, 25)]
    twice = "\n".join(["`define X0 a", *lines, "module m(input c, a); assert property (@(posedge c) `X24 |-> a); endmodule"])
    many = ("`define A(x) x x x x x x x x x x\n`define B(x) `A(`A(`A(`A(`A(`A(`A(x)))))))\n"
            "module m(input c, a); assert property (@(posedge c) `B(a) |-> a); endmodule")
    uses = "\n".join(["`define X0 a a", *(it.replace("&", " ") for it in lines[:9]), "`define Y `X9 `X9 `X9 `X9 `X9 `X9", "module m(input c, a);",
                      *["`Y"] * 10000, "assert property (@(posedge c) a |-> a); endmodule"])
    for name, text, wanted in (("twice", twice, "a macro of more than 20,000 words"), ("arguments", many, "a macro of more than 20,000 words"),
                               ("uses", uses, "macros that mean too much text in all")):
        begin, why = time.process_time(), "nothing"
        try:
            translated({"x.sv": text}, ["x.sv"], [])
        except Untranslated as error:
            why = str(error)
        seconds = time.process_time() - begin
        tally.check(f"macros that double: {name}", wanted in why and "x.sv:" in why and seconds < 60, f"{why} {seconds}")


def texts(_, tally, __):
    """What cannot be seen in a run of the translation: conditions, constants that Yosys has to find too, the history of
    signals whose first value is not known, and several clocks."""
    head = "module m(input clk, a, b, output reg q); wire y = q, z = a && b; reg k = 0; always @(posedge clk) q <= a; "
    for words, wanted, is_one_clock in TEXTS:
        source = f"{head} {words} endmodule module other(input i, output reg o); initial o = 0; endmodule\n"
        got = translated({"x.sv": source}, ["x.sv"], [], is_one_clock).texts["x.sv"]
        tally.check(words, re.search(wanted, got), got)
    inner = "module m(input clk, a); x: assert property (@(posedge clk) $rose(a)); endmodule module t(input c); m u(c, c); endmodule"
    got = translated({"x.sv": inner}, ["x.sv"], []).texts["x.sv"]
    tally.check("an input of an instance", "begun" not in got, got)
    bound = "module c(input a); endmodule bind m c u(.*); module m(input a); endmodule"
    got = translated({"x.sv": bound}, ["x.sv"], []).texts["x.sv"]
    tally.compare("bind", got.split(), "module c(input a); endmodule module m(input a); c u (.*); endmodule".split())
