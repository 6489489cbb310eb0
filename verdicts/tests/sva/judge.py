"""The translation of random properties in Icarus Verilog, beside a plain reading of them: at each edge, whether something
has to be said, and whether it may be. Icarus Verilog also says which expressions are true, with x."""

from __future__ import annotations

import random
import re
import shutil
import subprocess
import tempfile
from dataclasses import dataclass
from pathlib import Path
from typing import Dict, Iterator, List, Sequence, Tuple

from aig_verdicts.sva.translation import Untranslated, translated
from aig_verdicts.replay.adapted import Adapted
from library import supervised
from library.runs import LeftOut

from .expressions import CHECKER, INPUTS, Truths, WIDTHS, signals
from .forms import Maker
from .reading import demanded

EDGES = 12
NAMES = ("a", "b", "c", "d", "r")
SECONDS = 120


@dataclass(frozen=True)
class Property:
    """A property in a module of its own; one that is bound is in a checker.

    form      what it means
    words     the same as text
    has_off   whether an input disables it
    declared  the named properties and sequences that its words use
    """

    label: str
    form: Tuple
    words: str
    edge: str = "posedge"
    has_off: bool = False
    is_cover: bool = False
    is_bound: bool = False
    declared: str = ""

    @property
    def text(self) -> str:
        off = "disable iff (r) " if self.has_off else ""
        kind = "cover" if self.is_cover else "assert"
        stated = f"{self.label}: {kind} property (@({self.edge} clk) {off}{self.words});"
        return f"{self.declared} {stated}" if self.declared else stated

    @property
    def source(self) -> str:
        if not self.is_bound:
            return f"module m_{self.label}({INPUTS});\n{signals(self.edge)}\n{self.text}\nendmodule\n"
        ports = ", ".join(f".{it}({it})" for it in ("clk", *WIDTHS))
        return (f"module m_{self.label}({INPUTS});\n{signals(self.edge)}\nendmodule\n"
                f"module c_{self.label}({CHECKER});\n{self.text}\nendmodule\n"
                f"bind m_{self.label} c_{self.label} u ({ports});\n")

    @property
    def expressions(self) -> Iterator[str]:
        return texts_in(self.form)


def texts_in(form: Tuple) -> Iterator[str]:
    """The expressions of a form."""
    if form[0] == "e":
        yield form[1]
    for part in form[1:]:
        if isinstance(part, tuple):
            yield from texts_in(part)


def random_properties(rng: random.Random, count: int) -> Iterator[Tuple[Property, str]]:
    """Properties, and why each is rejected; empty where it is not."""
    taken = 0
    while taken < count:
        is_cover, is_bound = rng.random() < 0.15, rng.random() < 0.2
        maker = Maker(rng, rng.random() < 0.7, is_bound)
        form, words = maker.sequence(3, True) if is_cover else maker.property(2, rng.random() < 0.5)
        edge = rng.choice(["posedge", "posedge", "negedge"])
        it = Property(f"p{taken}", form, words, edge, rng.random() < 0.5, is_cover, is_bound)
        try:
            translated({"x.sv": it.source}, ["x.sv"], [])
        except Untranslated as error:
            yield it, str(error)
            continue
        taken += 1
        yield it, ""


def random_run(rng: random.Random) -> List[Dict[str, int]]:
    """The inputs at each edge."""
    often, off = rng.choice([0.3, 0.5, 0.7, 0.9]), rng.choice([0, 0.05, 0.2])
    return [{**{name: int(rng.random() < (off if name == "r" else often)) for name in NAMES}, "v": rng.randint(0, 3)}
            for _ in range(EDGES)]


class Simulation:
    """Properties and their expressions in one simulation."""

    def __init__(self, properties: Sequence[Property], folder: Path):
        self._properties, self._folder = properties, folder
        self._truths: Dict[Tuple[str, bool], Truths] = {}
        for it in properties:
            truths = self._truths.setdefault((it.edge, it.is_bound), Truths(it.edge, it.is_bound))
            for text in it.expressions:
                truths.take(text)
        source = "".join(it.source for it in properties)
        adapted = Adapted(translated({"x.sv": source}, ["x.sv"], []).texts["x.sv"])
        self._labels = [it.label for it in adapted.checks]
        truths_text = "".join(it.module() for it in self._truths.values())
        (folder / "x.v").write_text(adapted.text + truths_text + self._bench())
        called(["iverilog", "-g2012", "-DAIG_BEFORE='bx", "-s", "tb", "-o", "x.vvp", "x.v"], folder)

    def _bench(self) -> str:
        modules = [f"m_{it.label}" for it in self._properties] + [it.name for it in self._truths.values()]
        instances = "\n".join(f"{it} i_{it}(clk, x[6], x[5], x[4], x[3], x[2], x[1:0]);" for it in modules)
        shows = {edge: " ".join(f"i_{it.name}.show;" for it in self._truths.values() if it.edge == edge)
                 for edge in ("posedge", "negedge")}
        return f"""module tb; reg clk = 0; reg [6:0] w [0:{EDGES - 1}]; reg [6:0] x; integer k; reg [999:0] name;
initial begin if (!$value$plusargs("w=%s", name)) $finish; $readmemb(name, w);
for (k = 0; k < {EDGES}; k = k + 1) begin x = w[k]; #3 $display("edge %0d", k); {shows["posedge"]} #1 clk = 1;
#3 {shows["negedge"]} #1 clk = 0; #2; end $finish; end
{instances}
endmodule
"""

    def wrong(self, run: Sequence[Dict[str, int]]) -> Iterator[str]:
        """What is not as the plain reading demands it, in a run."""
        lines = ["".join(str(it[name]) for name in NAMES) + format(it["v"], "02b") for it in run]
        (self._folder / "w").write_text("\n".join(lines) + "\n")
        tables, said = self._read(called(["vvp", "-n", "x.vvp", "+w=w"], self._folder))
        for it in self._properties:
            table = tables[it.edge, it.is_bound]
            off = [bool(step["r"]) and it.has_off for step in run]
            must, may = demanded(it.form, it.is_cover, off, table)
            got = [at in said.get(it.label, ()) for at in range(EDGES)]
            bad = [at for at in range(EDGES) if must[at] and not got[at] or got[at] and not may[at]]
            if bad:
                inputs = " ".join(f"{name}={''.join(str(step[name]) for step in run)}" for name in (*NAMES, "v"))
                yield f"{it.text} at edge {bad[0]} of {inputs}: {'said' if got[bad[0]] else 'not said'}"

    def _read(self, log: str) -> Tuple[Dict[Tuple[str, bool], List[Dict[str, bool]]], Dict[str, List[int]]]:
        """Which expressions are true at each edge, and at which edges each property says something."""
        tables: Dict[Tuple[str, bool], List[Dict[str, bool]]] = {key: [] for key in self._truths}
        said: Dict[str, List[int]] = {}
        names = {it.name: (key, it) for key, it in self._truths.items()}
        kinds = {it.label: it.is_cover for it in self._properties}
        edge = -1
        for line in log.splitlines():
            words = line.split()
            if words[:1] == ["edge"]:
                edge = int(words[1])
            elif words and words[0] in names:
                key, truths = names[words[0]]
                tables[key].append({text: bit == "1" for text, bit in zip(truths.texts, words[1])})
            elif words[:2] == ["aig", "value"]:
                label = self._labels[int(words[2])]
                if words[3] != ("0" if kinds[label] else "1"):
                    said.setdefault(label, []).append(edge)
        return tables, said


def called(words: Sequence[str], folder: Path) -> str:
    if not shutil.which(words[0]):
        raise LeftOut(f"there is no {words[0]}")
    done = supervised.run(list(words), cwd=folder, stdin=subprocess.DEVNULL, capture_output=True, text=True, timeout=SECONDS)
    if done.returncode:
        raise AssertionError(f"{words[0]}: {done.stdout[-500:]}{done.stderr[-1500:]}")
    return done.stdout


def judged(properties: Sequence[Property], runs: Sequence[Sequence[Dict[str, int]]]) -> Iterator[List[str]]:
    """What is wrong of properties in each of the runs."""
    with tempfile.TemporaryDirectory() as folder:
        simulation = Simulation(properties, Path(folder))
        for run in runs:
            yield list(simulation.wrong(run))


def reason(said: str) -> str:
    """Why something is rejected, without its place."""
    return re.sub(r"^.*?`: ", "", said)
