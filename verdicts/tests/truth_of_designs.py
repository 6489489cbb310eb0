#!/usr/bin/env python3
"""Finds the truth of the designs again by other ways than aig-verdicts: no `aig` is on them, and no pass of Yosys that
optimises. A design with an x is read with FREE, where each x is an input.

Yosys' `proc`, `memory_map`, `techmap` and `aigmap` alone make gates, and ABC's bmc3 and pdr answer. It takes some minutes.

usage: truth_of_designs.py [NAME ..]: it prints each row that truth.py does not have so, and a count"""

import os
import re
import shutil
import subprocess
import sys
import tempfile
from collections import Counter
from pathlib import Path

import paths  # noqa: F401
from designs.truth import DESIGNS
from library import supervised

FRAMES, SECONDS = 60, 120
CHECK = re.compile(r"\b(assert|cover)( property)? \((.*)\);")


def called(folder, *words, text=None):
    try:
        return supervised.run(words, input=text, capture_output=True, text=True, cwd=folder, timeout=SECONDS, check=False)
    except subprocess.TimeoutExpired:
        return subprocess.CompletedProcess(words, 1, "", "time")


def sources(design, folder, is_condition):
    """The sources with an assertion in place of each cover. For the conditions no assertion is ever true."""
    def asserted(match):
        text = match[3] if match[1] == "assert" else f"!({match[3]})"
        return f"assert{match[2] or ''} ({'0' if is_condition else text});"

    base = Path(os.path.commonpath([path.parent for path in design.paths] + list(design.search)))
    if design.search:
        shutil.copytree(base, Path(folder, base.name))
    paths = []
    for path in design.paths:
        paths.append(Path(folder, base.name, path.relative_to(base)))
        paths[-1].parent.mkdir(parents=True, exist_ok=True)
        paths[-1].write_text(CHECK.sub(asserted, path.read_text()))
    return " ".join(map(str, paths))


def script(design, paths):
    """A flat module of words, for one clock or for several."""
    defines = " ".join(f"-D{it}" for it in (*design.defines, "FREE"))
    folders = " ".join(f"-I{it}" for it in design.search)
    early = "chformal -assume -early;" if design.one_clock else ""
    clock = "async2sync" if design.one_clock else "clk2fflogic"
    return f"""read_verilog -sv -formal {defines} {folders} {paths}; hierarchy -check -top {design.name}; proc; flatten;
               chformal -live -fair -remove; memory_collect; {early} {clock}; memory_map -formal; """


class Gates:
    """A design as gates."""

    def __init__(self, design, folder, is_condition=False):
        done = called(folder, "yosys", "-q", "-p", script(design, sources(design, folder, is_condition)) + f"""
            dffunmap; setundef -undriven -anyseq; techmap; dffunmap; techmap; setundef -undriven -anyseq; aigmap; opt_clean;
            tee -q -o {folder}/order select -list t:$assert; tee -q -o {folder}/cells dump t:$assert; write_aiger -ascii {folder}/made.aag""")
        if done.returncode:
            raise SystemExit(f"{design.name}: {done.stderr}")
        self.names = [line.split("/", 1)[1] for line in Path(folder, "order").read_text().split("\n") if "/" in line]
        self.lines = {number: line for line, number in re.findall(r'src "[^"]*-(\d+)\.\d+"\n  cell \$assert \S*\$(\d+)\n', Path(folder, "cells").read_text())}
        lines = Path(folder, "made.aag").read_text().split("\n")
        self.most, *counts = [int(word) for word in lines[0].split()[1:]]
        counts += [0] * 5
        at = 1
        self.parts = []
        for count in (counts[0], counts[1], counts[2], counts[4], counts[5], counts[3]):
            self.parts.append([[int(word) for word in line.split()] for line in lines[at : at + count]])
            at += count
        self.folder = folder

    def labels(self):
        """The name of each property, by its position: a label after its instances, or the place, numbered where it is one of
        several."""
        found = []
        for number, cell in enumerate(self.names):
            name = cell.replace("$flatten\\", "")
            match = re.fullmatch(r"(?:(.*)\.)?\$assert\$.*?([^/]+):\d+\$(\d+)", name)
            if match:
                name = f"{match[1]}:{match[2]}:{self.lines[match[3]]}" if match[1] else f"{match[2]}:{self.lines[match[3]]}"
            found.append((int(match[3]) if match else 0, number, name))
        counts, seen, labels = Counter(name for _, _, name in found), Counter(), {}
        for _, number, name in sorted(found):
            labels[number] = f"{name}#{seen[name]}" if counts[name] > 1 else name
            seen[name] += 1
        return labels

    def blif(self, number):
        """One property: an output that is 1 where it is bad, and all assumptions were 1 so far."""
        inputs, latches, _, bad, kept, gates = self.parts
        lines = [".model m", ".inputs " + " ".join(f"v{it[0]}" for it in inputs), ".outputs bad", ".names zero"]

        def of(literal):
            return "zero" if literal < 2 else f"v{literal & ~1}"

        def gate(to, left, right):
            lines.append(f".names {of(left)} {of(right)} {to}\n{1 - (left & 1)}{1 - (right & 1)} 1")

        for to, left, right in gates:
            gate(f"v{to}", left, right)
        for latch, following, *start in latches:
            lines.append(f".latch n{latch} v{latch} {2 if start and start[0] == latch else start[0] if start else 0}")
            gate(f"n{latch}", following, following)
        held = "broken"
        lines += [".latch next_broken broken 0", ".names broken held0", "0 1"]
        for k, (constraint,) in enumerate(kept):
            gate(f"c{k}", constraint, constraint)
            lines.append(f".names held{k} c{k} held{k + 1}\n11 1")
        held = f"held{len(kept)}"
        lines.append(f".names {held} next_broken\n0 1")
        gate("is_bad", bad[number][0], bad[number][0])
        lines += [f".names is_bad {held} bad\n11 1", ".end", ""]
        return "\n".join(lines)

    def answer(self, number):
        """`3` for a shortest run of three frames, `holds`, or nothing."""
        Path(self.folder, "m.blif").write_text(self.blif(number))
        read = "read_blif m.blif; undc; strash; "
        said = called(self.folder, "berkeley-abc", "-q", read + f"bmc3 -F {FRAMES} -T 60").stdout
        match = re.search(r"was asserted in frame (\d+)", said)
        if match:
            return int(match[1]) + 1
        said = called(self.folder, "berkeley-abc", "-q", read + "pdr -T 100").stdout
        return "holds" if "Property proved" in said else "?"


def by_abc(design):
    """An answer for each property, by the names of the table. Of equal names the first one of the source comes first."""
    with tempfile.TemporaryDirectory() as folder, tempfile.TemporaryDirectory() as other:
        gates, conditions = Gates(design, folder), Gates(design, other, True)
        labels = gates.labels()
        of_condition = {label: number for number, label in conditions.labels().items()}
        for number, label in labels.items():
            answer = gates.answer(number)
            if answer == "holds" and conditions.answer(of_condition[label]) == "holds":
                answer = "vacuous"
            yield label, answer


def differs(design, name, answer):
    """`never` is what a cover is called whose assertion holds."""
    wanted = design.answers.get(name)
    if wanted == "never" or (wanted == "vacuous" and name in design.by):
        return answer not in ("holds", "vacuous")
    return wanted != answer


if __name__ == "__main__":
    rows = wrong = 0
    for design in DESIGNS:
        if design.by.startswith("abc") and (len(sys.argv) < 2 or design.name in sys.argv[1:]):
            for name, answer in by_abc(design):
                rows += 1
                if differs(design, name, answer):
                    wrong += 1
                    print(f"{design.name}: {name} is {answer}, and truth.py has {design.answers.get(name)}", flush=True)
    print(f"{rows} rows, {wrong} of them otherwise")
    sys.exit(wrong > 0)
