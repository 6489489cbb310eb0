"""`recheck --yosys`, where the Yosys here is that of the bundle or another one: what it compares, and what it says."""

from __future__ import annotations

import contextlib
import os
from dataclasses import fields, replace
from pathlib import Path

from aig.program import run
from aig_verdicts.compare import again as once_more
from aig_verdicts.reading.design import Assertion, Design
from bundles.common import SMALL_SOLVER, called, kept, manifest_of, tool

SAME, NEWER = "Yosys 0.23 (git sha1 7ce5011c24b)", "Yosys 0.52 (git sha1 fee39a3284c90249e1d9684cf6944ffbbcbb8f90)"
MADE_BY = "; the bundle says that Yosys 0.23 made it, and this is Yosys 0.52"


def made_of(path):
    """The design that the bundle says that it is of."""
    rows = manifest_of(path)["rows"][1:]
    parts = [field.name for field in fields(Assertion)]
    places = [Assertion(*(row.get(part) for part in parts)) for row in rows]
    return Design("every", (path / "circuit.aig").read_bytes(), places)


def moved(design, **by):
    """The design with its last assertion some lines further down."""
    *others, last = design.assertions
    lines = {part: getattr(last, part) + lines for part, lines in by.items()}
    return replace(design, assertions=[*others, replace(last, **lines)])


def named(design, old, new):
    return replace(design, circuit=design.circuit.replace(old, new))


def gated(design, sides):
    """The design as a text whose last gate has other sides."""
    lines = run("toaig", "--to", "aag", files=[design.circuit]).split(b"\n")
    at = sum(map(int, lines[0].split()[2:]))
    lines[at] = b"%d %d %d" % sides(*map(int, lines[at].split()))
    return replace(design, circuit=b"\n".join(lines))


@contextlib.contextmanager
def another_yosys(design, said):
    """A Yosys of this version, which makes this design, and a small solver as cadical."""
    usual, path = once_more.made, os.environ["PATH"]
    tool("yosys", f"echo '{said}'", "path")
    tool("cadical", f'shift; exec {SMALL_SOLVER} "$@"', "path")
    once_more.made, os.environ["PATH"] = (lambda *_, **__: design), f"{Path('path').resolve()}:{path}"
    try:
        yield
    finally:
        once_more.made, os.environ["PATH"] = usual, path


def remaking(_, tally, __):
    """Another Yosys may say that an assertion begins on another line, and make other gates that do the same. Nothing
    else may differ: the message names what differs, and both versions."""
    os.mkdir("path")
    path = kept("every")
    design = made_of(path)
    line = design.assertions[-1].last
    at = f"every.v:{line}-{line} in the bundle"
    another = gated(design, lambda gate, one, two: (gate, one, two ^ 1))
    turned = gated(design, lambda gate, one, two: (gate, two, one))
    equal = ", and Yosys makes a circuit of the sources that does the same"
    for name, said, again, why in (
        ("the same", SAME, design, ""), ("the same by a newer one", NEWER, design, ""),
        ("another first line", SAME, moved(design, first=-1),
         f"b9 is at another place: every.v:{line - 1}-{line}, and {at}"),
        ("another first line by a newer one", NEWER, moved(design, first=-1), ""),
        ("another last line", NEWER, moved(design, last=1),
         f"b9 is at another place: every.v:{line}-{line + 1}, and {at}{MADE_BY}"),
        ("another name of an input", NEWER, named(design, b"i0 a\n", b"i0 b\n"),
         f"its inputs are others, without a and with b{MADE_BY}"),
        ("another name of a register", SAME, named(design, b"l1 n[1]\n", b"l1 m[1]\n"),
         "its registers are others, without n[1] and with m[1]"),
        ("another order", NEWER, named(named(design, b"b8 three", b"b8 two"), b"b9 two", b"b9 three"),
         f"its properties have another order{MADE_BY}"),
        ("other gates", NEWER, another,
         f"its names are the same, and its gates are others; whether it does the same is not known{MADE_BY}"),
        ("gates that do the same", NEWER, turned, equal),
        ("gates that do the same, elsewhere", NEWER, moved(turned, last=1),
         f"b9 is at another place: every.v:{line}-{line + 1}, and {at}{MADE_BY}"),
    ):
        with another_yosys(again, said):
            status, _, err = called("recheck", path, "--yosys")
        tally.compare(f"remaking: {name}", status, 1 if why not in ("", equal) else 5)
        wanted = why or ", and Yosys makes the same circuit of the sources"
        tally.check(f"remaking: {name}: what it says", err.endswith(f"{wanted}\n"), err)
