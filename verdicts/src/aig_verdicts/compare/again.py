"""A circuit once more: that the sources of a bundle are those of the auditor, and that Yosys makes the same circuit of them
again."""

from __future__ import annotations

import tempfile
from enum import Enum
from pathlib import Path
from typing import Sequence

from aig.entries import listed
from ..audit.bundle import Bundle
from ..audit.checked import Wrong, expect
from ..audit.sentences import EQUAL_CIRCUIT, SAME_CIRCUIT
from aig.tools import Stop, ToolFailed, ask, version
from ..reading.design import Design
from .equal import do_the_same
from ..reading.made import made, reading_of
from ..listing import places
from ..reading.sources import Sources
from ..reading.versions import yosys_of

# What is compared by name between two circuits, in this order.
_COMPARED = {"i": "inputs", "o": "outputs", "b": "properties", "c": "constraints", "l": "registers"}


def same_sources(bundle: Bundle, files: Sequence[Path], include: Sequence[Path]) -> None:
    """That the sources in the bundle are those of the auditor."""
    mine, names = Sources(files, include).texts, bundle.manifest["sources"]
    expect(set(names) <= set(mine), f"{places(sorted(set(names) - set(mine)))}: none of your files")
    expect(set(mine) <= set(names), f"{places(sorted(set(mine) - set(names)))}: not in the bundle")
    expect(list(mine) == names, "the bundle has your files in another order, in which their macros may differ")
    other = [name for name in names if mine[name] != bundle.summed(f"sources/{name}")]
    expect(not other, f"{places(other)}: the bundle has another text than your file")


class Remade(Enum):
    """What Yosys makes of the sources again: only `same_design` says one."""

    SAME = SAME_CIRCUIT
    EQUAL = EQUAL_CIRCUIT


def same_design(bundle: Bundle, stop: Stop = Stop()) -> Remade:
    """That Yosys makes the same circuit of the sources again, or one that does the same. Its rows are
    at the same places. Another version of Yosys may say that an assertion begins on another line."""
    with stop.at_once():
        again, circuit = _made_again(bundle, stop), bundle.circuit()
    old, new = (yosys_of(it) for it in (bundle.manifest["versions"].get("yosys", ""), version("yosys", stop)))
    other = "" if old == new else f"; the bundle says that {old} made it, and this is {new}"
    is_same = again.circuit == circuit
    if not is_same and not do_the_same(circuit, again.circuit, stop):
        difference = _difference(circuit, again.circuit, stop)
        raise Wrong(f"Yosys makes another circuit of the sources: {difference}{other}")
    expect(again.name == bundle.manifest["name"],
           f"the top module of the sources is {again.name}, and {bundle.manifest['name']!r} in the bundle")
    bundle.unread = again.unread  # whatever the sender says of the sources
    translated = {name: bundle.summed(f"translated/{name}") for name in bundle.manifest["translated"]}
    expect(again.translated == translated, "the translation of the assertions is another one")
    places = {it.position: it for it in again.assertions}
    for row in bundle.rows[1:]:
        here = places[row.position]
        is_there = (here.kind, here.name, here.file, here.last) == (row.kind, row.name, row.file, row.last)
        expect(is_there and (here.first == row.first or bool(other)),
               f"{row.label} is at another place: {here.file}:{here.first}-{here.last}, and "
               f"{row.file}:{row.first}-{row.last} in the bundle{other}")
    return Remade.SAME if is_same else Remade.EQUAL


def _made_again(bundle: Bundle, stop: Stop) -> Design:
    """What Yosys makes of the sources. The script in the bundle is not run: it could do anything."""
    options = bundle.manifest["options"]
    expect(set(options) - {"free", "parameters", "asserts", "module"} == {"top", "defines", "conditions", "wires"}
           and type(options["top"]) is str and type(options["defines"]) is list
           and all(type(options.get(it, [])) is list for it in ("free", "parameters", "asserts"))
           and type(options.get("module", "")) is str and ("asserts" in options) == ("module" in options)
           and all(type(options[it]) is bool for it in ("conditions", "wires")),
           "the bundle has no sources" if not options else "options of MANIFEST.json")
    with tempfile.TemporaryDirectory(prefix="aig-verdicts-") as folder:
        paths = []
        for name in bundle.manifest["sources"]:
            paths.append(Path(folder, name))
            paths[-1].write_bytes(bundle.summed(f"sources/{name}"))
        asserts = [path for path in paths if path.name in options.get("asserts", [])]
        expect(len(asserts) < len(paths), "the bundle has no sources")
        try:
            return made([path for path in paths if path not in asserts], reading_of(options, asserts=asserts), stop)
        except ToolFailed as error:
            raise ToolFailed(str(error).replace(f"{folder}/", "sources/")) from None


def _difference(old: bytes, new: bytes, stop: Stop) -> str:
    """What differs between the circuit of a bundle and the one of its sources: names first."""
    was, now = (listed(ask(stop, "info", "--names", "--json", files=[it])) for it in (old, new))
    for letter, section in _COMPARED.items():
        names, others = ([it.label for it in entries if it.letter == letter] for entries in (was, now))
        if names != others:
            said = [f"without {name}" for name in sorted({*names} - {*others})[:1]]
            said += [f"with {name}" for name in sorted({*others} - {*names})[:1]]
            return f"its {section} are others, {' and '.join(said)}" if said else f"its {section} have another order"
    return "its names are the same, and its gates are others; whether it does the same is not known"
