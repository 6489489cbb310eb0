"""From Verilog to a circuit whose properties are known by name, place and kind. Yosys does it; nothing of it is proved."""

from __future__ import annotations

import re
import tempfile
from collections import Counter
from dataclasses import asdict, dataclass, field
from pathlib import Path
from typing import Any, Collection, Dict, Iterable, List, Optional, Sequence, Set, Tuple

from aig.program import run as aig
from aig.entries import listed, readable

from . import findings, left_out, names, script, wiring, yosys
from .text import netlist
from .assertions import Copies, copies
from .labels import AS_BLOCKS
from .misread.rules import used_modules
from .text.lax import ranges_of_words
from aig.waves.ranges import Ranges
from .registers import registers
from ..options import look_at_words
from ..listing import places
from .sources import Sources
from .clocks import timing
from .store import Store, packed, parts_of, unpacked
from ..audit.properties import modules_and_signals, properties, symbol
from ..audit.timing import Timing, of_facts
from aig.tools import Stop, ToolFailed, version
from ..audit.unread import Unread, Why, of_sources
from .versions import untried


@dataclass(frozen=True)
class Assertion:
    """A bad state property.

    kind  `assert`, `cover`, or `condition`: the `if` of the assertion of the same place
    name  its label, or its file and line
    of    for a condition, the position of its assertion
    """

    position: int
    kind: str
    name: str
    file: str = ""
    first: int = 0
    last: int = 0
    of: Optional[int] = None


@dataclass
class Design:
    """A circuit and what its properties are. `translated` has the copies of sources that Yosys read in place of them, and
    `unread` the properties of the sources that have no row. If the circuit was made before, it is that of an earlier run."""

    name: str
    circuit: bytes
    assertions: List[Assertion]
    notes: List[str] = field(default_factory=list)
    sources: Dict[str, bytes] = field(default_factory=dict)
    translated: Dict[str, bytes] = field(default_factory=dict)
    script: str = ""
    options: Dict[str, object] = field(default_factory=dict)
    timing: Optional[Timing] = None
    was_made_before: bool = False
    unread: List[Unread] = field(default_factory=list)

    def kept(self) -> Dict[str, Any]:
        """What Yosys made, to be kept for a later run."""
        return {"name": self.name, "circuit": packed(self.circuit), "assertions": [asdict(it) for it in self.assertions],
                "notes": self.notes, "translated": {name: packed(text) for name, text in self.translated.items()},
                "script": self.script, "timing": self.timing.facts() if self.timing else {},
                "unread": [it.facts() for it in self.unread]}

    @staticmethod
    def of_kept(kept: Dict[str, Any], sources: Dict[str, bytes], options: Dict[str, object]) -> Design:
        """What an earlier run kept, of the same sources and options."""
        translated = {name: unpacked(text) for name, text in kept["translated"].items()}
        return Design(kept["name"], unpacked(kept["circuit"]), [Assertion(**it) for it in kept["assertions"]], kept["notes"],
                      sources, translated, kept["script"], options, of_facts(kept["timing"]), True, of_sources(kept["unread"]))


def read_aiger(path: Path) -> Design:
    circuit = path.read_bytes()
    entries = listed(aig("info", "--names", "--json", files=[circuit]))
    found = properties([readable(it.name) for it in entries if it.letter == "b"])
    assertions = [Assertion(at, kind, name or f"b{at}", of=of) for at, (kind, name, of) in enumerate(found)]
    if not assertions:
        raise ToolFailed("the circuit has no bad state property: aig select --from outputs --to aig makes them of outputs")
    return Design(path.stem, circuit, assertions)


@dataclass(frozen=True)
class Reading:
    """How Yosys reads the sources of a design.

    top         the top module; if it is empty, Yosys finds it
    defines     macros, as NAME or NAME=VALUE
    conditions  whether the `if` around an assertion has a row
    wires       whether named wires are kept for the page
    include     the folders of files that sources include
    free        the modules whose outputs are free values, and signals that are, as `top.u0.count`
    parameters  values of parameters of the top module, as NAME=VALUE
    asserts     the files that are put before the end of `module`
    yosys       the program, which may take so many seconds for each of its runs
    store       where circuits are kept
    """

    top: str = ""
    defines: Sequence[str] = ()
    conditions: bool = True
    wires: bool = True
    include: Sequence[Path] = ()
    free: Sequence[str] = ()
    parameters: Sequence[str] = ()
    asserts: Sequence[Path] = ()
    module: str = ""
    yosys: str = "yosys"
    seconds: float = 600.0
    store: Optional[Store] = None


def read_verilog(sources: Sequence[Path], how: Reading, stop: Stop) -> Design:
    """The circuit of a Verilog design. With a store it is made once."""
    look_at_words(how.top or None, how.defines)
    read = Sources([*sources, *how.asserts], how.include)
    options = _options(read, how)
    if how.store is None:
        return _design(read, options, how, stop)
    parts = parts_of(read.texts, read.read, options, how.yosys, stop)
    kept = how.store.find(parts)
    if kept is not None:
        return Design.of_kept(kept, read.texts, options)
    design = _design(read, options, how, stop)
    how.store.keep(parts, design.kept())
    return design


def _options(read: Sources, how: Reading) -> Dict[str, object]:
    """The options as MANIFEST.json has them. Files of assertions are not read by themselves from now on."""
    options: Dict[str, object] = {"top": how.top, "defines": list(how.defines), "conditions": how.conditions, "wires": how.wires}
    options.update({name: sorted(given) for name, given in (("free", how.free), ("parameters", how.parameters)) if given})
    if how.asserts:
        options.update(asserts=read.apart(how.asserts), module=how.module)
    return options


def _design(read: Sources, options: Dict[str, object], how: Reading, stop: Stop) -> Design:
    """What Yosys makes of the sources."""
    def made_of(found: Copies) -> _Made:
        with tempfile.TemporaryDirectory(prefix="aig-verdicts-") as name:
            folder = Path(name)
            (folder / "sources").mkdir()
            read.write(folder / "sources", found.texts)
            return _Made(folder, read, how, stop, found.left)

    try:
        found = copies(read.texts, read.read, options)
        made = made_of(found)
        if found.depend_on_clocks and not made.timing.is_cycle:
            found = copies(read.texts, read.read, options, False)
            made = made_of(found)
        if found.top and found.top != made.top:
            raise ToolFailed(f"a parameter of {found.top} gets a value, and the top module is {made.top}: name it with --top")
    except ToolFailed as error:
        raise ToolFailed(read.as_written(str(error))) from None
    count = int(dict(line.split(" ", 1) for line in aig("info", files=[made.circuit]).decode().splitlines())["bad"])
    if count != len(made.assertions):
        raise ToolFailed(f"the circuit has {count} properties, and the design {len(made.assertions)}")
    return Design(made.top, made.circuit, made.assertions, made.notes, read.texts, found.texts, made.script, options,
                  made.timing, unread=made.unread)


_PLACE = re.compile(r"^sources/(.*):(\d+)\.\d+-(\d+)\.\d+$")


@dataclass(frozen=True)
class _Check:
    """An assertion, an assumption or a cover: its cell, its kind, and the text of the sources that it comes from."""

    cell: str
    kind: str
    text: str
    file: str
    first: int
    last: int

    @property
    def name(self) -> str:
        """Its label, after the instances that it is in; without one, its file and the line where it ends."""
        label = self.cell.replace("$flatten\\", "")
        if re.search(r"\$(assert|assume|cover|check)\$", label):
            instance = re.sub(r"\$(assert|assume|cover|check)\$.*", "", label).rstrip(".")
            return (f"{instance}:" if instance else "") + f"{self.file}:{self.last}"
        return label

    @property
    def order(self) -> Tuple[str, int, int, str, int]:
        """Assertions come in the order of the sources, and those of a loop in its order."""
        number = re.search(r"\$(\d+)$", self.cell)
        path = re.sub(r"\d+", lambda it: it[0].zfill(9), self.name)
        return self.file, self.last, self.first, path, int(number[1]) if number else 0


def _check(cell: str, value: Dict[str, Any], known: Set[str]) -> _Check:
    """A cell that `flatten` copied has the places of its instances too; `known` has those of all cells of its kind."""
    for part in value["attributes"].get("src", "").split("|"):
        match = _PLACE.match(part)
        if match and part in known:
            return _Check(cell, value["type"][1:], part, match[1], int(match[2]), int(match[3]))
    return _Check(cell, value["type"][1:], "", "", 0, 0)


def _checks(modules: Dict[str, Any], flat: Dict[str, Any], kinds: Collection[str]) -> Dict[str, _Check]:
    """The cells of these kinds in the flat module."""
    known = {value["attributes"].get("src", "") for _, value in netlist.cells(modules) if value["type"] in kinds}
    return {cell: _check(cell, value, known) for cell, value in netlist.cells(flat) if value["type"] in kinds}


def _assumptions(modules: Dict[str, Any], flat: Dict[str, Any], order: Sequence[str]) -> List[str]:
    """The names of the assumptions in the order of the circuit, as those of assertions."""
    found = _checks(modules, flat, ["$assume"])
    return _unique([symbol("assert", found[cell].name) for cell in order])


def _unique(labels: Sequence[str]) -> List[str]:
    """The names, with #0, #1, .. where one comes more than once: `--property` takes each."""
    counts: Dict[str, int] = {}
    for label in labels:
        counts[label] = counts.get(label, 0) + 1
    seen: Dict[str, int] = {}
    result = []
    for label in labels:
        seen[label] = seen.get(label, -1) + 1
        result.append(label if counts[label] == 1 else f"{label}#{seen[label]}")
    return result


class _Made:
    """What Yosys makes of the sources in a folder."""

    unread: List[Unread]

    def __init__(self, folder: Path, read: Sources, how: Reading, stop: Stop, left: Sequence[str]):
        runs = yosys.Yosys(folder, how.yosys, how.seconds, stop)
        first, has_blocks = runs.read_any([f"sources/{name}" for name in read.read], how.top, how.defines)
        blocks = [AS_BLOCKS] * has_blocks
        findings.look_at_sources(runs)
        if how.parameters:
            findings.look_at_instances(runs)
        modules_to_free, signals = modules_and_signals(how.free)
        said = runs.prepare(modules_to_free)
        resets = script.resetting()
        runs.run(resets)
        said += runs.settle()
        flatten = script.flattening()
        runs.run(flatten)
        modules, flat = runs.modules("modules.json"), runs.modules("flat.json")
        findings.look(runs, modules, flat)
        found = _checks(modules, flat, netlist.CHECKS)
        if not found:
            raise ToolFailed("the design has no assertion and no cover")
        self.top = netlist.top_of(modules)
        one_clock = netlist.one_clock(flat)
        self.timing = timing(flat, one_clock)
        directed = runs.direct(flat) + [script.UNDRIVEN] * bool(signals)
        said += runs.free(flat, [left_out.inside(self.top, it) for it in signals]) if signals else []
        may_loop = not one_clock or wiring.may_loop(runs.warnings, flat[self.top])
        second = script.making(one_clock, how.conditions, how.wires, may_loop)
        runs.make(second, flat[netlist.top_of(modules)])
        self.notes = said + findings.notes(runs, modules, flat, one_clock)
        self.script = "\n".join([*blocks, *first, script.PREPARED, *resets, script.SETTLED, *flatten, *directed, *second,
                                 script.NAMED, ""])
        order = runs.cells_in("order")
        self._rows(found, order, netlist.checks(modules, self.top))
        self.notes[:0] = read.left_out()
        self._without_rows(read, found.values(), [*findings.live_places(modules), *left])
        if how.top:  # the assertions of modules that are not below it are not asked for
            used = used_modules(runs.text("read.il"))
            self.unread = [it for it in self.unread if used & {*(read.modules_at(it.file, it.line) or used)}]
        self.notes += [note for note in [untried(version(how.yosys, stop))] if note]
        module, clocked = flat[self.top], runs.modules("clocked.json")
        ports = list(module["ports"])
        assumed = runs.cells_in("assumed")
        of_rows = {cell: str(it.position) for cell, it in zip(self._cells, self.assertions) if it.of is None}
        own = registers(flat, {**of_rows, **{cell: f"assumed_{k}" for k, cell in enumerate(assumed)}})
        hidden = names.hidden_names(runs.text("names"), names.lines_of_x(clocked), names.made_names(clocked, own), own)
        positions = {cell: position for position, cell in enumerate(order)}
        properties = [(positions[cell], symbol(it.kind, it.name)) for cell, it in zip(self._cells, self.assertions)]
        assumptions = _assumptions(modules, flat, assumed)
        ranges = Ranges(module, ranges_of_words(runs.text("tree").splitlines()))
        naming = names.Naming(hidden, ports, properties, assumptions, ranges)
        self.circuit = names.named((folder / "made.aig").read_bytes(), naming)

    def _rows(self, found: Dict[str, _Check], order: Sequence[str], wanted: int) -> None:
        """A row for each assertion and cover, and after an assertion one for its condition, if it has any."""
        in_order = set(order)
        checks = sorted(found.values(), key=lambda it: it.order)
        for check in checks:
            if check.cell not in in_order:
                raise ToolFailed(f"the {check.kind} {check.name} did not reach the circuit")
        if len(checks) != wanted:
            raise ToolFailed(f"the design has {wanted} assertions and covers, and {len(checks)} of them are left")
        self.assertions: List[Assertion] = []
        self._cells: List[str] = []
        for check, label in zip(checks, _unique([it.name for it in checks])):
            at = len(self.assertions)
            self._add(check.cell, Assertion(at, check.kind, label, check.file, check.first, check.last))
            if f"{check.cell}.condition" in in_order:
                self._add(f"{check.cell}.condition", Assertion(at + 1, "condition", label, check.file, check.first, check.last, at))
        for cell in in_order - set(self._cells):
            raise ToolFailed(f"nobody knows what the property {cell} is")

    def _without_rows(self, read: Sources, checks: Iterable[_Check], known: Sequence[str]) -> None:
        """Finds each assertion of the sources that has no row; the known ones ask for liveness. A text that has rows is one
        word."""
        words = Counter(read.checks())
        for last, first, file, _ in sorted({(it.last, it.first, it.file, it.text) for it in checks}):
            at = next(((file, line) for line in range(first, last + 1) if words[file, line] > 0), None)
            if at:
                words[at] -= 1
        left = [Unread(Why.LIVENESS if f"{file}:{line}" in known else Why.ELSEWHERE, file, line)
                for (file, line), count in words.items() for _ in range(count)]
        self.unread = sorted(left, key=lambda it: (it.file, it.line))
        missing = [it.place for it in self.unread if it.why is Why.ELSEWHERE]
        if missing:
            self.notes.insert(0, f"{places(missing)}: no row, for it is in no instance below {self.top}, or under an `if` or `ifdef` that is constant")

    def _add(self, cell: str, assertion: Assertion) -> None:
        self._cells.append(cell)
        self.assertions.append(assertion)
