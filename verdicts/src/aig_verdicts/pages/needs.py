"""What proofs need, on the page: the chips of a row, what no proof needs, and the sources with a number per line."""

from __future__ import annotations

import re
from typing import Callable, Collection, Dict, Iterable, List, Mapping, NamedTuple, Sequence, Set

from ..audit.decisions import Judged
from ..audit.pieces import Needs, folded, is_own, pieces_of, unneeded
from ..audit.sentences import EVERY, LINES, OTHER_PROOFS, UNNEEDED, counted, of_core
from aig.letters import escape, marked

STYLE = """\
.chip{display:inline-block;border:1px solid var(--line);border-radius:6px;padding:0 6px;margin:1px 4px 1px 0;
background:var(--soft);font:13px ui-monospace,"DejaVu Sans Mono",Menlo,Consolas,monospace;overflow-wrap:anywhere}
.chip.own{color:var(--pale);border-style:dashed}
.chip.every{border:2px solid var(--good);font-weight:600}
pre.core span{border-left:5px solid transparent}pre.core b{display:inline-block;width:3.4em;text-align:right;padding-right:1em}
pre.core .need{border-left-color:var(--good)}pre.core .need b{color:var(--good)}
pre.core .idle{border-left:5px double var(--warn);background:var(--warnbg)}pre.core .idle b{color:var(--warn)}
"""
# The letters of all sources with numbers, and the chips of a list.
MOST_LETTERS, MOST_CHIPS = 1_000_000, 200
_DECLARED = re.compile(r"\b(?:reg|integer|logic|bit)\b(?:\s*signed\b)?(?:\s*\[[^\]]*\])*\s*([^;)]*)")
_NAMES = re.compile(r"([A-Za-z_]\w*)\s*(?:\[[^\]]*\])*\s*(?:=[^,;]*)?(?:,|$)")
_WRITTEN = re.compile(r"([A-Za-z_]\w*)(?:\s*\[[^\]=<]*\])*\s*<=")
_STATED = re.compile(r"\b(?:assert|assume|cover|restrict)\b")
_LABEL = re.compile(r"([A-Za-z_]\w*)\s*:\s*assume\b")


def chips(names: Iterable[str], is_register: bool = True, every: Collection[str] = ()) -> str:
    """Names as chips. Registers that Yosys made for an assertion are pale. What every proof needs has a thick border, also a
    memory of which every proof needs each word."""
    listed = list(names)
    shown = folded(listed) if is_register else listed
    thick = {*every, *(folded(name for name in listed if name in every) if is_register else ())}
    found = [f'<span class="chip{" own" * (is_register and is_own(name))}{" every" * (name in thick)}">{escape(name)}</span>'
             for name in shown[:MOST_CHIPS]]
    return "".join(found) + (f" and {len(shown) - MOST_CHIPS} more" if len(shown) > MOST_CHIPS else "")


def of_row(needs: Needs) -> str:
    """What the proofs of a row need."""
    found = f"<p>{marked(of_core(needs))}</p>"
    every = needs.of_every
    if needs.registers:
        found += f"<p><b>Needs</b> {chips(needs.registers, True, every.registers)}</p>"
        resets = [name for name in needs.registers if name not in needs.resets]
        found += f"<p class=sub>Whatever the resets of these are: {chips(resets)}</p>" if resets else ""
    if needs.assumptions:
        found += f"<p><b>Assumes</b> {chips(needs.assumptions, False, every.assumptions)}</p>"
    return found + (f"<p class=sub>{marked(EVERY)}</p>" if needs.every else "")


class Proofs(NamedTuple):
    """The rows of a table whose needs are known, and how many more have a proof."""

    known: List[Judged]
    others: int

    @staticmethod
    def of(table: Iterable[Judged]) -> Proofs:
        known = [it for it in table if it.needs is not None]
        return Proofs(known, sum(it.result in ("holds", "never", "vacuous", "bounded") for it in table) - len(known))

    def unneeded(self, circuit: bytes) -> Needs:
        return unneeded(circuit, [it.needs for it in self.known if it.needs is not None])


def section(proofs: Proofs, circuit: bytes, files: Sequence[str], lines: Callable[[str], List[str]]) -> str:
    """What no proof needs, and the sources with the number of rows that need what a line names."""
    if not proofs.known:
        return ""
    found = proofs.unneeded(circuit)
    said = [UNNEEDED.format(counted(len(proofs.known), "row")), *[OTHER_PROOFS.format(proofs.others)] * (proofs.others > 0)]
    body = f"<p class=sub>{marked(' '.join(said))}</p><p><b>Registers</b> {chips(found.registers) or 'none'}</p>"
    if found.of_any:
        body += f"<p><b>Assumptions</b> {chips(found.assumptions, False) or 'none'}</p>"
    shown = _sources(Counts(proofs, found, pieces_of(circuit).aliases), files, lines)
    more = f"<details><summary>The sources, by line</summary><p class=sub>{marked(LINES)}</p>{shown}</details>" if shown else ""
    return f"<h2 id=unneeded>What no proof needs</h2>{body}{more}"


def _sources(count: Counts, files: Sequence[str], lines: Callable[[str], List[str]]) -> str:
    room, shown = MOST_LETTERS, ""
    for file in files:
        body = "".join(count.line(file, number, text) for number, text in enumerate(lines(file), 1))
        room -= len(body)
        if body and room > 0:
            shown += f'<p class=name>{escape(file)}</p><pre class="src core">{body}</pre>'
    return shown


class Counts:
    """How many rows need what a line of the sources names. `aliases` has all names of registers."""

    def __init__(self, proofs: Proofs, found: Needs, aliases: Mapping[str, Collection[str]]):
        self._aliases = aliases
        self._registers: Dict[str, Set[int]] = {}
        self._assumptions: Dict[str, Set[int]] = {_last(name): set() for name in found.assumptions}
        self._take(found.registers, [])
        for it in proofs.known:
            if it.needs is not None:
                self._take(it.needs.registers, [it.row.position])
                for name in it.needs.assumptions:
                    self._assumptions.setdefault(_last(name), set()).add(it.row.position)

    def _take(self, registers: Iterable[str], rows: Sequence[int]) -> None:
        """Notes that rows need registers, under each of their names."""
        for name in registers:
            for alias in self._aliases.get(name, [name]):
                self._registers.setdefault(_last(alias), set()).update(rows)

    def of(self, file: str, number: int, text: str) -> int:
        """How many rows need what a line names; -1 if it names nothing."""
        code = text.split("//")[0]
        label = _LABEL.search(code)
        assumed = {f"{file}:{number}", label[1] if label else ""} & set(self._assumptions)
        named = {name for name in _registers(code) if name in self._registers}
        if not assumed and not named:
            return -1
        rows = [*(self._assumptions[it] for it in assumed), *(self._registers[it] for it in named)]
        return len(set().union(*rows))

    def line(self, file: str, number: int, text: str) -> str:
        count = self.of(file, number, text)
        css, mark = ("", "") if count < 0 else ("idle", "none") if count == 0 else ("need", str(count))
        shown = escape(text.rstrip("\r")[:200].expandtabs(4)) or " "
        return f'<span class="{css}"><s>{number:>5} </s><b>{mark}</b>{shown}</span>'


def _last(name: str) -> str:
    """A name without its instances, its indices, and the number of one that comes several times. That of an assumption
    without a label is its file and its line."""
    *instances, line = name.split("#")[0].split(":")
    if instances:
        return f"{instances[-1]}:{line}"
    return re.sub(r"(\[\d+\])+$", "", line).split(".")[-1]


def _registers(code: str) -> Set[str]:
    """The names that a line declares or writes, as far as one line shows it."""
    found = set() if _STATED.search(code) else set(_WRITTEN.findall(code))
    for text in _DECLARED.findall(code):
        found |= set(_NAMES.findall(text))
    return found
