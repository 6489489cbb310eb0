"""The page: one HTML file without script, network or fonts of its own. Each text of a design goes through `escape`."""

from __future__ import annotations

from dataclasses import dataclass, field
from typing import Any, Callable, Dict, List, Mapping, Optional, Sequence

import aig

from aig.program import OftenRead
from ..audit.decisions import MEANINGS, UNREAD, Judged
from .needs import STYLE as NEEDS, Proofs, section
from ..audit.row import Row
from aig.waves.concrete import comes_back
from .sections import Pictures, Sections, Sources, anchor, place, size, verdict
from ..audit.sentences import GROUPS, NOT_LOOKED_AT, NOT_PROVED, NOT_SIMULATED, PROVED, UNPROVED, counted, is_proved
from ..audit.sentences import of_assumptions, of_needs
from ..audit.simulated import of_facts
from .style import STYLE
from ..audit.table import Table
from aig.letters import escape, marked
from aig.waves.svg import MOST_NAME, STYLE as WAVE, shortened

_LEGEND = ("Thick lines are the values that suffice for it, and hatched boxes are x: any value will do. Numbers are "
           "hexadecimal. Pale digits are x too, values that it does not need:")
# What the groups whose rows have waveforms say of these, and of the pale digits: of runs whose values the folder has,
# and of others.
LEGENDS = {"fails": ("In its waveform a frame is a clock.", _LEGEND), "reached": (_LEGEND,)}
SOLVERS, ZEROS = "they are those of the run that was found.", "they are those of the run with 0 for each x."
# The groups that fold if they have more than three rows.
FOLDED = ("holds", "reached")
POLICY = "default-src 'none'; style-src 'unsafe-inline'; base-uri 'none'; form-action 'none'"


@dataclass(frozen=True)
class Results:
    """What a folder of results has.

    manifest  what MANIFEST.json says
    rows      its rows, with their verdicts
    read      the bytes of one of its files
    seconds   how long the search for each row took, by position, if that is known
    """

    manifest: Dict[str, Any]
    rows: Sequence[Row]
    read: Callable[[str], bytes]
    seconds: Mapping[int, float] = field(default_factory=dict)


class Page:
    """The page of results.

    table       what their rows mean
    unfinished  whether a search was stopped, or goes on
    pictures    those of earlier pages of the same circuit, to which this page adds its own
    """

    def __init__(self, results: Results, table: Table, unfinished: bool = False,
                 pictures: Optional[Pictures] = None):
        self.manifest, self.rows, self.read = results.manifest, results.rows, results.read
        self.seconds, self.unfinished, self.pictures = results.seconds, unfinished, pictures
        groups = list(GROUPS)
        self.summary, self.unread = table.summary, table.unread
        shown = [it for it in table if it.result in groups]  # the summary alone counts what was left out
        self.proofs = Proofs.of(table)
        self.table = sorted(shown, key=lambda it: (groups.index(it.result), not it.doubt))
        self.circuit = aig.Circuit(OftenRead(self.read("circuit.aig")))
        self.facts = self.circuit.info()
        self.sources = Sources(self.read)

    def html(self) -> str:
        name = escape(self.manifest["name"])
        return ("<!DOCTYPE html>\n<html lang=en><head><meta charset=utf-8>"
                '<meta name=viewport content="width=device-width,initial-scale=1">'
                f'<meta http-equiv=Content-Security-Policy content="{POLICY}">'
                f"<title>{name}: verdicts</title><style>{STYLE}{WAVE}{NEEDS if self.proofs.known else ''}</style></head><body>"
                 f"<h1>{name}</h1><p class=sub>{escape(self.summary)}.</p>"
                 f"{self._chips()}{self._notes()}{self._design()}{self._simulated()}{self._overview()}"
                f"{self._groups()}{self._unread()}{self._unneeded()}{self._believe()}"
                f"{self._programs()}</body></html>\n")

    # -- the top

    def _chips(self) -> str:
        counts: Dict[str, int] = {}
        for it in self.table:
            counts[it.result] = counts.get(it.result, 0) + 1
        chips = (f'<li class="{MEANINGS[key].look}"><a href="#{key}"><b>{MEANINGS[key].mark} {counts[key]}</b>'
                 f'{group.title.lower()}</a></li>'
                 for key, group in GROUPS.items() if key in counts)
        more = (f'<li class="{UNREAD.look}"><a href="#unread"><b>{UNREAD.mark} {len(self.unread)}</b>{NOT_LOOKED_AT}</a></li>'
                if self.unread else "")
        return f'<ul class="sum">{"".join(chips)}{more}</ul>'

    def _notes(self) -> str:
        notes = [f"<p class=warn><b>Note:</b> {escape(note)}.</p>" for note in self.manifest["notes"]]
        found = "".join(notes[:4])
        if len(notes) > 4:
            found += f"<details><summary>{counted(len(notes) - 4, 'more note')}</summary>{''.join(notes[4:])}</details>"
        if self.unfinished:
            found += ("<p class=warn><b>Unfinished:</b> the run was stopped, or it goes on; rows that are open were not "
                      "searched to the end.</p>")
        return found

    def _design(self) -> str:
        facts = self.facts
        names = {"inputs": "input", "latches": "latch", "gates": "gate", "constraints": "assumption"}
        inputs, latches, gates, assumptions = (counted(facts[key], name) for key, name in names.items())
        said = of_assumptions(self.rows, self._comes_back) if facts["constraints"] else []
        kept = "".join(f" {marked(sentence)}" for sentence in said)
        known = escape(str(self.manifest["sums"].get("circuit.aig", ""))[:16])
        return (f"<p class=sub>Circuit of {inputs}, {latches} and {gates}, {assumptions}.{kept} SHA-256 "
                f'<code>{known}</code>… <a href="#believe">What to believe</a></p>')

    def _simulated(self) -> str:
        """What a simulator says of the circuit."""
        said = of_facts(self.manifest.get("simulated", {}))
        if not self.manifest.get("sources"):
            return ""
        text = said.circuit or NOT_SIMULATED
        is_open = said.agrees is None and bool(said.by)
        return f"<p class={'warn' if is_open or said.agrees is False else 'sub'}>{escape(text)}.</p>"

    def _comes_back(self, row: Row) -> bool:
        return comes_back(self.circuit.file, self.read(row.files["witness"]))

    # -- the table

    def _overview(self) -> str:
        times = "<th class=num>search" if self.seconds else ""
        needs = "<th>needs" if self.proofs.known else ""
        return (f"<table><thead><tr><th>verdict<th>assertion or cover<th>shown by{needs}<th class=num>files"
                f"{times}</tr></thead><tbody>{''.join(map(self._line, self.table))}</tbody></table>")

    def _line(self, it: Judged) -> str:
        row = it.row
        took = self.seconds.get(row.position)
        time = f"<td class=num>{f'{took:.1f} s' if took is not None else ''}</td>" if self.seconds else ""
        said = " ".join(self.sources.text(row).split())
        text = f"<br><code class=sub>{escape(said[:90])}{'…' if len(said) > 90 else ''}</code>" if said else ""
        where = f" <span class=sub>{escape(place(row))}</span>" if place(row) else ""
        doubts = "".join(f"<br><span class=warn>{escape(part)}</span>" for part in (it.doubt, it.denied) if part)
        sizes = size(sum(len(self.read(name)) for name in row.files.values())) if row.files else ""
        return (f"<tr><td>{verdict(it, it.at)}</td>"
                f'<td class=what><a class=name href="#{anchor(row)}">{escape(shortened(row.name, MOST_NAME))}</a>{where}{text}{doubts}</td>'
                f"<td class=by>{escape(it.way)}</td>{self._needs(it)}<td class=num>{sizes}</td>{time}</tr>")

    def _needs(self, it: Judged) -> str:
        """The column of needs, if some row has one."""
        return f"<td>{of_needs(it.needs) if it.needs is not None else ''}</td>" if self.proofs.known else ""

    def _unneeded(self) -> str:
        return section(self.proofs, self.circuit.file, self.manifest.get("sources", []), self.sources.lines)

    def _unread(self) -> str:
        """The properties of the input that have no verdict."""
        if not self.unread:
            return ""
        lines = "".join(f"<li>{escape(it.said)}</li>" for it in self.unread)
        return f"<h2 id=unread>Not looked at</h2><p class=warn>Nothing is known of these properties of the input.</p><ul>{lines}</ul>"

    # -- the sections

    def _groups(self) -> str:
        sections = Sections(self.circuit, self.sources, self.read, self.pictures)
        found: List[str] = []
        for key, group in GROUPS.items():
            members = [it for it in self.table if it.result == key]
            if members:
                folded = [it for it in members if not it.doubt] if key in FOLDED and len(members) > 3 else []
                body = "".join(sections.section(it) for it in members if it not in folded)
                if folded:
                    rows = "".join(map(sections.section, folded))
                    body += f"<details><summary>{counted(len(folded), 'row')}</summary>{rows}</details>"
                words = " ".join([group.sentence, *_legend(key, [it.row for it in members])])
                found.append(f"<h2 id={key}>{group.title}</h2><p class=sub>{words}</p>{body}")
        return "".join(found)

    def _believe(self) -> str:
        proved = is_proved(str(self.manifest["versions"].get("aig", "")))
        said = f"<p>{marked(PROVED)}</p>" if proved else f"<p class=warn>{marked(UNPROVED)}</p>"
        return f"<h2 id=believe>What to believe</h2>\n{said}\n<p>{marked(NOT_PROVED)}</p>\n"

    def _programs(self) -> str:
        versions = "".join(f"<li><code>{escape(str(it))}</code></li>" for it in self.manifest["versions"].values())
        return f"<details><summary>Programs of this run</summary><ul>{versions}</ul></details>"


def _legend(group: str, rows: Sequence[Row]) -> List[str]:
    """What a group says of its waveforms, if it has some."""
    said = SOLVERS if any("concrete" in row.files for row in rows) else ZEROS
    return [*LEGENDS[group], said] if group in LEGENDS else []
