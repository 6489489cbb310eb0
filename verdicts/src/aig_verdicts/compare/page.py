"""The page of a difference: one HTML file, with the runs of both versions beside each other."""

from __future__ import annotations

from typing import List

import aig

from .changes import CHANGES, WORDS, Change, Known
from ..audit.decisions import BAD, OPEN
from .difference import Difference, said
from ..pages.page import POLICY
from ..pages.sections import Sections, Sources, anchor, place
from .sides import Side
from ..pages.style import STYLE
from aig.letters import escape
from aig.waves.svg import STYLE as WAVE

_MEANS = {
    "broken": "It fails now, and did not before.",
    "new": "It was not there before.",
    "edited": "Its text was another one, or was elsewhere, so what was known before says nothing of it.",
    "gone": "It was there before. An assertion that is gone fails no more, whatever the design does.",
    "weaker": "Less is known of it than before.",
    "still": "It failed before, too.",
    "mended": "It failed before.",
    "stronger": "More is known of it than before.",
    "same": "As much is known of it as before.",
}
_LOOK = {BAD: "bad", OPEN: "warn"}
# Of these, runs are shown.
_SHOWN = tuple(word for word in CHANGES if word not in ("same", "stronger"))


class DifferencePage:
    """The page of a difference."""

    def __init__(self, found: Difference):
        self._found = found
        self._before, self._now = _sections(found.old), _sections(found.new)

    def html(self) -> str:
        name, found = escape(self._found.new.version.name), self._found
        beside = "".join(f"<p class={_LOOK.get(it.status, 'sub')}><b>Note:</b> {escape(it.said)}.</p>"
                         for it in found.beside)
        return ("<!DOCTYPE html>\n<html lang=en><head><meta charset=utf-8>"
                '<meta name=viewport content="width=device-width,initial-scale=1">'
                f'<meta http-equiv=Content-Security-Policy content="{POLICY}">'
                f"<title>{name}: what changed</title><style>{STYLE}{WAVE}</style></head><body>"
                f"<h1>{name}: what changed</h1><p class=sub>{escape(found.summary)}. Exit status {found.status}.</p>"
                f"<p class=sub>{escape(found.basis)}.</p>{beside}{self._overview()}{self._groups()}</body></html>\n")

    def _overview(self) -> str:
        rows = "".join(map(_line, self._found.changes))
        return ("<table><thead><tr><th>change<th>assertion or cover<th>before<th>now</tr></thead>"
                f"<tbody>{rows}</tbody></table>")

    def _groups(self) -> str:
        parts: List[str] = []
        for word in _SHOWN:
            members = [it for it in self._found.changes if it.word == word]
            if members:
                body = "".join(map(self._section, members))
                parts.append(f"<h2 id={word}>{WORDS.get(word, word).capitalize()}</h2>"
                             f"<p class=sub>{_MEANS[word]}</p>{body}")
        return "".join(parts)

    def _section(self, it: Change) -> str:
        """Both sides of a row: the old one is folded where it does not fail."""
        now = self._now.section(it.after.judged) if it.after and it.after.judged else ""
        was = it.before
        if was is None:
            return now
        if was.judged is None:
            before = f"<p class=sub>Before: {escape(said(was))}.</p>"
        else:  # two sections of one page have no common name
            shown = self._before.section(was.judged).replace(f'id="{anchor(was.row)}"', f'id="{_old(was)}"', 1)
            is_open = " open" * (was.fails or it.after is None)
            before = f"<details{is_open}><summary>Before: {escape(said(was))}</summary>{shown}</details>"
        return now + before


def _sections(side: Side) -> Sections:
    return Sections(aig.Circuit(side.version.circuit), Sources(side.read), side.read)


def _line(it: Change) -> str:
    row = it.here.row
    at = anchor(row) if it.after is not None else _old(it.here)
    name = f'<a class=name href="#{at}">{escape(row.name)}</a>' if it.word in _SHOWN else escape(row.name)
    where = f" <span class=sub>{escape(place(row))}</span>" if place(row) else ""
    return (f'<tr class="{_LOOK.get(it.status, "good")}"><td class=by>{escape(it.said)}</td>'
            f"<td class=what>{name}{where}</td>"
            f"<td>{escape(said(it.before))}</td><td>{escape(said(it.after))}</td></tr>")


def _old(known: Known) -> str:
    """The place of an old row on the page."""
    return f"old-{anchor(known.row)}"
