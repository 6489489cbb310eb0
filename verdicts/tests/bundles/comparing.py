"""Versions of a design beside each other: the word and the status of each change, which row is which, and that no
failure hides. The truth of each row is written by hand."""

from __future__ import annotations

import json
import re
import shutil
import xml.etree.ElementTree as tree
from dataclasses import replace
from pathlib import Path

from aig_verdicts.compare.changes import Beside, Known, Pairs, changes, status_of, summary
from aig_verdicts.audit.checked import Wrong
from aig_verdicts.audit.decisions import Asked, Judge
from aig_verdicts.compare.difference import difference
from aig_verdicts.compare.matching import Lines, Version
from aig_verdicts.audit.row import Row
from aig_verdicts.compare.sides import CHECKED, side_of
from aig_verdicts.audit.table import Table
from believed import believed

from .attempts import ATTEMPTS, HARMLESS
from .common import called, kept, manifest_of, write_manifest

# How a row was decided, by a letter: the verdict, by what, the frames.
FOUND = {
    "F": ("confirmed", "run", 3), "L": ("confirmed", "run", 5), "P": ("unreachable", "induction", 2),
    "I": ("unreachable", "certificate", 0), "B": ("unreachable within 4", "bound", 4),
    "S": ("unreachable within 2", "bound", 2), "U": ("undecided", "", 0), "-": ("left out", "", 0),
}
# The word and the status of an assertion and of a cover, by the letters before and now. V is vacuous, D in doubt, N
# denied by a simulator.
ASSERTS = """
F: F still 0, L still 0, P mended 0, I mended 0, B mended 0, S weaker 4, U weaker 4, - weaker 4, V weaker 4, D weaker 4
L: F still 0, B weaker 4, P mended 0, N weaker 4
P: F broken 5, L broken 5, P same 0, I same 0, B weaker 4, S weaker 4, U weaker 4, - weaker 4, V weaker 4, D weaker 4
P: N weaker 4
B: F broken 5, P stronger 0, B same 0, S weaker 4, U weaker 4, V weaker 4, D stronger 0
S: F broken 5, P stronger 0, B stronger 0, S same 0, U weaker 4
U: F broken 5, P stronger 0, S stronger 0, U same 0, - same 0, V stronger 0, N same 0
V: F broken 5, P stronger 0, B stronger 0, U weaker 4, V same 0, D weaker 4
D: F broken 5, P stronger 0, B weaker 4, D same 0, V weaker 4
N: F broken 5, P stronger 0, N same 0, U same 0
"""
COVERS = """
F: F same 0, L same 0, P broken 5, I broken 5, B weaker 4, U weaker 4, - weaker 4
P: F mended 0, P still 0, I still 0, B weaker 4, U weaker 4
B: F stronger 0, P broken 5, B same 0, S weaker 4, U weaker 4
U: F stronger 0, P broken 5, B stronger 0, U same 0
"""
# The status of a new or edited one alone, and of one that is gone.
NEW = {"F": 5, "L": 5, "P": 0, "I": 0, "B": 4, "U": 4, "-": 4, "V": 4, "D": 4, "N": 4}


def known(letter, kind="assert", position=0, name="name"):
    """What is known of a row."""
    found = {"V": "P", "D": "P", "N": "P"}.get(letter, letter)
    rows = [believed(Row(position, kind, name, "f.v", 1, 2), *FOUND[found])]
    if letter in "VD":
        asked = FOUND["P" if letter == "V" else "U"]
        rows.append(believed(Row(position + 1, "condition", name, of=position), *asked))
    judged = Judge(rows).of(rows[0])
    return Known.of(judged.denied_by("the simulator") if letter == "N" else judged)


def changed(_, tally, __):
    """Each way to a verdict before and now: the word and the status."""
    for kind, text in (("assert", ASSERTS), ("cover", COVERS)):
        for line in text.strip().splitlines():
            before, rest = line.split(": ")
            for now, word, status in (it.split() for it in rest.split(", ")):
                found, = changes([known(before, kind)], [known(now, kind)], Pairs({0: 0}))
                tally.compare(f"changed: {kind}, {before} and {now}", (found.word, found.status), (word, int(status)))
    for letter, status in NEW.items():
        found, = changes([], [known(letter)], Pairs({}))
        tally.compare(f"changed: new, {letter}", (found.word, found.status), ("new", status))
        found, = changes([known(letter)], [], Pairs({}))
        tally.compare(f"changed: gone, {letter}", (found.word, found.status), ("gone", 4))
        for before, least in (("P", 0), ("F", 4)):
            found, = changes([known(before)], [known(letter)], Pairs({0: 0}, frozenset([0])))
            tally.compare(f"changed: edited, {before} and {letter}", (found.word, found.status),
                          ("edited", max(status, least)))
    together(tally)


def together(tally):
    """All rows of both sides are there, the worst first, and the status is the worst one."""
    before = [known(letter, position=2 * at) for at, letter in enumerate("PFPB")]
    after = [known(letter, position=2 * at) for at, letter in enumerate("PFUPP")]
    found = changes(before, after, Pairs({0: 0, 2: 2, 4: 4, 8: 6}))
    tally.compare("changed: the order", [(it.word, it.here.row.position) for it in found],
                  [("weaker", 4), ("new", 6), ("still", 2), ("stronger", 8), ("same", 0)])
    tally.compare("changed: the sentence", summary(found),
                  "1 new, 1 weaker, 1 still fails, 1 stronger, 1 as before")
    tally.compare("changed: the status", (status_of(found, []), status_of(found[1:], []), status_of([], [])), (4, 0, 4))
    tally.compare("changed: what is beside", status_of(found[1:], [Beside("a", 0), Beside("b", 4)]), 4)
    many = [known("P", position=at) for at in range(60)]
    found = changes(many, [*many[:-1], known("F", position=59)], Pairs({at: at for at in range(60)}))
    tally.compare("changed: the last of many", (found[0].word, status_of(found, [])), ("broken", 5))
    for name, pairs, after in (("two rows of one", Pairs({0: 0, 1: 0}), [known("P"), known("P", position=1)]),
                               ("of another kind", Pairs({0: 0}), [known("F", "cover")])):
        tally.check(f"changed: {name}", rejected(lambda: changes([known("P")], after, pairs)))
    tally.check("changed: a failure needs a check", rejected(lambda: Known(Row(0, "assert", "a"), "fails", "fails")))
    tally.check("changed: so does a cover", rejected(lambda: replace(known("P", "cover"), shown=None)))


def rejected(call):
    try:
        call()
    except Wrong:
        return True
    return False


# -- which row is which


def side(source, letters, options=None, more=None):
    """A version by its source: each line with `assert` or `cover` is a row, but for those with `// no row`."""
    sources = {"f.v": source, **(more or {})}
    rows, assumed = [believed(Row(-1, "constraints", ""), "alive", frames=4)], []
    letters = iter(letters.split())
    for file, text in sources.items():
        for number, line in enumerate(text.split("\n"), 1):
            match = re.search(r"(?:([\w.#\[\]]+) *: *)?\b(assert|cover|assume)\b(?!.*// no row)", line)
            name = re.search(r"// is (\S+)", line)
            name = name[1] if name else match and match[1] or f"{file}:{number}"
            if match and match[2] == "assume":
                assumed.append(name)
            elif match:
                row = Row(len(rows) - 1, match[2], name, file, number, number)
                rows.append(believed(row, *FOUND[next(letters)]))
    count = len(rows) - 1
    circuit = "\n".join([f"aag 1 1 0 0 0 {count} {len(assumed)}", "2", *["2"] * (count + len(assumed)),
                         *(f"b{at} {row.name}" for at, row in enumerate(rows[1:])),
                         *(f"c{at} {name}" for at, name in enumerate(assumed)), ""])
    version = Version("f", rows, circuit.encode(), {name: text.encode() for name, text in sources.items()},
                      {"top": "", "defines": [], "conditions": True, **(options or {})})
    return side_of(version, Table.of(rows, circuit.encode(), Asked()), lambda name: version.sources[name.split("/")[-1]])


def found_of(attempt):
    before = side(attempt.old, attempt.before, attempt.old_options, attempt.old_more)
    after = side(attempt.new, attempt.now, attempt.new_options, attempt.new_more)
    return difference(before, after, CHECKED)


def hiding(_, tally, __):
    """A failure that hides from a comparison: each attempt ends with its status, and its row is shown."""
    tally.check("hiding: attempts", len(ATTEMPTS) >= 20, len(ATTEMPTS))
    for attempt in ATTEMPTS:
        found = found_of(attempt)
        tally.compare(f"hiding: {attempt.name}", (found.status, [it.said for it in found.changes]),
                      (attempt.status, attempt.words))
        tally.check(f"hiding: {attempt.name} is shown", found.text() or found.beside)
    for attempt in HARMLESS:
        found = found_of(attempt)
        tally.compare(f"harmless: {attempt.name}", (found.status, [it.said for it in found.changes]),
                      (attempt.status, attempt.words))


def moved(_, tally, __):
    """Where the lines of a text are after an edit."""
    old = b"a\nb\nc\nd\n"
    for name, new, same, edited in (
            ("a line more", b"a\nx\nb\nc\nd\n", {1: 1, 2: 3, 3: 4, 4: 5, 5: 6}, ([], [2])),
            ("a line less", b"a\nc\nd\n", {1: 1, 3: 2, 4: 3, 5: 4}, ([2], [])),
            ("another line", b"a\nB\nc\n  d\n", {1: 1, 3: 3, 4: 4, 5: 5}, ([2], [2])),
            ("two other lines", b"a\nB\nc\nD\n", {1: 1, 3: 3, 5: 5}, ([2, 4], [2, 4])),
            ("all lines", b"x\ny", {}, ([1, 2, 3, 4, 5], [1, 2])),
            ("no line", old, {1: 1, 2: 2, 3: 3, 4: 4, 5: 5}, ([], [])),
            ("the first", b"b\nc\nd\n", {2: 1, 3: 2, 4: 3, 5: 4}, ([1], [])),
            ("the last", b"a\nb\nc\nd\ne", {1: 1, 2: 2, 3: 3, 4: 4}, ([5], [5])),
            ("a line twice", b"a\nb\nb\nc\nd\n", {1: 1, 2: 2, 3: 4, 4: 5, 5: 6}, ([], [3]))):
        lines = Lines(old, new)
        tally.compare(f"moved: {name}", (lines.same, (sorted(lines.old), sorted(lines.new))), (same, edited))


# -- the command


def words_of_others(tally, manifest):
    """A page of a comparison has no note of a bundle, and no sentence of its simulator."""
    said = "Praise of both simulators"
    path = Path(shutil.copytree(kept("every"), "others"))
    for row in manifest["rows"][1:]:
        row["notes"] = [said]
    failing = next(it["position"] for it in manifest["rows"] if it.get("result") == "fails")
    manifest["simulated"] = {"by": said, "circuit": said, "agrees": False, "rows": {str(failing): ["disagrees", said]}}
    write_manifest(path, manifest)
    status, out, err = called("compare", kept("every"), path, "--all", "--page", "others.html", "--junit", "others.xml")
    texts = (out, err, open("others.html", encoding="utf-8").read(), open("others.xml", encoding="utf-8").read())
    tally.check("compares: no words of a bundle", status in (0, 4) and not any(said in it for it in texts), (status, [said in it for it in texts]))
    tally.check("compares: the word of its simulator counts", "disagrees" in out, out)


def compares(_, tally, __):
    """The command: text, JSON, JUnit and the page, of the same bundle, of a changed one, and of ones that lie."""
    one = kept("every")
    status, out, err = called("compare", one, one, "-j", "2")
    rows = [it for it in manifest_of(one)["rows"] if it["kind"] in ("assert", "cover")]
    bad = sum(it["result"] in ("fails", "never reached") for it in rows)
    tally.compare("compares: no change", (status, out.count("\n")), (0, bad))
    tally.check("compares: the last line", err.startswith(f"{bad} still fails, {len(rows) - bad} as before; aig"), err)
    status, out, _ = called("compare", one, one, "--json", "--page", "page.html", "--junit", "junit.xml", "-j", "2")
    made = json.loads(out)
    tally.compare("compares: JSON", (made["status"], sorted({it["change"] for it in made["changes"]})),
                  (0, ["as before", "still fails"]))
    tally.compare("compares: rows of JSON", len(made["changes"]), len(rows))
    suite = tree.parse("junit.xml").getroot()[0]
    tally.compare("compares: JUnit", [suite.get(it) for it in ("tests", "failures", "errors", "skipped")],
                  [str(len(rows)), "0", "0", str(bad)])
    page = open("page.html", encoding="utf-8").read()
    tally.compare("compares: rows of the page", page.count("<tr class="), len(rows))
    words_of_others(tally, manifest_of(one))
    tally.compare("compares: runs of both sides", (page.count("<section id=\"old-"), page.count("<section id=\"b")),
                  (bad, bad))
    tally.check("compares: what the page believes", CHECKED in page)
    fewer(tally, one)
    status, out, _ = called("compare", one, one, "--all", "-j", "2")
    tally.compare("compares: all rows", (status, out.count("\n")), (0, len(rows)))
    status, _, err = called("compare", one, "nothing")
    tally.compare("compares: no bundle", (status, err), (3, "aig-verdicts: there is no bundle nothing\n"))


def fewer(tally, one):
    """A bundle in which the check of a row is left out, and one that lies about a run."""
    manifest = manifest_of(one)
    row = next(it for it in manifest["rows"] if it.get("by") == "induction" and it["kind"] == "assert")
    less = kept("every").rename("less.verdicts")
    kept("every")
    for name in row["files"].values():
        del manifest["sums"][name]
    for part in ("by", "frames", "files", "commands"):
        row.pop(part)
    row.update(verdict="undecided", result="undecided")
    write_manifest(less, manifest, mends_sums=False)
    for sides, wanted, word in (((one, less), 4, "weaker"), ((less, one), 0, "stronger")):
        status, out, _ = called("compare", *sides, "--json", "-j", "2")
        tally.compare(f"compares: the status with JSON, {word}", (status, json.loads(out)["status"]), (wanted, wanted))
        status, out, _ = called("compare", *sides, "-j", "2")
        tally.compare(f"compares: {word}", (status, [line.split()[0] for line in out.splitlines()].count(word)),
                      (wanted, 1))
    manifest = manifest_of(one)
    name = next(it["files"]["witness"] for it in manifest["rows"] if it.get("by") == "run")
    text = (one / name).read_bytes()
    (one / name).write_bytes(text.replace(b"\n1", b"\n0"))
    write_manifest(one, manifest)
    for sides in ((one, less), (less, one)):
        status, _, err = called("compare", *sides, "-j", "2")
        tally.compare(f"compares: a bundle that lies: {err}", status, 1)
    kept("every")
