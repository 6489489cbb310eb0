"""A row by itself: the commands that check it, the names of its files, their folder, and its kind by the symbol of its
property."""

from __future__ import annotations

import contextlib
import os
import shutil
from pathlib import Path

from aig_verdicts.audit.bundle import Bundle, PlainFolder, Wrong, sum_of
from aig_verdicts.audit.properties import properties, symbol
from aig_verdicts.reading.design import read_aiger
from aig_verdicts.audit.folder import BusyFolder, Folder, replaced, script
from aig_verdicts.audit.row import Row, has_constraints, name_of
from believed import believed
from bundles.common import kept, manifest_of, raises, rows_of, write_manifest
from library.runs import EXAMPLES


# The command of each way, and the line that `aig` has to print.
COMMANDS = (
    (believed(Row(12, "assert", "a"), "confirmed", "run", 7, {"witness": "w", "shorter": "s"}),
     [("confirmed", "check --property=12 circuit.aig w"),
      ("unreachable within 6", "refute --frames=6 --property=12 circuit.aig s")]),
    (believed(Row(12, "assert", "a"), "confirmed", "run", 7, {"witness": "w"}),
     [("confirmed", "check --property=12 circuit.aig w")]),
    (believed(Row(12, "cover", "a"), by="induction", frames=7, files={"base": "b", "step": "s"}),
     [("unreachable", "refute --frames=7 --property=12 --step s circuit.aig b")]),
    (believed(Row(12, "assert", "a"), by="certificate", files={"certificate": "c", "proof": "p"}),
     [("unreachable", "refute --property=12 --certificate c circuit.aig p")]),
    (believed(Row(12, "condition", "a"), by="bound", frames=7, files={"base": "b"}),
     [("unreachable within 7", "refute --frames=7 --property=12 circuit.aig b")]),
    (believed(Row(-1, "constraints", ""), by="kept", frames=7, files={"witness": "w"}),
     [("alive", "check --alive --frames=7 circuit.aig w")]),
    (believed(Row(-1, "constraints", ""), by="alive", frames=7, files={"alive": "a"}),
     [("no run of 7 frames", "refute --alive --frames=7 circuit.aig a")]),
    (Row(12, "assert", "a"), []),
)


def commands(_, tally, __):
    """The commands that check a row, and what they have to print."""
    for row, wanted in COMMANDS:
        found = [(line, " ".join(words)) for line, words in row.commands()]
        tally.compare(f"commands: {row.by}", found, wanted)
    for count in (0, 1, 10, 100):
        facts = f"inputs 10\nlatches 20\nconstraints {count}\njustice 0\n".encode()
        tally.compare(f"commands: {count} constraints", has_constraints(facts), count > 0)


def names_of_files(_, tally, __):
    """The one name that a file of a row can have; no other file of the system is read."""
    tally.compare("names of files", [name_of(7, role, has_hints) for role, has_hints in (
        ("witness", False), ("witness", True), ("base", False), ("base", True), ("shorter", True), ("step", True),
        ("certificate", True), ("proof", True))],
        ["7.wit", "7.wit", "7.base.drat", "7.base.lrat", "7.shorter.lrat", "7.step.lrat", "7.cert.aag", "7.cert.lrat"])
    tally.compare("names of files: of the constraints", [name_of(-1, "witness"), name_of(-1, "alive"),
                                                         name_of(-1, "alive", True)],
                  ["alive.wit", "alive.drat", "alive.lrat"])
    Path("outside").write_text("mine")
    path = kept("every")
    (path / "a b").write_text("mine")
    bundle = Bundle(path)
    for name in ("../outside", "/etc/passwd", "sources/../../outside", ".lock", "", "a b", "sources/a/b", "a\n"):
        tally.check(f"names of files: {name!r}", raises(Wrong, bundle.read, name))


def folder_files(_, tally, __):
    """The folder of a run: files whole or not at all, sums, what is removed and what stays, and one run at a time."""
    folder = Folder(Path("made"))
    folder.put("0.wit", b"one")
    folder.put("sources/a.v", b"two")
    sums = {"0.wit": sum_of(b"one"), "sources/a.v": sum_of(b"two")}
    tally.compare("folder: sums", folder.sums, sums)
    tally.compare("folder: whether it has a file", [folder.has(*it) for it in (
        ("0.wit", b"one"), ("0.wit", b"two"), ("0.wit", b"on"), ("1.wit", b"one"))], [True, False, False, False])
    tally.check("folder: no other run", raises(BusyFolder, Folder, Path("made")))
    names = ("1.wit", "1.base.drat", "1.base.lrat", "1.cert.aag", ".x.new", "needed/1.0.cuts", "needed/1.0.wit",
             "needed/notes.txt",
             "notes.txt", "my.aag")
    Path("made/needed").mkdir()
    for name in names:
        Path("made", name).write_text("old")
    folder.clean()
    tally.compare("folder: what is removed", [name for name in names if not Path("made", name).exists()],
                  ["1.wit", "1.base.drat", "1.base.lrat", "1.cert.aag", ".x.new", "needed/1.0.cuts", "needed/1.0.wit"])
    tally.check("folder: what stays", Path("made/0.wit").exists())
    folder.write({"rows": [], "sums": {"old": "1"}})
    tally.compare("folder: the manifest", manifest_of("made"), {"rows": [], "sums": sums})
    folder.remove("0.wit")
    tally.compare("folder: removed", (folder.sums, Path("made/0.wit").exists()),
                  ({"sources/a.v": sums["sources/a.v"]}, False))
    folder.close()
    Folder(Path("made")).close()
    path = Path(shutil.copytree(f"{EXAMPLES}/queue.verdicts", "translated"))
    manifest = manifest_of(path)
    manifest["translated"] = ["queue.v"]
    (path / "translated").mkdir()
    shutil.copy(path / "sources/queue.v", path / "translated/queue.v")
    manifest["sums"]["translated/queue.v"] = ""
    write_manifest(path, manifest)
    with contextlib.closing(Folder(path)) as folder:
        folder.set_aside()
        before = folder.before()
        tally.compare("folder: set aside with its translation", before and before.summed("translated/queue.v"),
                      (path / "sources/queue.v").read_bytes())
    shutil.rmtree(path)
    Path("file").write_text("old")
    try:
        with replaced(Path("file")) as file:
            file.write(b"half")
            raise KeyboardInterrupt
    except KeyboardInterrupt:
        pass
    tally.compare("folder: a write that is stopped", (Path("file").read_text(), sorted(os.listdir("."))),
                  ("old", ["file", "made"]))
    Path("link").symlink_to("file")
    with replaced(Path("link")) as file:
        file.write(b"new")
    tally.compare("folder: a link", (Path("file").read_text(), Path("link").read_text()), ("old", "new"))
    elsewhere(tally)
    rows = [believed(Row(at, "assert", "a"), by="bound", frames=1, files={"base": f"{at}.base.drat"})
            for at in range(60)]
    tally.compare("folder: the script", script(rows).count(b"\ncheck "), 60)


def elsewhere(tally):
    os.mkdir("elsewhere")
    os.mkdir("linked")
    os.symlink(os.path.abspath("elsewhere"), "linked/sources")
    folder = Folder(Path("linked"))
    folder.put("sources/a.v", b"mine")
    folder.close()
    tally.compare("folder: sources that are a link", (os.listdir("elsewhere"), PlainFolder(Path("linked")).read(
        "sources/a.v", 9)), ([], b"mine"))


SYMBOLS = (
    (["a", "if:a", "b", "if:c", "cover:d", "if:d", "if:a"],
     [("assert", "a", None), ("condition", "a", 0), ("assert", "b", None), ("assert", "if:c", None),
      ("cover", "d", None), ("assert", "if:d", None), ("assert", "if:a", None)]),
    (["a", "b", "if:b"], [("assert", "a", None), ("assert", "b", None), ("condition", "b", 1)]),
    (["assert:cover:a", "if:cover:a", "assert:b", "assert:if:c", "assert:assert:d", ""],
     [("assert", "cover:a", None), ("condition", "cover:a", 0), ("assert", "assert:b", None),
      ("assert", "if:c", None), ("assert", "assert:d", None), ("assert", "", None)]),
    (["if:a"], [("assert", "if:a", None)]), (["cover:a", "cover:a"], [("cover", "a", None)] * 2), ([], []),
)


def kinds(_, tally, __):
    """The kind, the name and the assertion of each property, by the symbols of a circuit alone."""
    for symbols, wanted in SYMBOLS:
        tally.compare(f"kinds: {symbols}", properties(symbols), wanted)
    for kind, name, wanted in (("assert", "a", "a"), ("assert", "cover:a", "assert:cover:a"), ("cover", "a", "cover:a"),
                               ("assert", "if:a", "assert:if:a"), ("condition", "a", "if:a"),
                               ("assert", "assert:a", "assert:assert:a"), ("assert", "a b", "a_b"),
                               ("cover", "if:a", "cover:if:a")):
        tally.compare(f"kinds: the symbol of {kind} {name}", symbol(kind, name), wanted)
    Path("two.aag").write_text("aag 1 1 0 0 0 2\n2\n2\n3\nb1 cover:x\n")
    found = [(it.kind, it.name) for it in read_aiger(Path("two.aag")).assertions]
    tally.compare("kinds: a property without a name", found, [("assert", "b0"), ("cover", "x")])
    tally.check("kinds: of a run", rows_of(kept("every"))["back"]["kind"] == "cover")
