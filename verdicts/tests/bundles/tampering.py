"""Bundles in which anything was changed are rejected, or say the same."""

from __future__ import annotations

import json
import os
import random
import shutil
from pathlib import Path

from aig_verdicts.audit.decisions import LEAST_KEPT
from aig_verdicts.audit.manifest import FORMAT, FORMULAS, OLDER
from bundles.common import (
    FEW, SMALL_SOLVER, called, forged, judged, kept, manifest_of, row, why_rejected, write_manifest)
from bundles.forgers import FORGERS

TRIED = 8
NOT_READ = ("recheck.sh",)


def bits(_, tally, __):
    """A bit of each file of a bundle is flipped, at each place of the short ones and at some of the long ones, with the
    sums and without. With them, only MANIFEST.json may change unseen, where it changes no row. Without them a changed
    circuit may pass: it is another circuit, of which the same is proved."""
    path = kept("every")
    good = judged(path)
    tally.check("bits: the bundle is right", good is not None)
    chance = random.Random(1)
    for file in sorted(it for it in path.rglob("*") if it.is_file() and it.name not in NOT_READ):
        data = file.read_bytes()
        places = range(len(data)) if len(data) <= TRIED else sorted(chance.sample(range(len(data)), TRIED))
        for place in places:
            wrong = bytearray(data)
            wrong[place] ^= 1 << chance.randrange(8)
            file.write_bytes(bytes(wrong))
            for sums in (True, False):
                said = judged(path, sums)
                may_pass = file.name == "MANIFEST.json" or not sums
                may_change = file.name == "circuit.aig" and not sums
                is_right = said is None or may_pass and (said == good or may_change)
                tally.check(f"bits: {file.name} byte {place}, sums {sums}", is_right, said)
        file.write_bytes(data)


def forgers(_, tally, __):
    """Someone who changes a bundle and mends all sums: rows dropped, told twice, out of order, with the proof or the
    witness of another property, with other kinds, conditions, words, numbers, names and paths. All are rejected, and
    nothing is read or written outside of the bundle."""
    for change, caught_by in FORGERS.items():
        path = kept("every")
        why = forged(path, change)
        tally.check(f"forgers: {change.__name__[1:]}", why is not None and caught_by in why, why)
        status, out, err = called("recheck", path)
        tally.check(f"forgers: {change.__name__[1:]}, status", status == 1 and err.startswith("aig-verdicts: "),
                    (status, out, err))
    path = kept("contradiction")
    manifest = manifest_of(path)
    manifest["rows"][0].update(verdict="alive", by="")
    del manifest["rows"][0]["files"], manifest["sums"]["alive.drat"]
    row(manifest, "fine")["result"] = "holds"
    write_manifest(path, manifest)
    tally.check("forgers: an older bundle needs no run that keeps the assumptions", judged(path) is not None)
    manifest["format"] = FORMAT
    write_manifest(path, manifest)
    tally.check("forgers: a bundle of now does", "no run shows" in why_rejected(path), why_rejected(path))


def older(_, tally, __):
    """A bundle of 0.3.0, whose formulas had other numbers: no row is called wrong, `run` makes the proofs again, and
    `run --since` begins with it. A wrong run is wrong, and so is a proof of a bundle that says it is of now."""
    path = kept("older")
    said = (4, "", "aig-verdicts: b1: made by an older aig: check it with that one, or run again\n")
    tally.compare("older: recheck", called("recheck", path, "-q"), said)
    tally.compare("older: compare", called("compare", path, path)[0], 4)
    words = (FEW, "--abc", "", "--solver", SMALL_SOLVER, "--frames", 6)
    status, _, err = called("run", *words, "--since", path, "--out", "since.verdicts")
    tally.check("older: run --since", status == 0 and "older aig" not in err and "Traceback" not in err, (status, err))
    status, _, err = called("run", *words, "--out", path)
    is_said = "earlier rows have proofs of an older aig, and are searched again" in err
    tally.check("older: run", status == 5 and is_said and "not what it says" not in err, (status, err))
    tally.compare("older: recheck of the new proofs", called("recheck", path, "-q")[0], 5)
    path = kept("older")
    manifest = manifest_of(path)
    manifest["versions"]["formulas"] = FORMULAS
    write_manifest(path, manifest)
    why = why_rejected(path) or ""
    tally.check("older: a bundle of now", why.startswith("b1: aig refute: "), why)
    path = kept("older")
    manifest = manifest_of(path)
    (path / "2.wit").write_text("1\nb2\n000000\n0x\n0x\n0x\n.\n")
    for file in ("0.base.drat", "1.base.drat", "1.step.drat", "2.shorter.drat"):
        (path / file).write_bytes((Path("since.verdicts") / file).read_bytes())
    write_manifest(path, manifest)
    why = why_rejected(path) or ""
    tally.check("older: a wrong run", why.startswith("b2: ") and "older" not in why, why)
    (path / "2.wit").write_text("1\nb2\n00000\n0x\n0x\n0x\n.\n")
    write_manifest(path, manifest)
    why = why_rejected(path) or ""
    tally.check("older: a run that is none", why.startswith("b2: ") and "older" not in why, why)


def alive(_, tally, __):
    """That some run keeps the constraints is a row with a run, which `aig` checks: one that breaks a constraint or is
    too short is rejected, and so is a row without one. A search with more frames finds a longer run."""
    Path("one.aag").write_text("aag 2 2 0 0 0 1 1\n2\n4\n4\n2\n")

    def run(frames):
        return called("run", "one.aag", "--abc", "", "--solver", SMALL_SOLVER, "--frames", frames, "-q")[0]

    tally.compare("alive: status", run(4), 5)
    path = Path("one.verdicts")
    first = manifest_of(path)["rows"][0]
    tally.compare("alive: the row", (first["verdict"], first["frames"], first["files"]),
                  ("alive", LEAST_KEPT, {"witness": "alive.wit"}))
    _, said, err = called("recheck", path)
    tally.check("alive: it is said", said.startswith("constraints  alive\n") and "solver" not in err, (said, err))
    count = LEAST_KEPT + 1  # latches, each of which follows the one before: the last one is 1 after so many frames
    latches = "".join(f"{2 * at + 4} {2 * at + 2}\n" for at in range(count - 1))
    ending = f"aag {count} 0 {count} 0 0 1 1\n2 1\n{latches}0\n{2 * count + 1}\n"
    for name, text, is_told in (("come to an end", ending, True),
                                ("can be kept for ever", ending.replace("\n2 1\n", "\n2 0\n"), False)):
        Path("ends.aag").write_text(text)
        for words in (("run", "ends.aag", "--abc", "", "--solver", SMALL_SOLVER, "--frames", 2),
                      ("recheck", "ends.verdicts")):
            err = called(*words)[2]
            tally.compare(f"alive: they {name}, {words[0]}", "kept for 20 frames; whether for more" in err, is_told)
        page = Path("ends.verdicts/index.html").read_text()
        tally.compare(f"alive: they {name}, on the page", ("for ever is not known" in page, "kept for ever" in page),
                      (is_told, not is_told))
        manifest = manifest_of("ends.verdicts")
        manifest["bounds"]["frames"] = LEAST_KEPT + 10
        write_manifest(Path("ends.verdicts"), manifest)
        status, _, err = called("recheck", "ends.verdicts")
        tally.check(f"alive: they {name}, and more frames were asked", (status, "in doubt: the assumptions are known" in err)
                    == ((4, True) if is_told else (0, False)), (status, err))
    witness = (path / "alive.wit").read_bytes()
    for text, frames, why in ((witness.replace(b"\n1", b"\nx", 3), LEAST_KEPT, "prints 'constraint 0 0'"),
                              (witness, LEAST_KEPT + 1, f"prints 'frames {LEAST_KEPT}'"), (b"", 4, "aig check: witness: text")):
        (path / "alive.wit").write_bytes(text)
        manifest = manifest_of(path)
        manifest["rows"][0]["frames"] = frames
        write_manifest(path, manifest)
        tally.check(f"alive: {why}", why in (why_rejected(path) or ""), why_rejected(path))
        manifest["rows"][0]["frames"] = LEAST_KEPT
        (path / "alive.wit").write_bytes(witness)
        write_manifest(path, manifest)
    for frames, wanted in ((2, 20), (26, 26), (1, 26)):
        run(frames)
        tally.compare(f"alive: {frames} frames", manifest_of(path)["rows"][0]["frames"], wanted)
    manifest = manifest_of(path)
    manifest["rows"][0].update(by="")
    del manifest["rows"][0]["files"], manifest["sums"]["alive.wit"]
    write_manifest(path, manifest)
    tally.check("alive: no run", "no run shows" in (why_rejected(path) or ""), why_rejected(path))
    manifest["format"] = OLDER
    write_manifest(path, manifest)
    status, _, err = called("recheck", path)
    tally.check("alive: an older bundle", status == 5 and "is a solver's word" in err, (status, err))
    Path("holds.aag").write_text("aag 2 2 0 0 0 1 1\n2\n4\n0\n2\n")
    tally.compare("alive: one that holds", called("run", "holds.aag", "--abc", "", "--solver", SMALL_SOLVER, "--frames", 4, "-q")[0], 0)
    path = Path("holds.verdicts")
    manifest = manifest_of(path)
    manifest["rows"][0].update(by="")
    del manifest["rows"][0]["files"], manifest["sums"]["alive.wit"]
    for name, form, row in (("a solver's word", OLDER, {}), ("open", manifest["format"], {"verdict": "undecided", "frames": 0})):
        manifest["format"] = form
        manifest["rows"][0].update(row)
        write_manifest(path, manifest)
        status, out, err = called("recheck", path, "--page", "page.html", "--junit", "j.xml", "--json")
        is_said = all("keeps the assumptions is not decided" in it for it in (Path("page.html").read_text(), Path("j.xml").read_text(), out))
        tally.check(f"alive: {name}: no row is good", status == 4 and is_said, (status, err))


def harmless(_, tally, __):
    """A command in the manifest is for readers, and nothing runs it; `recheck` needs neither yosys.ys nor
    recheck.sh."""
    path = kept("every")
    good = judged(path)
    manifest = manifest_of(path)
    row(manifest, "two")["commands"] = [{"prints": "confirmed", "words": ["touch", os.path.abspath("owned")]}]
    (path / "yosys.ys").write_text(f"shell touch {os.path.abspath('owned')}\n")
    (path / "recheck.sh").write_text("touch owned\n")
    write_manifest(path, manifest)
    tally.compare("harmless: the same rows", judged(path), good)
    tally.check("harmless: nothing ran", not Path("owned").exists())


def files(_, tally, __):
    """Links, pipes, folders and devices in the place of a file, and a folder that is a link: all are rejected, and none
    is waited for. A hard link is a file like each other one."""
    def link(file):
        os.symlink("other", file)

    def dangling(file):
        os.symlink("nothing", file)

    def pipe(file):
        os.mkfifo(file)

    def folder(file):
        file.mkdir()

    def device(file):
        os.symlink("/dev/zero", file)

    def missing(_):
        pass

    for change in (link, dangling, pipe, folder, device, missing):
        for name in ("circuit.aig", "MANIFEST.json", "sources/every.v", "3.base.drat"):
            path = kept("every")
            file = path / name
            shutil.copy(file, file.with_name("other"))
            file.unlink()
            change(file)
            tally.check(f"files: {change.__name__} for {name}", why_rejected(path) is not None, "accepted")
    path = kept("every")
    os.rename(path / "sources", "elsewhere")
    os.symlink(os.path.abspath("elsewhere"), path / "sources")
    tally.check("files: a folder that is a link", why_rejected(path) is not None, "accepted")
    path = kept("every")
    os.rename(path / "circuit.aig", "circuit.aig")
    os.link("circuit.aig", path / "circuit.aig")
    tally.check("files: a hard link", why_rejected(path) is None, why_rejected(path))
    os.rename(path, "real.verdicts")
    os.symlink("real.verdicts", path)
    tally.check("files: the folder that was named may be a link", why_rejected(path) is None, why_rejected(path))
    os.unlink(path)


def texts(_, tally, __):
    """Manifests that are no JSON, or JSON with two meanings: keys twice, huge numbers, floats, deep nesting, other
    encodings."""
    path = kept("every")
    good = (path / "MANIFEST.json").read_bytes()
    for name, text in {
        "nothing": b"", "no JSON": b"{", "null": b"null", "a list": b"[]", "deep": b"[" * 200000,
        "deep objects": b'{"a":' * 200000,
        "empty": b"{}", "format alone": b'{"format": "aig-verdicts 1"}', "utf-16": good.decode().encode("utf-16"),
        "not utf-8": good.replace(b"two", b"\xff\xfe", 1), "a mark of order": b"\xef\xbb\xbf" + good,
        "a key twice": good.replace(b'"name": "two"', b'"name": "two", "name": "two"', 1),
        "rows twice": good.rstrip().removesuffix(b"}") + b', "rows": []}',
        "huge number": good.replace(b'"frames": 3', b'"frames": ' + b"9" * 100000, 1),
        "huge float": good.replace(b'"frames": 3', b'"frames": 1e999', 1),
        "NaN": good.replace(b'"frames": 3', b'"frames": NaN', 1),
        "infinite": good.replace(b'"conflicts": 0', b'"conflicts": Infinity', 1),
        "float": good.replace(b'"position": 0', b'"position": 0.0', 1),
        "more after it": good + b"{}", "zeros": b"\0" * 1000,
    }.items():
        (path / "MANIFEST.json").write_bytes(text)
        tally.check(f"texts: {name} changed something", text != good)
        status, _, err = called("recheck", path)
        tally.check(f"texts: {name}", status == 1 and err.startswith("aig-verdicts: "), (status, err[:200]))
    (path / "MANIFEST.json").write_bytes(json.dumps(json.loads(good)).encode())
    tally.check("texts: other blanks mean the same", why_rejected(path) is None, why_rejected(path))
