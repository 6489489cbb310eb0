"""Folders and bundles that somebody made to harm their reader: links, pipes, sizes, letters, races."""

from __future__ import annotations

import json
import os
import shutil
import struct
import sys
import tracemalloc
import zipfile
from pathlib import Path

from aig_verdicts import rechecking
from aig_verdicts.audit.bundle import MOST_OF_MANIFEST
from aig_verdicts.audit.folder import Folder
from aig_verdicts.audit.checked import Claim, Wrong
from aig_verdicts.audit.recheck import check_claim
from aig_verdicts.audit.table import plain
from aig.tools import Stop
from bundles.common import (
    COMMAND, FEW, SMALL_SOLVER, called, ended, judged, kept, manifest_of, process_of, row, started, why_rejected,
    write_manifest,
)

TERA = 10**12
RESULTS = ("MANIFEST.json", "circuit.aig", "index.html", "recheck.sh", "times.json", "files.json", "2.wit", "0.base.drat")


def folders_of_others(program, tally, _):
    """`run` in a folder with links and pipes where it writes: nothing elsewhere changes, and it does not wait. Times
    that make no sense are forgotten."""
    def ran(out):
        process = started(program, "run", FEW, "--out", out, "--abc", "", "--frames", "3", "--solver", SMALL_SOLVER)
        status, _, err = ended(process)
        tally.check(f"folders of others: {out}: no trace", "Traceback" not in err, err[-300:])
        return status

    tally.compare("folders of others: the usual", ran("usual"), 5)
    for name in (*RESULTS, *(f".{it}.new" for it in RESULTS)):
        for kind in ("link", "dangling", "pipe"):
            out = Path(f"{kind}{name}")
            shutil.copytree("usual", out)
            (out / name).unlink(missing_ok=True)
            victim = Path("victim").resolve()
            victim.write_text("mine") if kind == "link" else victim.unlink(missing_ok=True)
            os.mkfifo(out / name) if kind == "pipe" else (out / name).symlink_to(victim)
            tally.compare(f"folders of others: {out}", ran(str(out)), 5)
            is_kept = victim.read_text() == "mine" if kind == "link" else not victim.exists()
            tally.check(f"folders of others: {out}: nothing elsewhere", is_kept)
            tally.check(f"folders of others: {out}: re-checked", judged(out) is not None)
    locks(tally, ran)
    sources(tally)
    for times in ('{"1": 1' + "0" * 400 + "}", '{"1": 1e999}', '{"1": NaN}', '{"1": "1"}', '{"1": -1}', "[" * 10**5):
        Path("usual/times.json").write_text(times)
        tally.compare(f"folders of others: times {times[:12]}", ran("usual"), 5)
        tally.check(f"folders of others: times {times[:12]}, later", json.loads(
            Path("usual/times.json").read_text()).get("1", 0) == 0)


def locks(tally, ran):
    victim = Path("victim")
    victim.write_text("mine")
    shutil.copytree("usual", "locked")
    Path("locked/.lock").unlink()
    Path("locked/.lock").symlink_to(victim.resolve())
    tally.compare("folders of others: a lock that is a link", (ran("locked"), victim.read_text()), (3, "mine"))
    Path("locked/.lock").unlink()
    os.mkfifo("locked/.lock")
    tally.check("folders of others: a lock that is a pipe", ran("locked") is not None)


def sources(tally):
    os.mkdir("elsewhere")
    os.mkdir("sourced")
    os.symlink(Path("elsewhere").resolve(), "sourced/sources")
    folder = Folder(Path("sourced"))
    folder.put("sources/a.v", b"mine")
    folder.close()
    tally.check("folders of others: sources elsewhere", os.listdir("elsewhere") == []
                and Path("sourced/sources/a.v").read_bytes() == b"mine")


def sizes(_, tally, __):
    """Files that are large on no disk: sparse ones, lists of a .zip, manifests that unpack to gigabytes, witnesses of
    empty lines. All are rejected, in little memory; a large limit takes none by itself."""
    for name in ("MANIFEST.json", "circuit.aig", "sources/every.v", "2.wit"):
        path = kept("every")
        os.truncate(path / name, TERA)
        status, _, err = called("recheck", path)
        tally.check(f"sizes: {name}", status == 1 and f"{name} is too large" in err, (status, err))
    path = kept("every")
    tally.compare("sizes: a large limit", called("recheck", path, "--megabytes", 2**31 - 1)[0], 5)
    (path / "MANIFEST.json").write_bytes(b"[" + b"[]," * (MOST_OF_MANIFEST // 3) + b"[]]")
    tally.check("sizes: a manifest", "MANIFEST.json is too large" in why_rejected(path), why_rejected(path))
    with zipfile.ZipFile("m.zip", "w", zipfile.ZIP_DEFLATED) as file:
        file.write(path / "MANIFEST.json", "MANIFEST.json")
    tally.check("sizes: a manifest in a .zip", "MANIFEST.json is too large" in why_rejected("m.zip"))
    for size, offset in ((TERA, 0), (1 << 63, 0), (1 << 30, 0), (0, (1 << 64) - 1), (1 << 62, 1 << 62)):
        with Path("list.zip").open("wb") as stream:
            stream.seek(size if size <= TERA else 100)
            stream.write(struct.pack("<4sQ2H2L4Q", b"PK\6\6", 44, 45, 45, 0, 0, 1, 1, size, offset))
            stream.write(struct.pack("<4sLQL", b"PK\6\7", 0, stream.tell() - 56, 1))
            stream.write(struct.pack("<4s4H2LH", b"PK\5\6", *[0xFFFF] * 4, *[0xFFFFFFFF] * 2, 0))
        status, _, err = called("recheck", "list.zip")
        tally.check(f"sizes: a list of {size} bytes", status == 1 and "Traceback" not in err, (status, err))
    Path("list.zip").unlink()
    text = b"\n" * (1 << 24)
    tracemalloc.start()
    try:
        check_claim(Claim(0, "run", 3, (("witness", "0.wit"),)), b"", lambda _: text, Stop())
        tally.check("sizes: lines", False, "accepted")
    except Wrong:
        most = tracemalloc.get_traced_memory()[1]
        tally.check("sizes: lines", most < 3 * len(text), most)
    finally:
        tracemalloc.stop()


def outputs(program, tally, _):
    """What `recheck` prints and writes is what it checked: the commands of --json, and a page of files that change
    after the check. Letters that a terminal has not, or that nobody sees, are shown by their numbers."""
    path = kept("every")
    right = [it["commands"] for it in manifest_of(path)["rows"]]
    manifest = manifest_of(path)
    for it in manifest["rows"]:
        it["commands"] = [{"prints": "confirmed", "words": ["rm", "-rf", "/"]}]
    write_manifest(path, manifest)
    status, out, _ = called("recheck", path, "--json")
    tally.compare("outputs: commands", (status, [it["commands"] for it in json.loads(out)["rows"]]), (5, right))
    usual = rechecking.recheck

    def then_changed(*words, **named):
        bundle = usual(*words, **named)
        with (path / "circuit.aig").open("ab") as file:
            file.write(b"c\nmore\n")
        return bundle

    rechecking.recheck = then_changed
    try:
        status, _, err = called("recheck", path, "--page", "page.html")
    finally:
        rechecking.recheck = usual
    tally.check("outputs: changed after its check", status == 1 and "circuit.aig has another sum" in err, (status, err))
    tally.check("outputs: no page of it", not Path("page.html").exists())
    victim = Path("victim")
    victim.write_text("mine")
    path = kept("every")
    (path / ".index.html.new").symlink_to(victim.resolve())
    tally.compare("outputs: a page in the bundle", (called("recheck", path, "--page", path / "index.html")[0],
                                                    victim.read_text()), (5, "mine"))
    tally.compare("outputs: a page that is a folder", called("recheck", path, "--page", ".")[0], 3)
    hidden = "\u034f\u115f\u1160\u180b\u2000\u2800\u3000\u3164\ufe0f\uffa0\U000e0100\xa0\u200b\u202e\x1b"
    tally.check("outputs: hidden letters", plain(hidden) == "".join("\\x%02x" % ord(it) for it in hidden), plain(hidden))
    Path("letters.aag").write_bytes("aag 1 1 0 0 0 1\n2\n2\nb0 \u0416\u65e5\n".encode())
    for words in (("run", "letters.aag", "--abc", "", "--solver", SMALL_SOLVER, "--frames", "1"),
                  ("recheck", "letters.verdicts")):
        process = process_of(program, "env", "PYTHONIOENCODING=ascii", sys.executable, *COMMAND, *words)
        status, out, err = ended(process)
        tally.check(f"outputs: {words[0]} in ASCII", status == 5 and "\\u0416" in out and "Traceback" not in err,
                    (status, out, err[-200:]))
    tally.check("outputs: a name", row(manifest_of("letters.verdicts"), "\u0416\u65e5") is not None)
