"""A bundle of 60 properties, ten of each kind of row. The last row of a kind is a lie: its property is another literal
of the circuit than the one that its files are about."""

from __future__ import annotations

import functools
import hashlib
import shutil
import subprocess
from pathlib import Path
from typing import NamedTuple

import aig
from aig_verdicts.audit.folder import Folder
from aig_verdicts.audit.manifest import FORMAT, FORMULAS, rows_as_json
from aig_verdicts.audit.recheck import recheck
from aig_verdicts.audit.row import Row, name_of
from believed import believed
from bundles.common import SMALL_SOLVER, called, judged, manifest_of, tool, why_rejected, write_manifest
from library import supervised
from package.common import NO_CLAIM

COUNT = 10
# Input 2 has to be 1. Latch 4 stays 0. Latch 6 is 1 from frame 1 on, 8 from frame 2 on, and so on.
NEVER, AT_1, AT_2, AT_3, AT_6 = 4, 6, 8, 10, 16
LATCHES = ("4 18", "6 1", "8 6", "10 8", "12 10", "14 12", "16 14")


class Kind(NamedTuple):
    """A kind of row: the beginning of its symbol, its property, how it was found, the frames, and its verdict. `lie` is
    a property for which this is false."""

    starts: str
    literal: int
    by: str
    frames: int
    verdict: str
    lie: int


KINDS = {
    "run": Kind("run", AT_3, "run", 4, "confirmed", NEVER),
    "cover": Kind("cover:reached", AT_2, "run", 3, "confirmed", NEVER),
    "induction": Kind("step", NEVER, "induction", 1, "unreachable", AT_3),
    "condition": Kind("if:step", AT_1, "run", 2, "confirmed", NEVER),
    "certificate": Kind("invariant", NEVER, "certificate", 0, "unreachable", AT_3),
    "bound": Kind("late", AT_6, "bound", 4, "unreachable within 4", AT_2),
}
# That no run is shorter may be a lie, too: that of the last run but one.
LIES = {**{name: kind.lie for name, kind in KINDS.items()}, "shorter": AT_2}
# What the command prints about the row that is a lie.
SAID = {
    "run": "aig check prints 'not bad'", "cover": "aig check prints 'not bad'", "induction": "aig refute: step proof",
    "condition": "aig check prints 'not bad'", "certificate": "aig refute: proof", "bound": "aig refute: proof",
    "shorter": "aig refute: proof",
}
EMPTY = b"0\n"


def position(name, number=COUNT - 1):
    if name == "shorter":
        return position("run", number - 1)
    return len(KINDS) * number + list(KINDS).index(name)


def circuit(*lies):
    """The circuit; for a lie, the property of that row is another literal."""
    bad = [kind.literal for _ in range(COUNT) for kind in KINDS.values()]
    for lie in lies:
        if lie in LIES:
            bad[position(lie)] = LIES[lie]
    symbols = [f"b{at} {kind.starts}{number}" for at, (number, kind) in enumerate(
        (number, kind) for number in range(COUNT) for kind in KINDS.values())]
    lines = [f"aag 9 1 7 0 1 {len(bad)} 1", "2", *LATCHES, *map(str, bad), "2", "18 4 2", *symbols, ""]
    return "\n".join(lines).encode()


@functools.lru_cache(maxsize=None)
def proof_of_certificate():
    """The proof that the certificate without a claim is right."""
    formula = aig.Circuit(circuit()).certified(NO_CLAIM, position("certificate")).cnf()
    Path("cnf").write_bytes(formula.text)
    supervised.run([SMALL_SOLVER, "cnf", "proof"], stdout=subprocess.DEVNULL)
    return Path("proof").read_bytes()


def files_of(kind, at):
    """The files of a row, by their roles."""
    witness = f"1\nb{at}\n0000000\n{chr(10).join(['1'] * kind.frames)}\n.\n".encode()
    return {"run": {"witness": witness, "shorter": EMPTY}, "induction": {"base": EMPTY, "step": EMPTY},
            "certificate": {"certificate": NO_CLAIM.encode(), "proof": proof_of_certificate()},
            "bound": {"base": EMPTY}}[kind.by]


def made(path, *lies):
    """Writes the bundle."""
    shutil.rmtree(path, ignore_errors=True)
    folder = Folder(Path(path))
    folder.put("circuit.aig", circuit(*lies))
    alive = believed(Row(-1, "constraints", ""), "alive", "kept", 3, {"witness": "alive.wit"})
    folder.put("alive.wit", b"1\nb0\n0000000\n1\n1\n%d\n.\n" % ("constraints" not in lies))
    rows = [alive]
    for number in range(COUNT):
        for name, kind in KINDS.items():
            at = position(name, number)
            files = files_of(kind, at)
            row = Row(at, {"cover": "cover", "condition": "condition"}.get(name, "assert"),
                      f"{kind.starts.split(':')[-1]}{number}", of=at - 1 if name == "condition" else None)
            rows.append(believed(row, kind.verdict, kind.by, kind.frames,
                                 {role: name_of(at, role) for role in files}))
            for role, data in files.items():
                folder.put(name_of(at, role), data)
    folder.write({"format": FORMAT, "name": "many", "notes": [], "bounds": {}, "options": {}, "sources": [],
                  "versions": {"aig": "aig", "formulas": FORMULAS}, "rows": rows_as_json(rows)})
    folder.close()
    return Path(path)


def many(_, tally, __):
    """The last row of each kind is a lie in turn: the bundle is rejected, and that row is not said to be right. So is
    one whose last row is missing, or has another name or word."""
    path, said = made("right"), []
    rows = recheck(path, say=said.append, jobs=2).rows
    tally.compare("many: all are right", (len(rows), [row.label for row in said]),
                  (61, ["constraints", *(f"b{at}" for at in range(60))]))
    for lie in (*LIES, "constraints"):
        status, out, err = called("recheck", made("lie", lie))
        label = "constraints" if lie == "constraints" else f"b{position(lie)}"
        why = f"aig-verdicts: {label}: {SAID.get(lie, 'aig check prints')}"
        tally.check(f"many: {lie} is wrong", status == 1 and err.startswith(why), (status, err))
        tally.check(f"many: {lie} is not said", "checked by aig" not in err and f"{label}  " not in out, out[-200:])
    for name, change in {
        "missing": lambda rows: rows.pop(), "another name": lambda rows: rows[-1].update(name="late0"),
        "another word": lambda rows: rows[-1].update(result="holds"),
    }.items():
        path = made("changed")
        manifest = manifest_of(path)
        change(manifest["rows"])
        if name == "missing":
            del manifest["sums"]["59.base.drat"]
        write_manifest(path, manifest)
        tally.check(f"many: the last row is {name}", why_rejected(path) is not None)


def verdicts_of(path):
    return [(row["verdict"], row.get("frames", 0)) for row in manifest_of(path)["rows"]]


def taken_over(_, tally, __):
    """`run` on such a folder takes over what is right, with a solver that finds nothing, and says what is not. Nothing
    of another circuit stays, also of one that is as long."""
    def run(path, *words):
        Path("many.aag").write_bytes((Path(path) / "circuit.aig").read_bytes())
        return called("run", "many.aag", "--out", path, "--abc", "", "--solver", tool("none", "exit 0"),
                      "--frames", "3", "-j", "2", *words)

    made("right")
    right = verdicts_of("right")
    _, _, err = run("right")
    tally.compare("taken over: all that is right", verdicts_of("right"), right)
    tally.check("taken over: nothing is wrong", "not what it says" not in err, err)
    path = made("lies", *LIES, "constraints")
    _, _, err = run(path)
    wrong = {"constraints": 0, **{lie: position(lie) + 1 for lie in LIES}}
    found = verdicts_of(path)
    for lie, at in wrong.items():
        tally.compare(f"taken over: not that of {lie}", found[at][0], "undecided")
    tally.compare("taken over: beside the lies", [it for at, it in enumerate(found) if at not in wrong.values()],
                  [it for at, it in enumerate(right) if at not in wrong.values()])
    tally.check("taken over: lies are told", err.count("not what it says") == len(wrong), err[-300:])
    tally.check("taken over: re-checked", judged(path) is not None)
    others(tally, run)


def others(tally, run):
    """Folders about another circuit, with rows of other names and kinds, without a file, and with times below 0."""
    path = made("other")
    Path("many.aag").write_bytes(circuit().replace(b"16 14", b"16 12"))
    called("run", "many.aag", "--out", path, "--abc", "", "--solver", tool("none", "exit 0"), "--frames", "3", "-q")
    rows = manifest_of(path)["rows"]
    tally.compare("taken over: of another circuit, what aig has checked on this one",
                  [row for row in rows if row["verdict"] not in ("undecided", "alive") and not row.get("origin")], [])
    tally.check("taken over: and only that", judged(path) is not None)
    tally.compare("taken over: its files", sorted(it.name for it in path.iterdir()), sorted(
        [".lock", "MANIFEST.json", "files.json", "index.html", "recheck.sh", "times.json", *manifest_of(path)["sums"]]))
    path = made("changed")
    manifest = manifest_of(path)
    manifest["rows"][-1].update(name="other")
    manifest["rows"][-7].update(kind="cover", result="not reached within 4")
    write_manifest(path, manifest)
    (path / "47.base.drat").unlink()
    (path / "times.json").write_text('{"1": -1.5, "2": 2.5}')
    _, _, err = run(path)
    found = verdicts_of(path)
    for name, at in (("another name", -1), ("another kind", -7), ("without a file", -13)):
        tally.compare(f"taken over: {name}", found[at], ("undecided", 0))
    tally.compare("taken over: a missing file is told", err.count("not what it says"), 1)
    tally.compare("taken over: times", (path / "times.json").read_text().count("-1.5"), 0)
    sums = manifest_of(path)["sums"]
    wrong = [name for name, known in sums.items() if hashlib.sha256((path / name).read_bytes()).hexdigest() != known]
    tally.compare("taken over: sums", (wrong, len(sums)), ([], 2 + 11 * COUNT - 3))
