"""Folders of which one file is empty, for each kind of file. Each proof in them is needed: no value follows by itself."""

from __future__ import annotations

import shutil
from pathlib import Path

from bundles.common import SMALL_SOLVER, called, kept, manifest_of, tool, why_rejected, write_manifest

FRAMES = 3
# The inputs 2 and 4. Latch 6 is 1 from frame 1 on, 8 from frame 2 on, and so on; 14 stays 0. Gate 28 is 0, which shows
# only who tries the values of the inputs one by one. The gates after it are 28 or a latch, negated, and each case of
# the inputs with latch 8.
LATCHES = ("6 1", "8 6", "10 8", "12 10", "14 14")
GATES = ("16 3 5", "18 3 4", "20 2 5", "22 2 4", "24 17 19", "26 21 23", "28 24 26", "30 29 9", "32 29 13", "34 29 15",
         "36 16 8", "38 18 8", "40 20 8", "42 22 8")
PROPERTIES = {"fails": 31, "bounded": 33, "holds": 35}
KEPT, ENDS = (1, ), (37, 39, 41, 43)
# What `recheck` says of each file that is empty, and the row that a run then has to find again.
SAID = {
    "alive.wit": ("constraints: aig check: witness: text", -1),
    "0.wit": ("the witness of b0 is for another property", 0),
    "0.concrete.wit": ("the concrete run of b0 is another one than its witness", 0),
    "0.shorter.drat": ("b0: aig refute: proof: no refutation", 0),
    "1.base.drat": ("b1: aig refute: proof: no refutation", 1),
    "2.base.drat": ("b2: aig refute: proof: no refutation", 2),
    "2.step.drat": ("b2: aig refute: step proof: no refutation", 2),
}
# Nothing is known without the first two. Nothing needs the others.
OTHERS = {"MANIFEST.json": "MANIFEST.json is no JSON", "circuit.aig": "circuit.aig: circuit: text", "index.html": None,
          "recheck.sh": None, "times.json": None, "files.json": None, ".lock": None}
# Of a bundle that Yosys and ABC made. Without --yosys its sources and the script are not read, and that is said.
OF_YOSYS = {"6.cert.aag": "b6: aig refute: certificate: text", "6.cert.drat": "b6: aig refute: proof: no refutation",
            "1.cert.drat": "b1: aig refute: proof: no refutation", "sources/every.v": None, "yosys.ys": None}


def circuit(constraints):
    symbols = [f"b{at} {name}" for at, name in enumerate(PROPERTIES)]
    counts = f"aag 21 2 {len(LATCHES)} 0 {len(GATES)} {len(PROPERTIES)} {len(constraints)}"
    return "\n".join([counts, "2", "4", *LATCHES, *map(str, PROPERTIES.values()), *map(str, constraints), *GATES,
                      *symbols, ""])


def run(name, constraints, solver):
    Path(f"{name}.aag").write_text(circuit(constraints))
    return called("run", f"{name}.aag", "--abc", "", "--solver", solver, "--frames", FRAMES, "-j", 2)


def verdicts_of(path):
    return {it["position"]: it["verdict"] for it in manifest_of(path)["rows"]}


def without(tally, path, name, wanted):
    """What `recheck` says of a bundle where a file is empty, and all sums are mended."""
    (path / name).write_bytes(b"")
    if name != "MANIFEST.json":
        write_manifest(path, manifest_of(path))
    why = why_rejected(path)
    is_right = why is None if wanted is None else why is not None and why.startswith(wanted)
    tally.check(f"emptied: {name}", is_right, why)


def emptied(_, tally, __):
    """`recheck` rejects the folder, and a run, with a solver that finds nothing, takes over what is right without that
    file, and says what is not."""
    path = Path("kept.verdicts")
    run("kept", KEPT, SMALL_SOLVER)
    right = verdicts_of(path)
    tally.compare("emptied: all is there", (right, sorted(it.name for it in path.iterdir())),
                  ({-1: "alive", 0: "confirmed", 1: f"unreachable within {FRAMES}", 2: "unreachable"},
                   sorted([*SAID, *OTHERS])))
    shutil.copytree(path, "right")
    for name, (said, lost) in {**SAID, **{name: (said, None) for name, said in OTHERS.items()}}.items():
        shutil.rmtree(path)
        shutil.copytree("right", path)
        without(tally, path, name, said)
        _, _, err = run("kept", KEPT, tool("none", "exit 0"))
        is_lost = name in ("MANIFEST.json", "circuit.aig")
        wanted = {at: "undecided" if is_lost or at == lost else verdict for at, verdict in right.items()}
        tally.compare(f"emptied: {name}: a run", verdicts_of(path), wanted)
        tally.compare(f"emptied: {name}: is told", err.count("not what it says"), int(lost is not None))
        is_there = name in SAID or name == ".lock" or (path / name).read_bytes() != b""
        tally.check(f"emptied: {name}: after a run", is_there and why_rejected(path) is None, why_rejected(path))
    run("ends", ENDS, SMALL_SOLVER)
    tally.compare("emptied: a contradiction", verdicts_of("ends.verdicts")[-1], f"no run of 20 frames")
    without(tally, Path("ends.verdicts"), "alive.drat", "constraints: aig refute: proof: no refutation")
    for name, said in OF_YOSYS.items():
        without(tally, kept("every"), name, said)
    status, _, err = called("recheck", "every.verdicts")
    tally.check("emptied: a script that nothing reads", status == 5 and "not compared with the sources" in err, err)
