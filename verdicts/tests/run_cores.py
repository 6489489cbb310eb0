#!/usr/bin/env python3
"""What `aig-verdicts run --cores` says of designs whose needs are known (needs/*.v). The judge is a change of the sources,
or of the circuit: what no proof needs is garbled, and each row still holds, by a search that knows nothing of cores. It
may become vacuous. What every proof needs is garbled, and the row fails.

usage: run_cores.py [PROGRAM] [NAME ..]. Without PROGRAM it takes the one that the gate built. It needs yosys, cadical and
ABC, and a compiler of C++ for drat2lrat."""

import json
import os
import random
import shutil
import subprocess
import sys
import tempfile
from concurrent.futures import ThreadPoolExecutor
from pathlib import Path
from typing import Dict, NamedTuple, Sequence, Tuple

from paths import PYTHONPATH, TESTS as HERE
from hints.programs import built
from library import supervised
from library.runs import PROVED_PROGRAM, LeftOut

# How long one call may take: the slowest needs a tenth of it.
SECONDS = 300
# So often the circuit of a design is garbled in other ways.
GARBLED = 2
# Of the row of all assumptions.
ALL = "all assumptions"


class Design(NamedTuple):
    """A design and what is known of it.

    needs     of each row registers, and how many assumptions
    harmless  pieces of the source that no proof needs, each with what takes its place; all are replaced at once
    harmful   pieces that the proof of a row needs: with one of them replaced, it fails
    is_redundant  whether each piece has another one in its place, so that no proof has to need it. Else every proof does
    """

    needs: Dict[str, Tuple[Sequence[str], int]]
    harmless: Sequence[Tuple[str, str]]
    harmful: Sequence[Tuple[str, str, str]] = ()
    is_redundant: bool = False


DESIGNS = {
    "lights": Design(
        {"one_red": ((), 0), "never_3": (("state",), 0)},
        [("timer <= timer + 1", "timer <= {timer[1:0], timer[3], rst}"), ("timer = 0", "timer = 7")],
        [("state == 2 ? 0", "state == 3 ? 0", "never_3"), ("state = 0", "state = 3", "never_3")]),
    "slave": Design(
        {"once": (("ack", "was"), 0)},
        [("data <= wdata", "data <= ~data"), ("log[at] <= wdata", "log[~at] <= 8'h55"), ("at <= at + 1", "at <= at - 3"),
         ("busy <= ack ? 0 : busy || req", "busy <= req ^ busy"), ("polite: assume (!(req && busy));", ""),
         ("in_reset: assume (!(req && rst));", ""), ("busy = 0", "busy = 1")],
        [("busy && !ack", "busy", "once"), ("was <= ack", "was <= busy", "once")]),
    "redundant": Design({"never": ((), 1)}, [("q <= a", "q <= !q"), ("q = 0", "q = 1")],
                        [("assume (!a);", "assume (1);", ""), ("assume (!b);", "assume (1);", "")], True),
    "vacuous": Design({ALL: ((), 2)}, [("other: assume (b);", ""), ("q <= b", "q <= !q")]),
    "chain": Design(
        {"follows": (("early", "late", "middle"), 0)}, [("noise <= b ^ late", "noise <= !noise"), ("noise = 0", "noise = 1")],
        [("early || a", "a", "follows"), ("middle <= early", "middle <= b", "follows"),
         ("late <= middle", "late <= b", "follows"), ("middle = 0", "middle = 1", "follows")]),
    "digit": Design(
        {"never_13": (("value",), 0)},
        [("count <= count + step", "count <= ~count"), ("started <= 1", "started <= !started"),
         ("first: assume (started || !step);", ""), ("count = 0", "count = 9")],
        [("value == 9 ? 0", "value == 14 ? 0", "never_13"), ("value = 0", "value = 13", "never_13")]),
    "kept": Design(
        {"below_5": (("count_kept",), 0)}, [("noise <= !d", "noise <= noise"), ("noise = 0", "noise = 1")],
        [("count == 4 ? 0", "count == 6 ? 0", "below_5"), ("q <= d", "q <= !d", "passed")]),
}


def called(*words):
    settings = {**os.environ, "PYTHONPATH": PYTHONPATH}
    done = supervised.run([sys.executable, "-m", "aig_verdicts", *map(str, words)], env=settings, stdin=subprocess.DEVNULL,
                          capture_output=True, text=True, timeout=SECONDS, check=False)
    return done.returncode, done.stdout, done.stderr


def rows_of(folder):
    return json.loads((folder / "MANIFEST.json").read_text())["rows"]


def verdicts(source, folder):
    """What `aig` says of each row of a plain run."""
    status, _, said = called("run", source, "--out", folder, "--quiet", "--jobs", "1", "--no-simulator")
    if status not in (0, 4, 5):
        return {"": said}
    return {row["name"]: row["verdict"] for row in rows_of(folder) if row["kind"] in ("assert", "cover")}


def replaced(text, old, new):
    assert text.count(old) == 1, (old, text.count(old))
    return text.replace(old, new)


def wrong_needs(design, rows):
    """What is wrong of what rows need."""
    found = {row.get("name", ALL): row["needs"] for row in rows if "needs" in row}
    for name, (registers, count) in design.needs.items():
        needs = found.get(name)
        if needs is None or needs["registers"] != list(registers) or len(needs["assumptions"]) != count:
            yield f"{name}: wanted {registers} and {count} assumptions: {needs}"
        elif not design.is_redundant:
            every = needs.get("every_proof", {"registers": [], "assumptions": []})
            if (every["registers"], every["assumptions"]) != (needs["registers"], needs["assumptions"]):
                yield f"{name}: not needed by every proof: {needs}"
        elif "every_proof" in needs:
            yield f"{name}: one of two is enough: {needs}"
    bare = [row["name"] for row in rows if row.get("result") in ("holds", "never reached") and "needs" not in row]
    if bare:
        yield f"no needs of {bare}"


def garbling(circuit, cuts, seed):
    """The circuit with other next states and resets of what is cut, and without the assumptions that are."""
    chance = random.Random(seed)
    lines = circuit.split("\n")
    _, most, inputs, latches, outputs, _, bad, *_ = [*lines[0].split(), "0", "0", "0"]
    for at in range(1 + int(inputs), 1 + int(inputs) + int(latches)):
        literal, following, *reset = lines[at].split()
        if f"f {literal}" in cuts:
            following = str(chance.randrange(2 * int(most) + 2))
        if f"r {literal}" in cuts:
            reset = [chance.choice(["0", "1", literal])]
        lines[at] = " ".join([literal, following, *reset])
    first = 1 + int(inputs) + int(latches) + int(outputs) + int(bad)
    for cut in cuts:
        if cut.startswith("c "):
            lines[first + int(cut[2:])] = "1"
    return "\n".join(lines)


def garbled(folder, rows, seed):
    """What is wrong where all that no proof needs is garbled at random."""
    known = [row for row in rows if "needs" in row and row["kind"] == "assert"]
    if not known:
        return
    cuts = set.intersection(*(set((folder / row["files"]["cuts"]).read_text().splitlines()) for row in known))
    text = subprocess.run([os.environ["AIG_PROGRAM"], "toaig", "--to", "aag", folder / "circuit.aig"], capture_output=True,
                          text=True, check=True).stdout
    source = folder.parent / f"garbled{seed}.aag"
    source.write_text(garbling(text, cuts, seed))
    found = verdicts(source, folder.parent / f"garbled{seed}")
    for row in known:
        if found.get(row["name"]) != row["verdict"]:
            yield f"{row['name']}: {found.get(row['name'], found)} with seed {seed}"


def check(name):
    """What is wrong of a design, line by line."""
    design, text = DESIGNS[name], (HERE / "needs" / f"{name}.v").read_text()
    with tempfile.TemporaryDirectory() as room:
        folder = Path(room, "out")
        status, _, said = called("run", HERE / "needs" / f"{name}.v", "--out", folder, "--cores", "--minimal", "--needed", "--quiet",
                                 "--jobs", "1", "--no-simulator", "--drat2lrat", built("drat2lrat"))
        if status not in (0, 4):
            return name, [f"status {status}: {said}"]
        rows = rows_of(folder)
        wrong = [*wrong_needs(design, rows)]
        status, _, said = called("recheck", folder, "--quiet")
        wrong += [f"recheck: {said}"] * (status not in (0, 4))
        holds = {row["name"]: row["verdict"] for row in rows if row["kind"] == "assert"}
        other = text
        for old, new in design.harmless:
            other = replaced(other, old, new)
        source = Path(room, f"{name}.v")
        source.write_text(other)
        found = {row: result for row, result in verdicts(source, Path(room, "harmless")).items() if row in holds}
        wrong += [f"garbled: {found}, and before {holds}"] * (found != holds)
        for at, (old, new, row) in enumerate(design.harmful):
            source.write_text(replaced(text, old, new))
            result = verdicts(source, Path(room, f"harmful{at}")).get(row or next(iter(design.needs)))
            wanted = "confirmed" if row else "unreachable"
            wrong += [f"{old!r} as {new!r}: {result}, wanted {wanted}"] * (result != wanted)
        for seed in range(GARBLED):
            wrong += garbled(folder, rows, seed)
        return name, wrong


if __name__ == "__main__":
    words = sys.argv[1:]
    program = words.pop(0) if words and os.path.isfile(words[0]) else PROVED_PROGRAM
    os.environ["AIG_PROGRAM"] = os.path.abspath(program)
    failed = passed = 0
    try:
        missing = [it for it in ("yosys", "cadical", "berkeley-abc") if not shutil.which(it)]
        if missing:
            raise LeftOut(f"there is no {', '.join(missing)}")
        built("drat2lrat")
        with ThreadPoolExecutor(min(4, os.cpu_count() or 1)) as pool:
            for name, wrong in pool.map(check, [it for it in DESIGNS if not words or it in words]):
                passed, failed = passed + (not wrong), failed + len(wrong)
                for line in wrong:
                    print(f"FAILED: {name}: {line}", flush=True)
    except LeftOut as why:
        print(f"cores: left out: {why}")
    print(f"cores: {passed} passed, {failed} failed")
    sys.exit(failed > 0)
