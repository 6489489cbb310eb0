#!/usr/bin/env python3
"""Plants errors in what Yosys read, as if Yosys were wrong, and counts those that `aig-verdicts run` sees by Icarus
Verilog: an operator, a bit of a constant, an edge, a value of a register, or an index is another one.

Nine of ten have to be seen: else it fails.

usage: planted_netlists.py [PROGRAM] [COUNT]. It needs yosys, cadical and iverilog, and is no part of the gate."""

import json
import os
import random
import re
import shutil
import stat
import sys
import tempfile
from pathlib import Path

from paths import PYTHONPATH, ROOT as REPOSITORY, TESTS as HERE
from library import supervised

KNOWN, EXAMPLES, DESIGNS = HERE / "designs/known", REPOSITORY / "examples", REPOSITORY / "tests/designs"
SOURCES = [*(KNOWN / name for name in (
    "uart.v", "axi_lite.v", "crc.v", "hamming.v", "divider.v", "async_reset.v", "both_edges.v", "round_robin.v",
    "forwarding.v", "watchdog.v", "async_fifo.v", "latches.v", "same_twice.v", "chosen_clock.v")),
    EXAMPLES / "queue.v", EXAMPLES / "decimal.v", DESIGNS / "credit.v", DESIGNS / "clocks.v", DESIGNS / "mutex.v"]
PAIRS = (("$add", "$sub"), ("$and", "$or"), ("$eq", "$ne"), ("$lt", "$le"), ("$gt", "$ge"), ("$xor", "$xnor"),
         ("$logic_and", "$logic_or"), ("$shl", "$shr"), ("$reduce_or", "$reduce_and"), ("$reduce_xor", "$reduce_xnor"))
SWAPPED = {one: other for pair in PAIRS for one, other in (pair, pair[::-1])}
# An edit of each kind: the lines that it changes, and the part of them.
KINDS = {
    "operator": re.compile(r"^  cell (?P<part>\$\w+) "),
    "bit": re.compile(r"^    connect \\[AB] (?P<part>\d+'[01]+)$"),
    "edge": re.compile(r"^    sync (?P<part>posedge|negedge) "),
    "value": re.compile(r"^ +(?:assign|update) \S+ (?P<part>\d+'[01]+)$"),
    "index": re.compile(r"^    connect \\[AB] \S+ \[(?P<part>[0-9]+)\]$"),
}
# It runs Yosys, and edits what the first run wrote.
WRAPPER = f"""\
#!/bin/sh
"{{yosys}}" "$@" || exit $?
[ ! -f read.il ] || [ -f planted ] || {{python}} {Path(__file__).resolve()} --plant {{kind}} {{seed}} > planted
"""


def other(kind, part, dice):
    """The part with an error."""
    if kind == "operator":
        return SWAPPED[part]
    if kind == "edge":
        return {"posedge": "negedge", "negedge": "posedge"}[part]
    if kind == "index":
        return str(int(part) - 1 if int(part) else 1)
    width, bits = part.split("'")
    at = dice.randrange(len(bits))
    return f"{width}'{bits[:at]}{'10'[int(bits[at])]}{bits[at + 1:]}"


def plant(kind, seed):
    """Edits `read.il`, and prints the edit."""
    path, dice = Path("read.il"), random.Random(seed)
    lines = path.read_text(encoding="latin-1").split("\n")
    found = [(at, match) for at, line in enumerate(lines) for match in [KINDS[kind].match(line)]
             if match and (kind != "operator" or match["part"] in SWAPPED)]
    if not found:
        print("nothing")
        return
    at, match = dice.choice(found)
    line = match.string
    lines[at] = line[:match.start("part")] + other(kind, match["part"], dice) + line[match.end("part"):]
    path.write_text("\n".join(lines), encoding="latin-1")
    print(f"{line.strip()} -> {lines[at].strip()}")


def planted(source, kind, seed):
    """What `run` says of a design with an error: `seen`, `rejected`, `missed` or `nothing`, and the edit."""
    with tempfile.TemporaryDirectory() as name:
        folder = Path(name)
        said = folder / "edit"
        wrapper = folder / "yosys"
        yosys = shutil.which("yosys")
        text = WRAPPER.format(yosys=yosys, python=sys.executable, kind=kind, seed=seed)
        wrapper.write_text(text.replace("> planted", f"> planted && cp planted {said}"))
        wrapper.chmod(wrapper.stat().st_mode | stat.S_IXUSR)
        settings = {**os.environ, "PYTHONPATH": PYTHONPATH, "PATH": f"{folder}:{os.environ['PATH']}"}
        words = [sys.executable, "-m", "aig_verdicts", "run", source, "-D", "FORMAL", "--out", folder / "out",
                 "--frames", "1", "--seconds", "2", "--abc", "", "-q", "-j", "1"]
        done = supervised.run([str(word) for word in words], env=settings, capture_output=True, text=True, check=False)
        edit = said.read_text().strip() if said.exists() else "nothing"
        if edit == "nothing":
            return "nothing", edit
        if done.returncode == 1:
            return "rejected", f"{edit}: {done.stderr.strip()}"
        found = json.loads((folder / "out/MANIFEST.json").read_text())["simulated"]
        is_seen = not found["agrees"] or any(word == "disagrees" for word, _ in found["rows"].values())
        return ("seen" if is_seen else "missed"), f"{edit}: {found['circuit']}"


if __name__ == "__main__":
    words = sys.argv[1:]
    if words[:1] == ["--plant"]:
        sys.exit(plant(words[1], int(words[2])))
    if words and os.path.isfile(words[0]):
        os.environ["AIG_PROGRAM"] = os.path.abspath(words.pop(0))
    counts, wanted, seed = {}, int(words[0]) if words else 50, 0
    while sum(counts.values()) < wanted:
        kind, source = list(KINDS)[seed % len(KINDS)], SOURCES[seed % len(SOURCES)]
        result, edit = planted(source, kind, seed)
        seed += 1
        if result == "nothing":
            continue
        counts[result] = counts.get(result, 0) + 1
        if result != "seen":
            print(f"{result}: {source.name}, seed {seed - 1}, {kind}: {edit}", flush=True)
    missed = counts.get("missed", 0)
    print(f"planted netlists: {sum(counts.values()) - missed} seen, {missed} missed")
    sys.exit(missed > wanted / 10)
