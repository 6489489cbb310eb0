"""Circuits that are kept: the same sources are made once, and what is not the same in any byte is made again."""

from __future__ import annotations

import json
import os
import re
import shutil
import stat
import unittest.mock
from pathlib import Path

from aig_verdicts.reading import store
from bundles.common import called, manifest_of, same_manifests

DESIGN = """`include "step.vh"
module m #(parameter P = 1)(input clk, input en);
  reg [3:0] n = 0, memory [0:3];
  initial $readmemh("words.hex", memory);
  always @(posedge clk) if (en) n <= n == `LAST ? 0 : n + `STEP;
  always @* below: assert (n <= 9 + P);
  always @* first: assert (memory[0] == 1);
endmodule
"""
BASE = ("m.v", "--no-simulator", "-j", "1", "-D", "LAST=9")


def files():
    for name, text in {"m.v": DESIGN, "step.vh": "`define STEP 1\n", "words.hex": "1 2 3 4\n"}.items():
        Path(name).write_text(text)


def yosys(more=""):
    """A Yosys that counts its runs, but for those that ask for its version."""
    real, path = shutil.which("yosys", path=os.environ["REAL_PATH"]), Path("programs/yosys").resolve()
    path.parent.mkdir(exist_ok=True)
    path.write_text(f'#!/bin/sh\n{more}\n[ "$1" = -V ] || echo run >> "{path.parent}/count"\nexec {real} "$@"\n')
    path.chmod(path.stat().st_mode | stat.S_IXUSR)


def runs_of_yosys():
    count = Path("programs/count")
    text = count.read_text() if count.exists() else ""
    count.unlink(missing_ok=True)
    return len(text.splitlines())


def ran(*words, out="out"):
    """The status of a run in a new folder, whether Yosys made the circuit, and what was said."""
    shutil.rmtree(out, ignore_errors=True)
    runs_of_yosys()
    status, _, said = called("run", *words, "-o", out)
    return status, runs_of_yosys() > 0, said


def settings():
    folder = Path("programs").resolve()
    os.environ["REAL_PATH"] = os.environ["PATH"]
    return unittest.mock.patch.dict(os.environ,
                                    {"PATH": f"{folder}:{os.environ['PATH']}",
                                     "XDG_CACHE_HOME": str(Path("cache").resolve())})


def stored():
    return sorted(Path("cache/aig-verdicts").glob("*.json"))


def circuits(_, tally, __):
    with settings():
        files()
        yosys()
        once(tally)
        others(tally)
        broken(tally)
        believed(tally)


def once(tally):
    """The second run has the same bundle, and Yosys is not asked."""
    status, is_made, said = ran(*BASE, out="first")
    tally.check("kept: made", (status, is_made) == (0, True) and "an earlier run made" not in said,
                (status, is_made, said))
    tally.compare("kept: one file, which is the user's alone",
                  [it.stat().st_mode & 0o777 for it in (*stored(), stored()[0].parent)], [0o600, 0o700])
    status, is_made, said = ran(*BASE)
    tally.check("kept: not made again", (status, is_made) == (0, False) and "an earlier run made the circuit" in said,
                (status, is_made, said))
    tally.check("kept: the same bundle", same_manifests("first", "out"))
    tally.compare("kept: the same files", sorted(it.name for it in Path("out").rglob("*") if it.name != "times.json"),
                  sorted(it.name for it in Path("first").rglob("*") if it.name != "times.json"))
    tally.compare("kept: quiet", ran(*BASE, "-q")[1:], (False, ""))
    tally.compare("kept: --fresh", ran(*BASE, "--fresh")[1], True)
    os.makedirs("elsewhere", exist_ok=True)
    for name in ("m.v", "step.vh", "words.hex"):
        shutil.copy(name, "elsewhere")
    tally.compare("kept: the same files elsewhere", ran("elsewhere/m.v", *BASE[1:])[1], False)
    status, is_made, _ = ran("m.v", "--only", "nothing", "-D", "LAST=7")
    tally.compare("kept: of a run that ended early",
                  (status, is_made, ran("m.v", "-D", "LAST=7", "--no-simulator", "-j", "1")[1]), (1, True, False))


def others(tally):
    """Whatever a circuit is made of is another one: it is made again, and once."""
    def changed(name, *words):
        tally.compare(f"kept: another {name}", (ran(*words)[1], ran(*words)[1]), (True, False))

    for name, text in {"m.v": DESIGN + "// more\n", "step.vh": "`define STEP 2\n", "words.hex": "1 2 3 5\n"}.items():
        before = Path(name).read_text()
        Path(name).write_text(text)
        changed(f"byte of {name}", *BASE)
        Path(name).write_text(before)
    Path("more.v").write_text("module more(); endmodule\n")
    for name, words in {"macro": ("-D", "MORE"), "top": ("--top", "m"), "parameter": ("-P", "P=2"),
                        "free signal": ("--free", "m.n"),
                        "wires": ("--no-wires",), "conditions": ("--no-conditions",)}.items():
        changed(name, *BASE, *words)
    changed("file", "m.v", "more.v", *BASE[1:], "--top", "m")
    changed("order of files", "more.v", *BASE, "--top", "m")
    yosys("# another one, with more bytes")
    changed("Yosys", *BASE)
    real = store._package
    with unittest.mock.patch.object(store, "_package", lambda: real() + "another"):
        changed("version of the package", *BASE)
    shutil.copy(os.environ["AIG_PROGRAM"], "programs/aig")
    with unittest.mock.patch.dict(os.environ, {"AIG_PROGRAM": str(Path("programs/aig").resolve())}):
        changed("aig", *BASE)
    kinds = {"sources", "read", "options", "yosys", "aig", "package"}
    tally.compare("kept: what it is made of", set(json.loads(stored()[0].read_bytes().partition(b"\n")[2])["parts"]),
                  kinds)


def broken(tally):
    """Files that are broken, or of others, are as none; and a folder that cannot be written keeps nothing."""
    for name, harm in {"nothing": lambda data: b"", "half": lambda data: data[:len(data) // 2],
                       "bit": lambda data: data[:-9] + bytes([data[-9] ^ 1]) + data[-8:],
                       "no sum": lambda data: data.partition(b"\n")[2],
                       "a bit of what was made": lambda data: re.sub(
                           rb"(?<=[A-Za-z0-9+/]{200})[A-Za-y]", lambda it: bytes([it[0][0] + 1]), data, count=1),
                       "no JSON": lambda data: store.sum_of(b"{").encode() + b"\n{"}.items():
        shutil.rmtree("cache")
        ran(*BASE)
        path, = stored()
        path.write_bytes(harm(path.read_bytes()))
        tally.compare(f"kept: broken: {name}", ran(*BASE)[:2], (0, True))
    shutil.rmtree("cache")
    ran(*BASE)
    first, = stored()
    ran(*BASE, "-D", "MORE=2")
    second, = {*stored()} - {first}
    shutil.copy(second, first)
    tally.compare("kept: a file of other sources", ran(*BASE)[1], True)
    with unittest.mock.patch.object(store, "MOST_BYTES", first.stat().st_size + 200):
        ran(*BASE, "-D", "MORE=3")
    tally.compare("kept: the last ones alone", (len(stored()), ran(*BASE, "-D", "MORE=3")[1]), (1, False))
    shutil.rmtree("cache")
    Path("cache").write_text("no folder")
    tally.compare("kept: no folder", (ran(*BASE)[:2], ran(*BASE)[:2]), ((0, True), (0, True)))
    Path("cache").unlink()


def believed(tally):
    """A circuit that somebody put there is not believed where a bundle is checked again."""
    ran(*BASE)
    path, = stored()
    kept = json.loads(path.read_bytes().partition(b"\n")[2])
    ran(*BASE, "--free", "m.n", out="other")
    kept["made"]["circuit"] = store.packed(Path("other/circuit.aig").read_bytes())
    data = json.dumps(kept, sort_keys=True).encode()
    path.write_bytes(store.sum_of(data).encode() + b"\n" + data)
    status, is_made, _ = ran(*BASE)
    tally.compare("kept: what its owner wrote", is_made, False)
    runs_of_yosys()
    status, _, said = called("recheck", "out", "--yosys", "-q")
    tally.check("kept: recheck makes it", status == 1 and "another circuit" in said and runs_of_yosys() > 0, said)
    tally.check("kept: its options", "free" not in manifest_of("out")["options"])
