"""Signals that are free: the circuit and a simulator give them any value, and each way to check it again knows that."""

from __future__ import annotations

import shutil
from pathlib import Path

from bundles.common import called, manifest_of, write_manifest
from options.parameters import ran, simulated, words_of

DESIGN = """module part(input clk, input up, output reg [2:0] n, output [2:0] m);
  reg [2:0] last = 0;
  reg [1:0] store [0:1];
  assign m = n;
  initial n = 0;
  always @(posedge clk) begin n <= up ? n + 1 : n; last <= n; store[up] <= n; end
endmodule
module m(input clk, input up);
  wire [2:0] a, b, c, d;
  wire [2:0] next = a + 1;
  wire none = 0;
  wire [5:0] both = {a, b};
  part one(clk, up, a, c), two(clk, up, b, d);
  always @(posedge clk) begin
    alike: assert (a == b);
    copied: assert (a == c);
    steps: assert (next == a + 3'd1);
    odd: assert (next != 5);
    still: assert (!none);
    remembers: assert (one.last == two.last);
  end
endmodule
"""
# Without the two names inside of instances, which Yosys does not read.
TEXT = DESIGN.replace("    remembers: assert (one.last == two.last);\n", "")
# What is free, and the words of each row.
FREED = {
    (): {"alike": "holds", "copied": "holds", "steps": "holds", "odd": "fails", "still": "holds"},
    ("m.one.n",): {"alike": "fails", "copied": "holds", "steps": "holds", "odd": "fails", "still": "holds"},
    ("m.next",): {"alike": "holds", "copied": "holds", "steps": "fails", "odd": "fails", "still": "holds"},
    ("m.one.n", "m.two.n"): {"alike": "fails", "copied": "holds", "steps": "holds", "odd": "fails", "still": "holds"},
    ("m.one.last",): {"alike": "holds", "copied": "holds", "steps": "holds", "odd": "fails", "still": "holds"},
}
REFUSED = {
    "m.up": "up is an input, and has any value already", "m.none": "none is a constant",
    "m.a": "a is connected to one.n: free that one",
    "m.both": "both is connected to ", "m.one.m": "one.m is connected to one.n", "m.one.store": "no signal one.store",
    "m.three": "no signal three", "one.n": "write m.one.n", "m.": "no signal", "m.one": "no signal one",
    "other": "no module other",
    "m.n[0]": "no signal n[0]", "m.\\a": "no signal",
}


def signals(_, tally, __):
    """What is free in the circuit is free in a simulator, too, and the rest is as it was."""
    Path("m.v").write_text(TEXT)
    for free, wanted in FREED.items():
        status, _, said = ran("m.v", "--top", "m", *(word for it in free for word in ("--free", it)))
        tally.compare(f"signals: {free}: {said[:300]}", (status, words_of("out")), (5, wanted))
        tally.check(f"signals: {free}: in a simulator", simulated("out")[1], simulated("out")[0])
        rows = [it for it in manifest_of("out")["rows"] if it.get("result") == "fails"]
        played = manifest_of("out")["simulated"]["rows"]
        tally.compare(f"signals: {free}: played", [played[str(it["position"])][0] for it in rows],
                      ["agrees"] * len(rows))
        notes = [it for it in manifest_of("out")["notes"] if "is free: it has any value" in it]
        tally.compare(f"signals: {free}: notes", len(notes), len(free))


def kept(_, tally, __):
    """A bundle says what is free, and what is said of it is what Yosys makes again."""
    Path("m.v").write_text(TEXT)
    ran("m.v", "--top", "m", "--free", "m.one.n", out="bundle")
    tally.compare("kept: options", manifest_of("bundle")["options"]["free"], ["m.one.n"])
    status, _, said = called("recheck", "bundle", "--yosys", "--simulate", "-q")
    tally.check("kept: again", status == 5 and "with any value of m.one.n" in said and "as in Icarus" in said, said)
    for free, why in ((["m.two.n"], "another circuit"), (None, "another circuit"), (["m.one.last"], "another circuit"),
                      (["m.one.n", "part"], "no signal one.n")):
        shutil.rmtree("forged", ignore_errors=True)
        shutil.copytree("bundle", "forged")
        manifest = manifest_of("forged")
        manifest["options"].pop("free")
        manifest["options"].update({"free": free} if free else {})
        write_manifest(Path("forged"), manifest)
        status, _, said = called("recheck", "forged", "--yosys", "-q")
        tally.check(f"kept: forged as {free}", status == 1 and why in said, said)
    ran("m.v", "--top", "m", out="whole")
    status, out, said = called("compare", "whole", "bundle")
    tally.check("kept: compared", "free modules and signals are m.one.n, and were none" in out + said, out + said)


def rejected(_, tally, __):
    """What is no signal with a driver of its own is rejected by its name."""
    Path("m.v").write_text(TEXT)
    for name, wanted in REFUSED.items():
        status, out, said = ran("m.v", "--top", "m", "--free", name)
        tally.check(f"rejected: {name}", (status, out) == (1, "") and wanted in said, (status, said))
