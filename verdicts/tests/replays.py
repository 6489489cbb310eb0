"""What a comparison with a simulator has to see: simulators that read one word of a design in another way, so that one
signal, one bit, one cover or one run differs."""

import json
import os
import re
import shutil
import sys
from pathlib import Path

from bundles.common import called, manifest_of, tool, write_manifest
from library import runs

from aig.circuit import Circuit
from aig_verdicts.audit.bundle import Bundle
from aig_verdicts.audit.recheck import recheck
from aig_verdicts.replay.outcome import Word
from aig_verdicts.replay.replay import Replay
from aig_verdicts.replay.run import Bounds, simulated
from aig_verdicts.replay.simulator import Simulator
from aig_verdicts.replay.stimulus import Dice
from aig_verdicts.replay.words import NotReplayed
from aig_verdicts.audit.simulated import AGREES
from aig_verdicts.audit.timing import of_facts
from aig.tools import Stop

SHORT = ("--frames", "6", "--seconds", "5", "--abc", "", "--jobs", "1", "--fresh")
WIRES = "".join(f" wire w{at}; assign w{at} = d ^ q[{at % 3}];" for at in range(80))
WIDE = """module m(input clk, d, output reg [2:0] q = 0, output reg [79:0] far = 0); always @(posedge clk) begin
    q <= q + d; far <= {far[78:0], d}; end
    %s wire w80; assign w80 = d ^ q[1];
    always @(posedge clk) begin fine: assert (q <= 7); met: cover (q == 3'd2); end
endmodule
""" % WIRES
# What a simulator reads in another way, and what differs then.
UNLIKE = {"a signal after the 64th": ("w80 = d ^ q[1]", "w80 = d ^ !q[1]", r"w80 \(m\.v:\d+\)"),
          "a bit after the 32nd": ("{far[78:0], d}", "{far[78:70], !far[69], far[68:0], d}", r"far \(m\.v:\d+\)"),
          "a cover": ("q == 3'd2", "q == 3'd1", r"met \(m\.v:\d+\)"),
          "an assertion": ("q <= 7", "q <= 5", r"fine \(m\.v:\d+\)")}
# Only with a 1 in an input that the runs leave open does an assertion fail in a simulator that reads ODD in another way.
OPEN = """module m(input clk, go, any, output reg seen = 0, output reg [2:0] n = 0); localparam [2:0] ODD = 3'd0;
    initial begin seen = 0; n = 0; end
    always @(posedge clk) begin seen <= seen | go; n <= any & go ? ODD : 3'd0; end
    always @(posedge clk) begin none: assert (n == 0); rare: cover (seen); end
endmodule
"""
PART = """module m(input clk, v, input [6:0] d, output reg [4:0] q);
    typedef struct packed {logic [3:0] addr; logic v;} req_t; req_t req;
    always_ff @(posedge clk) begin req <= {d[3:0], v}; q <= req.addr + 1; end
    reg [1:0] n = 0; always @(posedge clk) if (n < 3) n <= n + 1;
    still: assert property (@(posedge clk) n == 3 && $stable(req.addr) |=> q == $past(q) || 1);
    whole: assert property (@(posedge clk) n == 3 && $stable(req) |=> $stable(q) || 1);
endmodule
"""
ENUM = """package p; typedef enum logic [1:0] {IDLE, BUSY, DONE} state_t;
    typedef struct packed {logic [3:0] code; logic go;} word_t; endpackage
module m(input logic clk, input p::word_t w, output p::state_t s, output logic [3:0] n); initial begin s = p::IDLE; n = 0; end
    always_ff @(posedge clk) begin case (s) p::IDLE: s <= w.go ? p::BUSY : p::IDLE; p::BUSY: s <= p::DONE; default: s <= p::IDLE;
        endcase n <= n + w.code; end
    never: assert property (@(posedge clk) s != p::DONE);
endmodule
"""
# A function of C that a source calls, and a comment by which Verilator would leave something out.
PRINTS = 'package p; import "DPI-C" function int puts(input string text); int shown = puts("aig own");'
COMMENT = "n + w.code + /*verilator translate_off*/ 1 /*verilator translate_on*/ + 0"


def needs(*names):
    for name in names:
        if shutil.which(name) is None:
            raise runs.LeftOut(f"there is no {name}")


def other(old, new):
    """An Icarus Verilog that reads something else."""
    edit = f"import sys; p = 'aig_tb.v'; t = open(p, encoding='latin-1').read(); open(p, 'w', encoding='latin-1').write(t.replace({old!r}, {new!r}))"
    Path("edit.py").write_text(edit + "\n")
    return tool("other.sh", f'[ -f aig_tb.v ] && {sys.executable} {Path("edit.py").resolve()}\nexec iverilog "$@"')


def said_in(folder):
    return json.loads(Path(folder, "MANIFEST.json").read_text())["simulated"]


def everything(_, tally, __):
    """All signals, all of their bits, covers and assertions are compared in random runs."""
    needs("yosys", "iverilog")
    Path("m.v").write_text(WIDE)
    status, out, err = called("run", "m.v", "--out", "out", "--no-simulator", "-q", *SHORT)
    out = called("replay", "out", "--random", "90")[1]
    tally.check("everything: the same", out.count("as in iverilog: 83 signals") == 3, out + err)
    for name, (old, new, wanted) in UNLIKE.items():
        out = called("replay", "out", "--random", "90", "--simulator", other(old, new))[1]
        line = next((it for it in out.splitlines() if it.startswith("random run 1 ")), "")
        tally.check(f"everything: {name}", re.search("disagrees: " + wanted, line) is not None, out)
        last = called("recheck", "out", "-q", "--simulate", "--simulator", other(old, new))
        tally.check(f"everything: {name}: recheck", last[0] == 4 and "; ALARM: " in last[2], last)


def drawn(_, tally, __):
    """Random runs are others each time, and a seed plays the same again. What a run leaves open is 0, 1 and random."""
    needs("yosys", "iverilog")
    Path("m.v").write_text(OPEN)
    called("run", "m.v", "--out", "out", "--no-simulator", "-q", *SHORT)
    bundle = Bundle(Path("out"))
    circuit, timing = Circuit(bundle.circuit()), of_facts(bundle.manifest["timing"])
    frames = [[it[1] for it in Dice(circuit, timing, (), Stop(), seed).run(20, number)]
              for seed, number in ((0, 1), (0, 2), (0, 3), (7, 1), (8, 1), (7, 1))]
    tally.check("drawn: each number and each seed are other runs", len(set(map(str, frames[:5]))) == 5, frames)
    tally.compare("drawn: the same seed", frames[3], frames[5])
    lines = [called("recheck", "out", "-q", "--simulate")[2] for _ in range(2)]
    seeds = [re.findall(r"\(seed (\d+)\)", it) for it in lines]
    tally.check("drawn: recheck says its seed, another one each time", all(map(len, seeds)) and seeds[0] != seeds[1], lines)
    witness = recheck(Path("out")).summed(next(row for row in recheck(Path("out")).rows if row.kind == "cover").files["witness"])
    tally.check("drawn: the run leaves an input open", b"x" in witness, witness)
    tally.compare("drawn: the same", called("replay", "out")[0], 0)
    status, out, _ = called("replay", "out", "--simulator", other("ODD = 3'd0", "ODD = 3'd5"))
    tally.check("drawn: a difference that needs a 1", status in (4, 5) and "none (m.v:" in out, out)


def parts_of_structs(_, tally, __):
    """`$stable` of a part of a struct is played."""
    needs("yosys", "iverilog")
    Path("m.sv").write_text(PART)
    err = called("run", "m.sv", "--out", "out", *SHORT)[2]
    said = said_in("out")
    tally.check("parts of structs", said["agrees"] is True and said["by"].startswith("Icarus"), f"{said} {err}")
    tally.check("parts of structs: what was compared", said["compared"]["unasked"] == 0 and said["compared"]["values"] > 100, said)


def verilator(_, tally, __):
    """What Icarus Verilog cannot read is played by Verilator. Another reading is seen there, too."""
    needs("yosys", "iverilog", "verilator", "g++", "make")
    Path("m.sv").write_text(ENUM)
    called("run", "m.sv", "--out", "out", "--no-simulator", "-q", *SHORT)
    bundle = recheck(Path("out"))
    said = simulated(bundle, bundle.rows, "iverilog", Bounds(0.0, 1, 7), Stop())
    if said.by.startswith("Icarus") and said.agrees:
        raise runs.LeftOut(f"{said.by} reads an enum in a package")
    tally.check("verilator: as in it", said.by.startswith("Verilator") and said.agrees and said.as_in.values > 500, said)
    tally.check("verilator: why, and what it does not tell", "Icarus Verilog" in said.circuit and "open, and x, were not" in said.circuit, said)
    tally.compare("verilator: the row", said.rows[0].word, AGREES)
    sources = Path("out/sources/m.sv").read_text()
    for name, old, new in (("another reading", "n + w.code", "n - w.code"), ("a function of C", "package p;", PRINTS),
                           ("a division", "n + w.code", "n + w.code / w.go"), ("a comment that gives orders", "n + w.code", COMMENT)):
        Path("out/sources/m.sv").write_text(sources.replace(old, new))
        write_manifest(Path("out"), manifest_of("out"))
        try:
            playing = Replay(recheck(Path("out")), Simulator("iverilog", Stop()), Stop())
            told = playing.random(30, 1)
            tally.check(f"verilator: {name}", told.word is Word.DISAGREES and "n " in told.said(""), told)
        except NotReplayed as error:
            tally.check(f"verilator: {name}", name.startswith("a ") and "Verilator" not in str(error)
                        or "a division" in str(error), error)


def alone(_, tally, __):
    """Without Verilator, it is said what Icarus Verilog says."""
    needs("yosys", "iverilog")
    Path("m.sv").write_text(ENUM)
    called("run", "m.sv", "--out", "out", "--no-simulator", "-q", *SHORT)
    os.environ["PATH"], before = str(Path("none").resolve()), os.environ["PATH"]
    try:
        Path("none").mkdir()
        for name in ("iverilog", "vvp", "sh"):
            Path("none", name).symlink_to(shutil.which(name, path=before))
        bundle = recheck(Path("out"))
        said = simulated(bundle, bundle.rows, "iverilog", Bounds(0.0, 1, 7), Stop())
    finally:
        os.environ["PATH"] = before
    is_silent = said.agrees is None and "cannot play the design" in said.why and "Verilator" not in said.why
    tally.check("alone", said.by.startswith("Icarus") and (said.agrees or is_silent), said)


PARTS = (everything, drawn, parts_of_structs, verilator, alone)
