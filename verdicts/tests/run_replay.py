#!/usr/bin/env python3
"""Plays designs in Icarus Verilog beside their circuits: what both read alike, what has another meaning in a simulation
(the table of verdicts/docs/VERDICTS.md), the testbenches that `replay` writes, and simulators that fail. It needs Yosys and
Icarus Verilog."""

import json
import os
import re
import shutil
import tempfile
from pathlib import Path

import paths  # noqa: F401
from bundles.common import called, manifest_of, tool, write_manifest
from library import runs, supervised
import replays

# A search of one frame is enough: the circuit is compared.
SHORT = ("--frames", "1", "--seconds", "5", "--abc", "", "--no-conditions", "--no-simulator", "--jobs", "1", "--quiet")
ALIKE = {
    "inout": """module m(input clk, inout p, input i, en, output reg q); assign p = en ? i : 1'bz;
        always @(posedge clk) q <= i; always @* ok: assert (q); endmodule""",
    "inout, array of wires": """module m(inout [2:0] t, input [2:0] d, input [1:0] k, output [2:0] y);
        wire [2:0] w [0:2]; assign w[0] = d; assign w[1] = ~d; assign w[2] = d / k; assign y = w[k]; assign t = d;
        always @* ok: assert (y != 5); endmodule""",
    "delays of gates": """module m(input a, b, c, output y); wire n; and #30 one(n, a, b); or #40 two(y, n, c);
        always @* ok: assert (!y); endmodule""",
    "parts at an edge": """module m(input a, b, input [3:0] d, output reg [3:0] y); wire n = !a; reg z = 0;
        always @(negedge n) y[1:0] <= d[1:0]; always @(negedge n) y[3:2] <= d[3:2]; always @(posedge b) z <= d[0];
        always @* ok: assert (y != z); endmodule""",
    "memory of two clocks": """module m(input w, r, e, input [1:0] a, b, input [3:0] d, output reg [3:0] q);
        reg [3:0] mem [0:3]; always @(posedge w) if (e) mem[a] <= d; always @(posedge r) q <= mem[b];
        always @* ok: assert (q != 11); endmodule""",
    "macros": """`define CHECK(name, e) \\
            name: assert (e);
        module n(input c, d, output reg q = 0); always @(posedge c) begin q <= d ^ q; `CHECK(low, !q) end endmodule
        module m(input c, input [1:0] d); n two[1:0](c, d, ); n one(.c(c), .d(d[0])); endmodule""",
    "words of SystemVerilog": """module m(input before, after, output reg q); always @(posedge before) q <= after;
        always @* ok: assert (q); endmodule""",
    "names with a backslash": r"""module n(input c, a, output reg q); initial q = 0; always @(posedge c) begin q <= a ^ q;
        ok: assert (q); end endmodule
        module m(input \clk.i , \a.b , \wire , input [3:0] \x[3] , output reg [3:0] \q$! , output y); reg \r.s ;
        reg [1:0] \m.m [0:1]; always @(posedge \clk.i ) begin \q$! <= \x[3] ; \r.s <= \r.s ^ \a.b ;
            if (\wire ) \m.m [\a.b ] <= \x[3] ; end
        n \u[0] (\clk.i , \a.b ^ \m.m [0][1], y); always @* low: assert (\q$! != 7 || \r.s ); endmodule""",
    "module with an attribute for none": """(* blackbox *)
        module n(input a, output y); assign y = !a; ok: assert property (a); endmodule
        module m(input a, b, output y); wire w; n u(a, w); assign y = w & b; always @* low: assert (!y); endmodule""",
    "assertions of constants": """module m #(parameter K = 2)(input clk, d, output reg q); always @(posedge clk) q <= d;
        always @* begin one: assert (1); if (K == 2) two: assert (K < 3); if (K == 3) three: assert (q); end
        generate if (K > 4) always @* four: assert (q); endgenerate always @(posedge clk) if (0) assume (d); endmodule""",
    "names of the testbench": """module m(input clk, initstate, chosen, show, input [1:0] dut, aig, output reg [1:0] drives_d, past_1);
        always @(posedge clk) begin drives_d <= dut; past_1 <= drives_d ^ {chosen, show} ^ initstate ^ aig; end
        always @* ok: assert (past_1 != 2); endmodule""",
    "negative indexes": """module m(input c, input [1:-2] d, output reg [-1:-3] q); reg [-2:1] r; reg signed [1:-1] s;
        always @(posedge c) begin r <= d; q <= r[-2:0] ^ q; s[-1] <= d[-2]; end always @* ok: assert (q != 5);
        endmodule""",
    "latch": """module m(input c, e, d, output reg q, r); always @* if (e) q = d; always @(posedge c) r <= q;
        always @* ok: assert (q | !r); endmodule""",
    "past": """module m(input c, input [2:0] d);
        always @(posedge c) if ($past(d, 2) == 3) ok: assert ($stable(d)); endmodule""",
    "variables and words of an enum": """module m(input c, w, input [1:0] a, d, output reg y);
        typedef enum logic [1:0] {LOW, MIDDLE, HIGH, TOP} level; level now, words [0:3];
        always @(posedge c) begin if (w) begin if (d[0]) words[a] <= TOP; else words[a] <= HIGH; end
            now <= words[d]; y <= now == HIGH; end
        always @* ok: assert (!y); endmodule""",
    "several pasts": """module m(input c, input signed [2:0] d, e, input f); always @(posedge c)
        if ($past(d) == -3 && $past(e) == 2 && $rose(f)) ok: assert ($changed(d) || $past(e, 3) == 1); endmodule""",
    "assertion and reset": """module m(input c, r, g, output reg q = 0); always @(posedge c or negedge r)
        if (!r) q <= 0; else begin q <= g; ok: assert (!g); end endmodule""",
}
# Of these, each signal of the circuit is compared.
COMPARED_WHOLE = ("names with a backslash", "negative indexes")
# What has another meaning in a simulation, the signal or assertion that differs, and what both sides say of it, if that
# is always the same.
UNLIKE = {
    "full_case": ("y", """module m(input [1:0] s, output reg y);
        always @* (* full_case *) case (s) 0: y = 0; 1: y = 1; endcase always @* ok: assert (y | !y); endmodule"""),
    "set and reset": ("q", """module m(input c, s, r, d, output reg q); always @(posedge c, posedge s, posedge r)
        if (r) q <= 0; else if (s) q <= 1; else q <= d; always @* ok: assert (!q); endmodule"""),
    "compared with x": ("y", """module m(input [3:0] a, b, output y); assign y = (a / b) === 4'bxxxx;
        always @* ok: assert (!y); endmodule"""),
    "x in an if": ("y", """module m(input a, b, output reg y); always @* if (a ? 1'bx : b) y = 1; else y = 0;
        always @* ok: assert (!y); endmodule"""),
    "list of signals": ("y", """module m(input a, b, output reg y); always @(a) y = a & b;
        always @* ok: assert (!y); endmodule"""),
    "delays": ("q", """module m(input c, output reg q); initial begin q = 0; #1000000 q = 1; end
        always @(posedge c) q <= q; always @* ok: assert (q); endmodule"""),
    "two writers of one word": (r"mem\[\d\]", """module m(input c, p, q, a, output [1:0] y); reg [1:0] mem [0:1];
        always @(posedge c) if (p) mem[a] <= 1; always @(posedge c) if (q) mem[a] <= 2; assign y = mem[a];
        always @* ok: assert (y != 3); endmodule""", "10, and 01 in the circuit"),
    "task in a list of all": ("y", """module m(input a, b, output reg y); task t(input d); y = d & b; endtask
        always @* t(a); always @* ok: assert (!y); endmodule"""),
    "function in a list of all": ("y", """module m(input a, b, output reg y); function f(input d); f = d & b; endfunction
        always @* y = f(a); always @* ok: assert (!y); endmodule"""),
}


ADDS = """module m(input clk, input [3:0] d, output reg [3:0] q); initial q = 0;
        always @(posedge clk) q <= q + d; always @* ok: assert (q != 16 + d); endmodule"""
ASSUMES = ADDS.replace("endmodule", "always @* few: assume (d < 3); endmodule")
STORES = """module m(input clk, input [1:0] a, output [3:0] y); reg [3:0] mem [0:3]; integer i;
        initial for (i = 0; i < 4; i = i + 1) mem[i] = i; always @(posedge clk) if (a == 3) mem[a] <= 3;
        assign y = mem[a]; always @* ok: assert (y != 9); endmodule"""
STILL = """module m(input [3:0] d, output reg [3:0] q); initial q = 0;
        always @* ok: assert (q != 16 + d); endmodule"""
OPEN = """module m(input clk, d, output reg q); always @* ok: assert (q == q | d); endmodule"""
RESETS = """module m(input clk, rn, input [1:0] d, output reg [1:0] q); initial q = 2;
        always @(posedge clk or negedge rn) if (!rn) q <= 0; else q <= d; always @* ok: assert (q == q | d); endmodule"""
OTHER, SAYS = ("q + d", "q - d"), "disagrees with the circuit: "
# Bundles of a forger: the text of a design, what is another text in the sources of its bundle, and what the auditor reads.
FORGED = {
    "no forger": (ADDS, ("", ""), "1 signals, 450 values: as in Icarus Verilog"),
    "another operator": (ADDS, OTHER, SAYS + "q (m.v:1)"),
    "another operator for Icarus": (ADDS, ("q + d", "q\n`ifdef __ICARUS__\n+\n`else\n-\n`endif\nd"), SAYS),
    "x": (ADDS, ("q + d", "4'bx"), " x there (seed "),
    "no register": (ADDS, ("q", "r"), "; not compared: 1 signal (seed "),
    "no first value": (ADDS, ("initial q = 0;", ""), SAYS + "q (m.v:1) in frame 0: xxxx, and 0000"),
    "another first value": (ADDS, ("q = 0", "q = 4"), SAYS + "q (m.v:1) in frame 0: 0100, and 0000"),
    "first value": (ADDS.replace("initial q = 0;", ""), ("reg [3:0] q);", "reg [3:0] q); initial q = 0;"),
                    SAYS + "q (m.v:1) in frame 0: 0000, and xxxx"),
    "another first value beside a reset": (
        RESETS, ("q = 2", "q = 1"), SAYS + "q (m.v:1) in frame 0: 01, and 10"),
    "first word": (STORES, ("= i;", "= 9;"), SAYS + "mem[0] (m.v:1) in frame 0: 1001, and 0000"),
    "no clock": (STILL, (STILL, ADDS), SAYS + "q (m.v:1)"),
    "register that is free": (OPEN, ("always", "always @(posedge clk) q <= d; always"),
                              SAYS + "q (m.v:1): has a value in the sources, and is free"),
    "assumption": (ASSUMES, (" few: assume (d < 3);", " begin end"), SAYS + "the assumption few: is not in the sources"),
    "assumption of another value": (ASSUMES, ("< 3", "< 9"), SAYS + "the assumption few in frame"),
    "no assumption": (ADDS, ("endmodule", "always @* assume (d < 3); endmodule"), SAYS + "assume in dut (m.v:2): is in"),
    "no assertion": (ADDS, ("endmodule", "\nalways @* assert (d < 3); endmodule"), SAYS + "assert in dut (m.v:3): is in"),
    "no assertion, never asked": (ADDS, ("endmodule", "\nalways @* if (q == 16 + d) assert (d < 3); endmodule"),
                                  "; no row is about m.v:3 (seed "),
    "assertion": (ADDS, ("ok: assert (q != 16 + d);", "begin end"), SAYS + "ok (m.v:2): is not in the sources"),
    "printed": (ADDS, ("q + d;", 'q - d; initial begin $display("aig own"); $finish; end'), SAYS + "q (m.v:1)"),
    "printed by a function": (ADDS, ("q + d;", 'q - d; reg r = $fopen("aig_tb.v");'), "cannot play the design: m.v:2: `$fopen`"),
    "program": (ADDS, ("q + d;", 'q - d; initial $system("id");'), "cannot play the design: m.v:2: `$system`"),
    "other data": (ADDS, ("q + d;", 'q + d; initial $readmemh("../m.v", q);'), "of a file that is not in the bundle"),
    "testbench": (ADDS, ("q + d", "q + aig_tb.d"), "cannot play the design: m.v:2: `aig_tb`"),
    "place": (ADDS, ("module m", '`line 9 "m.v" 0\nmodule m'), "cannot play the design: m.v: `line"),
    "other file": (ADDS, ("module m", '`include "/etc/passwd"\nmodule m'), "`include of a file that is not in the bundle"),
    "another end": (ADDS, ("endmodule", "endmodule endmodule"), ", so nothing is said of the sources"),
}


# A simulator that preprocesses, and then prints what no testbench prints.
NOISE = """for word; do case $word in -E) exec iverilog "$@" ;; esac; done
printf '#!/bin/sh\\necho aig shape p0 x x; echo aig values 0 1\\n' > aig.vvp"""


def needs(*names):
    for name in names:
        if shutil.which(name) is None:
            raise runs.LeftOut(f"there is no {name}")


def made(text, *words):
    """The bundle of a design in the current folder."""
    Path("m.v").write_text(re.sub(r"(?m)^ {8}", "", text) + "\n")
    shutil.rmtree("out", ignore_errors=True)
    short = [it for it in SHORT if it != "--no-conditions" or "--conditions" not in words]
    return called("run", "m.v", "--top", "m", "--out", "out", *short, *(it for it in words if it != "--conditions"))


def replayed(*words):
    status, out, err = called("replay", "out", "--random", "60", *words)
    return status, out + err


def alike(_, tally, __):
    needs("yosys", "iverilog")
    for name, text in ALIKE.items():
        said = made(text)
        status, out = replayed("--verbose")
        is_whole = name not in COMPARED_WHOLE or "not compared" not in out
        tally.check(f"replay: {name}", status == 0 and out.count("as in iverilog") == 3 and is_whole, f"{said} {out}")


def unlike(_, tally, __):
    """That each known difference is one: what a simulator reads as the circuit does has to leave the table."""
    needs("yosys", "iverilog")
    for name, (signal, text, *values) in UNLIKE.items():
        said = made(text)
        status, out = replayed()
        is_first = re.search(rf"iverilog disagrees: {signal} \(m\.v:\d+\) in frame \d+: {''.join(values)}", out)
        tally.check(f"replay: {name} has another meaning", status == 5 and is_first is not None, f"{said} {out}")


def testbenches(_, tally, __):
    """A testbench needs no other file: its first lines say how to run it, and what it prints."""
    needs("yosys", "iverilog")
    made(ALIKE["latch"])
    replayed("--to", "bench")
    text = Path("bench/0.tb.v").read_text()
    command = re.search(r"^//   (iverilog .*)$", text, re.MULTILINE)[1]
    wanted = re.search(r"`(aig value \d+ 0) \.\.`", text)[1]
    ran = supervised.run(["sh", "-c", command], cwd="bench", capture_output=True, text=True, check=False)
    tally.check("replay: a testbench by itself", ran.returncode == 0 and wanted in ran.stdout, f"{command} {ran}")


def simulators(_, tally, __):
    """Simulators that are missing, crash, or print nonsense say nothing of a design."""
    needs("yosys", "iverilog")
    shown = ("--frames", "2", "--abc", "", "--jobs", "1")
    Path("m.v").write_text(re.sub(r"(?m)^ {8}", "", ALIKE["past"]) + "\n")
    plain = called("run", "m.v", "--out", "plain", *shown, "--no-simulator")
    last = plain[2].rstrip()
    tally.check("simulator: none", last.endswith("; not compared with a simulator: plain/index.html"), last)
    for name, body in {"fails": "exit 1", "is silent": "exit 0", "prints noise": NOISE}.items():
        program = tool(f"{name}.sh".replace(" ", "_"), body)
        status, out, err = called("run", "m.v", "--out", name, *shown, "--simulator", program)
        tally.compare(f"simulator: {name}", (status, out), plain[:2])
        said = json.loads(Path(name, "MANIFEST.json").read_text())["simulated"]
        is_open = said["agrees"] is None and "cannot play" in said["circuit"]
        tally.check(f"simulator: {name}: what it says", is_open, f"{said} {err}")
        last = err.rstrip().split("\n")[-1]
        is_said = "; not compared with a simulator: " in last and "cannot play the design: " in last
        tally.check(f"simulator: {name}: the last line", is_said and last.endswith(f": {name}/index.html"), last)
    right = called("run", "m.v", "--out", "right", *shown)
    tally.compare("simulator: one that works", (right[0], right[1]), plain[:2])
    said = json.loads(Path("right/MANIFEST.json").read_text())["simulated"]
    count = re.match(r"[\d,]+ signals, [\d,]+ values: as in Icarus", said["circuit"])
    tally.check("simulator: values", count is not None, said)
    words = {word for word, _ in said["rows"].values()}
    tally.compare("simulator: rows", words, {"agrees"} if words else set())


BESIDE = """module m(input clk, d, output reg q); always @(posedge clk) q <= d;
        ok: assert property (@(posedge clk) d |=> q); endmodule
        (* keep_hierarchy *) module beside #(parameter N = 2)(clk, d); input clk; input [N-1:0] d;
        typedef struct packed {logic v; logic [3:0] d;} e_t; e_t e;
        no: assert property (@(posedge clk) $stable(e.d)); endmodule"""
# A run of the cover, in which this simulator reads a constant in another way: an assertion fails that holds in the circuit.
BURIED = """module m(input clk, input [17:0] k, output reg [2:0] y, output reg t = 0); localparam ODD = 0; initial y = 0;
        always @(posedge clk) begin t <= k == 18'h29c41; y <= k == 18'h29c41 ? ODD : 0; end
        always @(posedge clk) begin zero: assert (y == 0); rare: cover (t); end endmodule"""


def hidden(_, tally, __):
    """A module that is not below the top one is no reason not to play the design. What the run of a row shows of another
    row counts."""
    needs("yosys", "iverilog")
    shown = ("--frames", "4", "--abc", "", "--jobs", "1", "--seconds", "5")
    Path("beside.sv").write_text(re.sub(r"(?m)^ {8}", "", BESIDE) + "\n")  # a file with the name of a module in it
    status, out, err = called("run", "beside.sv", "--top", "m", "--out", "beside", *shown)
    said = json.loads(Path("beside/MANIFEST.json").read_text())["simulated"]
    tally.check("hidden: beside the top module", said["agrees"] is True and ": as in Icarus" in said["circuit"], said)
    Path("m.v").write_text(re.sub(r"(?m)^ {8}", "", BURIED) + "\n")
    program = tool("other.sh", '[ -f aig_tb.v ] && sed -i "s/ODD = 0/ODD = 5/" aig_tb.v\nexec iverilog "$@"')
    tally.compare("hidden: the same", called("run", "m.v", "--out", "same", *shown)[0], 0)
    status, out, err = called("run", "m.v", "--out", "other", "--simulator", program, *shown)
    tally.check("hidden: a row is denied by the run of another one", status == 4 and re.search("zero +disagrees", out), out)
    said = json.loads(Path("other/MANIFEST.json").read_text())["simulated"]
    tally.check("hidden: MANIFEST.json", said["agrees"] is False and "disagrees with the circuit" in said["circuit"], said)
    status, _, err = called("recheck", "other", "-q", "--simulate", "--simulator", program)
    tally.check("hidden: recheck", status == 4 and "ALARM" in err, err)


def denied(_, tally, __):
    """A row that the simulator denies is none, and others say that the circuit is another one."""
    needs("yosys", "iverilog")
    text = UNLIKE["compared with x"][1].replace("endmodule", "always @* same: assert (a == a); endmodule")
    Path("m.v").write_text(re.sub(r"(?m)^ {8}", "", text) + "\n")
    status, out, err = called("run", "m.v", "--out", "out", "--frames", "2", "--abc", "", "--jobs", "1")
    words = {line.split()[3]: line for line in out.splitlines()}
    tally.compare("denied: the table", (status, [words[name].split()[4] for name in ("ok", "same")]),
                  (4, ["disagrees", "holds"]))
    tally.check("denied: another row", "the circuit is not as in Icarus Verilog" in words["same"], out)
    tally.check("denied: the last lines", "disagrees with the circuit: y (m.v:1)" in err, err)
    tally.check("denied: the summary", "1 hold, 1 denied" in err or "1 denied by the simulator, 1 hold" in err, err)
    page = Path("out/index.html").read_text()
    tally.check("denied: the page", "Denied" in page and "fails, and does not fail in the circuit" in page)
    status, _, err = called("recheck", "out", "-q")
    tally.check("denied: recheck takes no word of it", status == 0 and "2 hold" in err, err)


def auditors(_, tally, __):
    """Sources that are not those of the circuit: `recheck --simulate` is alarmed, and without it nobody looked."""
    needs("yosys", "iverilog")
    made(ALIKE["latch"])
    last = called("recheck", "out", "-q", "--simulate")[2].rstrip()
    tally.check("auditors: the sources", last.endswith(", which is no proof"), last)
    status, _, last = called("recheck", "out", "-q", "--sources", "m.v")
    tally.check("auditors: their own files", last.rstrip().endswith("; the sources are your files"), last)
    Path("m.v").write_text(Path("m.v").read_text().replace("q = d", "q = d ^ 0"))
    status, _, last = called("recheck", "out", "-q", "--sources", "m.v")
    tally.compare("auditors: another text", (status, last),
                  (1, "aig-verdicts: m.v: the bundle has another text than your file\n"))
    source = Path("out/sources/m.v")
    source.write_text(source.read_text().replace("q = d", "q = !d"))
    write_manifest(Path("out"), manifest_of("out"))
    last = called("recheck", "out", "-q")[2].rstrip()
    tally.check("auditors: not compared", last.endswith("; not compared with the sources"), last)
    last = called("recheck", "out", "-q", "--simulate", "--page", "page.html")[2].rstrip()
    tally.check("auditors: an alarm", "; ALARM: Icarus Verilog" in last, last)
    tally.check("auditors: on the page", "disagrees with the circuit" in Path("page.html").read_text())


def forged(_, tally, __):
    """Bundles of forgers, whose sources are others than those of the circuit: none is as in Icarus Verilog."""
    needs("yosys", "iverilog")
    bundles = {}
    for name, (text, (old, new), wanted) in FORGED.items():
        if text not in bundles:
            made(text)
            bundles[text] = Path("out").rename(f"bundle{len(bundles)}")
        shutil.rmtree("out", ignore_errors=True)
        shutil.copytree(bundles[text], "out")
        source = Path("out/sources/m.v")
        source.write_text(source.read_text().replace(re.sub(r"(?m)^ {8}", "", old), re.sub(r"(?m)^ {8}", "", new)) if old
                          else source.read_text())
        write_manifest(Path("out"), manifest_of("out"))
        status, _, err = called("recheck", "out", "-q", "--simulate")
        is_alarmed = status == 4 and "ALARM" in err or SAYS not in wanted
        tally.check(f"forged: {name}", wanted in err and is_alarmed, f"{status} {err}")


def senders(_, tally, __):
    """What `recheck` shows is its own: no notes, versions or lines of the sender; the macros are named. A source that is
    named as a file of the testbench is not run. A seed plays the same runs."""
    needs("yosys", "iverilog")
    made(ADDS.replace("module m", "`ifdef LESS\nmodule m").replace("endmodule", "endmodule\n`endif"), "-D", "LESS", "--conditions")
    manifest = manifest_of("out")
    manifest["notes"] = ["proved by foreigners"]
    manifest["versions"]["yosys"] = "foreign 1"
    manifest["simulated"] = {"by": "foreigners", "circuit": "as in foreign", "agrees": True, "rows": {}}
    manifest["rows"][1]["notes"] = ["foreign note"]
    write_manifest(Path("out"), manifest)
    own = ("--sources", "m.v")
    for words, has_text in (((), False), (own, True)):
        status, out, err = called("recheck", "out", "--page", "page.html", "--junit", "rows.xml", "--json", *words)
        said = out + Path("page.html").read_text() + Path("rows.xml").read_text()
        tally.check(f"senders: nothing foreign {words}", status == 0 and "foreign" not in said, f"{status} {err}")
        tally.compare(f"senders: lines of the sources {words}", "ok: assert (q != 16 + d)" in said, has_text)
        tally.check(f"senders: macros {words}", "the sources are read as module m, with the macros LESS" in said)
    line = "aig-verdicts: the bundle says that the sources are read as module m, with the macros LESS\n"
    tally.check("senders: macros, on the terminal", line in err, err)
    remade = called("recheck", "out", "--yosys")[2]
    said = "aig-verdicts: the sources are read as module m, with the macros LESS"
    tally.check("senders: macros, where Yosys made the circuit again", said in remade and "the bundle says that the sources" not in remade, remade)
    one, other = (called("recheck", "out", "-q", "--simulate", "--seed", "7")[2] for _ in range(2))
    tally.check("senders: a seed", one == other and "(seed 7), which is no proof" in one, one + other)
    manifest["sources"].append("aig_tb.v")
    manifest["sums"]["sources/aig_tb.v"] = ""
    Path("out/sources/aig_tb.v").write_text("module aig_tb; endmodule\n")
    write_manifest(Path("out"), manifest)
    err = called("recheck", "out", "-q", "--simulate")[2]
    tally.check("senders: a testbench", "cannot play the design: a source has the name aig_tb.v" in err, err)
    Path("n.v").write_text("")
    status, _, err = called("recheck", "out", "-q", "--sources", "n.v", "m.v")
    tally.check("senders: files", status == 1 and "not in the bundle" in err or "none of your files" in err, err)


def nothing(_, tally, __):
    """Where nothing was played, the status is not 0."""
    needs("yosys", "iverilog")
    Path("m.v").write_text("module m(input clk, go, output reg [2:0] n = 0); always @(posedge clk) if (go) n <= n + 1;\n"
                           "always @* begin low: assert (n < 2); all: assert (n < 8); end endmodule\n")
    called("run", "m.v", "--out", "out", "--frames", "4", "--abc", "", "--jobs", "1", "-q")
    for words, wanted, text in ((("--only", "low"), 0, "1 runs in"), (("--only", "nosuch"), 1, "there is no assertion nosuch"),
                                (("--only", "low", "--only", "b7"), 1, "there is no assertion b7"), (("--only", "all"), 4, "0 runs in"),
                                (("--only", "b0"), 4, "0 runs in"), (("--only", "all", "--only", "low"), 0, "1 runs in"), ((), 0, "1 runs in")):
        status, out, err = called("replay", "out", *words)
        tally.check(f"nothing: replay {words}", status == wanted and text in err, (status, out, err))


def in_folder(part):
    """The part in an empty folder, on the program that is tested."""
    def checked(program, tally, chosen):
        os.environ["AIG_PROGRAM"] = program.path
        before = os.getcwd()
        with tempfile.TemporaryDirectory() as folder:
            os.chdir(folder)
            try:
                return part(program, tally, chosen)
            finally:
                os.chdir(before)

    checked.__doc__ = part.__doc__
    return checked


if __name__ == "__main__":
    runs.main(__doc__, {part.__name__: in_folder(part) for part in (
        alike, unlike, testbenches, simulators, hidden, denied, auditors, forged, senders, nothing, *replays.PARTS)})
