"""What the reader stops at, with the place, and names and places in a circuit that it makes."""

from __future__ import annotations

import re
from pathlib import Path

from aig_verdicts.verilator import blast, labels
from aig_verdicts.verilator.dumps import schema
from aig_verdicts.verilator.dumps.tree import NotRead

from .shared import aiger_of, names_of, need, said_of

# A source, and what has to be said of it.
REJECTED = (
    ("an initial value of an input", "module t(input clk, d);\nreg q;\ninitial q = d;\nalways @(posedge clk) q <= !q;\n"
     "always @(posedge clk) assert (q);\nendmodule", r"t\.sv:2: the initial value of q is no constant"),
    ("an initial value that keeps an input", "module t(input clk, d);\nreg k;\ninitial k = d;\n"
     "always @(posedge clk) assert (k);\nendmodule", r"t\.sv:2: the initial value of k is no constant"),
    ("both edges", "module t(input clk, d);\nreg q;\nalways @(clk) q <= d;\nalways @(posedge clk or d) q <= d;\n"
     "always @(posedge clk) assert (q);\nendmodule", r"t\.sv:4: edges and other events of one block"),
    ("a loop without a constant end", "module t(input clk, input [3:0] d);\ninteger k;\nreg q;\nalways @* begin\nq = 0;\n"
     "for (k = 0; k < d; k = k + 1) q = !q;\nend\nalways @(posedge clk) assert (q);\nendmodule",
     r"t\.sv:6: a loop whose end depends on a signal"),
    ("= and <=", "module t(input clk, d);\nreg q;\nalways @(posedge clk) begin q = d; q <= !d; end\n"
     "always @(posedge clk) assert (q);\nendmodule", r"t\.sv:3: q gets = and <="),
    ("two drivers", "module t(input clk, d, e);\nwire q;\nassign q = d;\nassign q = e;\n"
     "always @(posedge clk) assert (q);\nendmodule", r"t\.sv:2: two drivers of q"),
    ("a port of both directions", "module s(inout x);\nendmodule\nmodule t(input clk, inout d);\ns u(d);\n"
     "always @(posedge clk) assert (d);\nendmodule", r"t\.sv:4: the port x of both directions"),
    ("a static variable", "module t(input clk, output reg [3:0] q);\nalways @(posedge clk) begin : b\n"
     "static int k = 5;\nk = k + 1;\nq <= k;\nassert (q != 3);\nend\nendmodule", r"t\.sv:3: a static variable of a block"),
    ("an event of a wire", "module t(input clk, d);\nreg q;\nalways @(posedge clk or posedge d) q <= !q;\n"
     "always @(posedge clk) assert (q);\nendmodule", r"t\.sv:3: 2 clocks of one block"),
    ("a module without a source", "module t(input clk);\nnowhere u(clk);\nendmodule", r"^Verilator: .*t\.sv:2:"),
    ("no Verilog", "module t(input clk\n", r"^Verilator: .*t\.sv:"),
    ("a file that is missing", None, r"^Verilator: "),
)
NAMED = """typedef struct packed {logic [1:0] tag; logic ok;} cfg_t;
module sub(input clk, input [7:4] d, output reg [4:7] q); always @(posedge clk) q <= d; endmodule
module t(input clk, input [7:4] d);
  cfg_t cfg; reg [3:0] m [2:1]; wire [3:0] w;
  reg r = 0; reg k; wire rst = d[7] & r;
  sub u0(clk, d, w);
  always @(posedge clk) begin cfg.tag <= d[5:4]; cfg.ok <= d[6]; m[2] <= d; m[1][1:0] <= d[5:4]; r <= d[4]; end
  always @(posedge clk or posedge rst) if (rst) k <= 0; else k <= d[5];
  always @(posedge clk) begin held: assert (cfg.tag != 3); assert (m[1] != w); cover (m[2] == 3 && k); end
endmodule
"""
LATCHES = {"cfg.ok", "cfg.tag[0]", "cfg.tag[1]", *(f"m[{j}][{k}]" for j in (1, 2) for k in range(4)), "r",
           "kept:k", "u0.q[4]", "u0.q[5]", "u0.q[6]", "u0.q[7]"}
# Lines of BTOR2 that are not read.
LINES = ("1 sort array 2 3", "9 nand 1 2 2", "9 add 1 2 3", "9 init 1 2 5", "9 init 1 6 2", "9 init 4 6 8", "9 fair 2",
         "9 bad 3", "9 and 1 2", "9 slice 1 3 3 0", "9 sort", "9 constd 1 1", "9 justice 1 2")
READ = "1 sort bitvec 1\n2 input 1 a\n4 sort bitvec 2\n3 input 4 b\n6 state 1 s\n8 const 4 11\n7 next 1 6 2\n"


def stops(_, tally, __):
    """Sources that are rejected, with the file and the line."""
    need("verilator")
    for name, text, wanted in REJECTED:
        file = Path("t.sv" if text else "none.sv")
        if text:
            file.write_text(text + "\n")
        said = said_of(file, "t")
        tally.check(f"{name}: rejected", re.search(wanted, said), said or "read")


def named(_, tally, __):
    """Names of inputs, registers and properties as the source has them."""
    need("verilator")
    Path("t.sv").write_text(NAMED)
    made = aiger_of("t.sv", "t")
    tally.compare("inputs", {it for it in names_of(made, "i") if it[:5] != "open:"}, {"clk", "d[4]", "d[5]", "d[6]", "d[7]"})
    tally.compare("registers", set(names_of(made, "l")), LATCHES)
    for name, indices in (("u0.q", (7, 6, 5, 4)), ("d", (4, 5, 6, 7))):  # the least significant one first
        found = [it for it in names_of(made, "l") + names_of(made, "i") if it.startswith(name + "[")]
        tally.compare(f"the order of {name}", found, [f"{name}[{k}]" for k in indices])
    tally.compare("properties", names_of(made, "b"), ["held", "t.sv:9", "t.sv:9"])
    for label, width, wanted in (("q", 1, ["q"]), ("q", 2, ["q[0]", "q[1]"]), ("up[0:2]", 3, ["up[2]", "up[1]", "up[0]"]),
                                 ("c.a[3:2],c.b", 3, ["c.b", "c.a[2]", "c.a[3]"]), ("kept:v[5:4]", 2, ["kept:v[4]", "kept:v[5]"]),
                                 ("p::x[1:0]", 2, ["p::x[0]", "p::x[1]"]), ("a,b", 3, ["a,b[0]", "a,b[1]", "a,b[2]"])):
        tally.compare(label, labels.bits_of(label, width), wanted)


def gates(_, tally, __):
    """Lines of BTOR2 that the plain blaster does not read, and a circuit of those that it reads."""
    tally.compare("a circuit", blast.blasted(READ), "aag 4 3 1 0 0 0 0\n2\n4\n6\n8 2 8\ni0 a\ni1 b[0]\ni2 b[1]\nl0 s\n")
    for line in LINES:
        try:
            blast.blasted(READ + line + "\n")
            tally.check(f"{line}: rejected", False)
        except NotRead as why:
            tally.check(f"{line}: rejected", str(why).startswith("BTOR2: "), why)
    tally.check("a state without a next value", _is_refused("1 sort bitvec 1\n2 state 1 s\n"))
    both = {"lhsp": 1, "rhsp": 1}
    for kind, counts, typed, is_right in (("ADD", both, True, True), ("NEW", {}, True, False), ("ADD", {"lhsp": 1}, True, False),
                                          ("ADD", both, False, False), ("ADD", {**both, "more": 1}, True, False)):
        tally.compare(f"{kind} of {counts}, {typed}", not schema.fault(kind, counts, typed), is_right)


def _is_refused(text):
    try:
        blast.blasted(text)
        return False
    except NotRead:
        return True
