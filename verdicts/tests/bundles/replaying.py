"""Sources as a simulator reads them. No simulator is needed for that."""

from __future__ import annotations

from aig_verdicts.replay.adapted import Adapted
from aig_verdicts.replay.lines import Lines, numbered
from aig_verdicts.replay.words import NotReplayed

BEGIN, VALUE = 'begin $display("aig begin 0 0 %m"); ', '$display("aig value 0 %b %m", !(!'
KEPT = {
    "an assertion": ("always @* a: assert (x == 1);", f"always @* {BEGIN}{VALUE}(x == 1))); end"),
    "at a clock": ("always @(posedge c) if (y) assert (x);", f"always @(posedge c) {BEGIN}if (y) {VALUE}(x))); end"),
    "of a module": ("assert property (x);", f"always @* {VALUE}(x)));"),
    "an item": ("always @* case (s) A: assert (x); endcase", f"always @* {BEGIN}case (s) A: {VALUE}(x))); endcase end"),
    "in a comment": ("// assert (x);\n/* assert */ wire w; // assert", "// assert (x);\n/* assert */ wire w; // assert"),
    "in a text": ('localparam t = "assert (x)"; assume property (y);',
                  f'localparam t = "assert (x)"; always @* {VALUE}(y)));'),
    "what prints": ('initial begin $display("a %b", (x)); if (y) $finish; else $fatal(1); end $error("W");',
                    'initial begin ; if (y) ; else ; end $error("W");'),
    "a time that is printed": ('always @* $display("%t", $time, "`x");', "always @* ;"),
    "what prints in a function": ("function f(input x); begin $write(x, $past(x)); f = x; end endfunction",
                                  "function f(input x); begin ; f = x; end endfunction"),
    "two lines": ("always @* assert (x &&\n  y);", f"always @* {BEGIN}{VALUE}(x &&\n  y))); end"),
    "a free value": ("wire [3:0] w = $anyseq; assert property (w);", f"wire [3:0] w ; always @* {VALUE}(w)));"),
    "a named block": ("always @* begin : b assert (x); end", f"always @* {BEGIN}begin : b {VALUE}(x))); end end"),
    "in a task": ("task t; begin assert (x); end endtask", f"task t; begin {VALUE}(x))); end endtask"),
}
REFUSED = {
    "an action": "always @* assert (x) else $error;",
    "no clock": "always @* assert (x == $past(x));",
    "a property": "property p; x; endproperty assert property (p);",
    "a clock of its own": "assert property (@(posedge c) x);",
    "a free value in an expression": "always @* assert (w == $anyseq);",
    "a file": 'initial f = $fopen("x");',
    "a program": 'initial $system("x");',
    "a time": "always @* assert ($time < 3);",
    "data from elsewhere": 'initial $readmemh("../x.hex", mem);',
    "data with a line": 'initial $readmemh("x\\naig own", mem);',
    "a directive": "`include \"x\"\nwire w;",
    "a place": "wire w; `line 3 \"x\" 0\n",
    "the testbench": "always @* assert (aig_tb.dut.x);",
    "the testbench with a backslash": "always @* assert (\\aig_tb .dut.x);",
}
TWO_STEPS = "module m(input c, input [2:0] v); always @(posedge c) if ($past(v, 2) == v) assert ($rose(v[0])); endmodule"
NUMBERED = "module m(input a,\n  input b);\n`define X(y) y \\\n  + 1\n/* a\n b */ wire w;\nendmodule"


def replaying(_, tally, __):
    for name, (text, wanted) in KEPT.items():
        found = Adapted(text)
        tally.compare(f"replay: {name}", found.text.rstrip(" "), wanted)
        tally.compare(f"replay: checks of {name}", len(found.checks), wanted.count("aig value"))
    for name, text in REFUSED.items():
        try:
            said = Adapted(text).text
        except NotReplayed:
            said = ""
        tally.compare(f"replay: refused: {name}", said, "")
    text = Adapted(TWO_STEPS).text
    tally.check("replay: two steps", "reg [2:0] aig_past_1_0 = `AIG_BEFORE, aig_past_1_1 = `AIG_BEFORE;" in text)
    tally.check("replay: they move", "aig_past_1_0 <= v; aig_past_1_1 <= aig_past_1_0;" in text)
    text = numbered("a.v", NUMBERED)
    lines = Lines(text)
    tally.compare("replay: numbered lines", [line for line in text.split("\n") if not line.startswith("`line")],
                  NUMBERED.split("\n"))
    tally.compare("replay: places", [lines.place(text.index(word)) for word in ("module", "input b", "wire w", "endmodule")],
                  [("a.v", 1), ("a.v", 2), ("a.v", 6), ("a.v", 7)])
