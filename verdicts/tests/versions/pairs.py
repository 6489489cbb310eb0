"""Pairs of versions of a small queue: an edit each, and the truth of both ways. The truth is written by hand, and run_versions.py
sees it in Icarus Verilog: each failing run fails there, too."""

from __future__ import annotations

from typing import Dict, NamedTuple, Sequence, Tuple

BASE = """\
module queue(input clk, input rst, input push, input pop, input [3:0] din,
             output [3:0] dout, output full, output empty);
    reg [3:0] mem [0:3];
    reg [1:0] rd = 0, wr = 0;
    reg [2:0] count = 0;
    reg [4:0] ring = 1;
    reg [1:0] phase = 0;
    assign full = count == 4;
    assign empty = count == 0;
    assign dout = mem[rd];
    wire do_push = push && !full;
    wire do_pop = pop && !empty;
    always @(posedge clk)
        if (rst) begin
            rd <= 0;
            wr <= 0;
            count <= 0;
        end else begin
            if (do_push) begin
                mem[wr] <= din;
                wr <= wr + 1;
            end
            if (do_pop)
                rd <= rd + 1;
            count <= count + do_push - do_pop;
        end
    always @(posedge clk)
        ring <= rst ? 1 : {ring[3:0], ring[4]};
    always @(posedge clk)
        if (push)
            phase <= phase + 1;
    always @* begin
        bounded: assert (count <= 4);
        same: assert (count[1:0] == wr - rd);
        one: assert (ring != 0 && (ring & (ring - 1)) == 0);
        short: assert (phase != 3);
        filled: cover (full);
        if (do_pop)
            some: assert (count != 0);
        assert (!(full && empty));
    end
endmodule
"""
# The truth about BASE: what fails is a known bug.
TRUTH = {"bounded": "holds", "same": "holds", "one": "holds", "short": "fails", "filled": "reached", "some": "holds",
         "": "holds"}
LAST = "assert (!(full && empty));"


class Pair(NamedTuple):
    """An edit of BASE.

    edits    texts, and what takes their place
    truth    the truth about the new version where it is another one; None of a row that is gone
    forward  from BASE to it: the exit status, and the changes of rows that are not as before. `short` still fails
    back     the same from it to BASE
    more     another file
    """

    name: str
    edits: Sequence[Tuple[str, str]]
    forward: Tuple[int, Dict[str, str]]
    back: Tuple[int, Dict[str, str]]
    truth: Dict[str, str] = {}
    more: str = ""


SAME = (0, {"short": "still fails"})


def also(status: int, **words: str) -> Tuple[int, Dict[str, str]]:
    return status, {"short": "still fails", **words}


PAIRS = [
    Pair("comment", [("module queue", "// A queue.\n// It has a known bug.\nmodule queue")], SAME, SAME),
    Pair("mended", [("phase <= phase + 1", "phase <= phase == 2 ? 0 : phase + 1")], (0, {"short": "mended"}),
         (5, {"short": "broken"}), {"short": "holds"}),
    Pair("new_bug", [("full = count == 4", "full = count == 5")], also(5, bounded="broken"), also(0, bounded="mended"),
         {"bounded": "fails"}),
    Pair("bug_of_a_reset", [("ring <= rst ? 1 :", "ring <= rst ? 3 :")], also(5, one="broken"), also(0, one="mended"),
         {"one": "fails"}),
    Pair("renamed", [("count", "level"), ("phase", "step")], (5, {"bounded": "edited", "same": "edited", "some": "edited",
         "short": "edited"}), (5, {"bounded": "edited", "same": "edited", "some": "edited", "short": "edited"})),
    Pair("renamed_elsewhere", [("do_push", "pushes"), ("mem", "words")], SAME, SAME),
    Pair("widened", [("[0:3]", "[0:7]"), ("[1:0] rd", "[2:0] rd"), ("[2:0] count", "[3:0] count"), ("== 4", "== 8"),
                     ("count <= 4)", "count <= 8)"), ("count[1:0]", "count[2:0]")],
         also(0, bounded="edited", same="edited"), also(0, bounded="edited", same="edited")),
    Pair("added", [(LAST, f"{LAST}\n        fewer: assert (count != 4);")], also(5, fewer="new"), also(4, fewer="gone"),
         {"fewer": "fails"}),
    Pair("added_that_holds", [("same: assert", "least: assert (count + 1 > 0);\n        same: assert")],
         also(0, least="new"), also(4, least="gone"), {"least": "holds"}),
    Pair("refactored", [("count <= count + do_push - do_pop;", "case ({do_push, do_pop})\n                2'b10: count <= "
                         "count + 1;\n                2'b01: count <= count - 1;\n                default: ;\n            endcase"),
                        ("wire do_pop = pop && !empty;", "wire do_pop = !(!pop || count == 0);")], SAME, SAME),
    Pair("reset", [("reg [4:0] ring = 1", "reg [4:0] ring = 2"), ("rst ? 1 :", "rst ? 16 :")], SAME, SAME),
    Pair("input", [("input rst,", "input rst, input flush,"), ("if (rst) begin", "if (rst || flush) begin")], SAME, SAME),
    Pair("split", [("    reg [4:0] ring = 1;\n", "    ring5 u_ring(clk, rst);\n"),
                   ("    always @(posedge clk)\n        ring <= rst ? 1 : {ring[3:0], ring[4]};\n", ""),
                   ("        one: assert (ring != 0 && (ring & (ring - 1)) == 0);\n", "")],
         also(4, **{"u_ring.one": "new", "one": "gone"}), also(4, **{"u_ring.one": "gone", "one": "new"}),
         {"one": None, "u_ring.one": "holds"},
         "module ring5(input clk, input rst);\n    reg [4:0] ring = 1;\n    always @(posedge clk)\n        ring <= rst ? 1 : "
         "{ring[3:0], ring[4]};\n    always @*\n        one: assert (ring != 0 && (ring & (ring - 1)) == 0);\nendmodule\n"),
    Pair("assumed", [("    always @* begin\n", "    always @* begin\n        assume (!push);\n")],
         (5, {"short": "mended", "filled": "broken", "some": "weaker"}),
         (5, {"short": "broken", "filled": "mended", "some": "stronger"}),
         {"short": "holds", "filled": "never reached", "some": "vacuous"}),
    Pair("hidden", [("short: assert (phase != 3);", "short: assert (phase != 2);")], (5, {"short": "edited"}),
         (5, {"short": "edited"})),
    Pair("removed", [("        short: assert (phase != 3);\n", "")], (4, {"short": "gone"}), (5, {"short": "new"}),
         {"short": None}),
]
