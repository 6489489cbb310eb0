"""Which assertions and covers of Verilog have rows, notes on what has none, and the cycle of a run. It needs Yosys."""

from aig_verdicts.audit.cycles import cycles_of
from aig_verdicts.audit.row import Row
from aig_verdicts.audit.unread import Why
from believed import believed
from circuit.common import WithYosys


class Rows(WithYosys):
    def test_the_cycle_of_a_run(self):
        """An assertion at an edge fails one cycle before the last frame. One that also acts in a reset has no cycle."""
        head = "module m(input clk, input other, input rst, input a); reg q = 0; always @(posedge clk) q <= a;\n"
        for text, wanted in (
            ("always @(posedge clk) x: assert (!q); endmodule", "cycle 3"),
            ("always @(posedge clk) x: cover (a && q); endmodule", "cycle 3"),
            ("always @(posedge clk) if (a && rst) x: assert (!q); endmodule", "cycle 3"),
            ("s u(clk, q); endmodule module s(input clk, q); always @(posedge clk) x: assert (!q); endmodule",
             "cycle 3"),
            ("always @* x: assert (!q); endmodule", "cycle 4"),
            ("always @* if (q) x: assert (a); endmodule", "cycle 4"),
            ("always @(posedge clk or posedge rst) if (!rst) x: assert (!q); endmodule", "cycle 3"),
            ("always @(posedge other) x: assert (!q); endmodule", "None"),
            ("reg r = 0; always @(posedge other) r <= q; always @* x: assert (!r || !q); endmodule", "frame 4"),
        ):
            design = self.read(head + text)
            found = cycles_of(design.circuit).at(believed(Row(0, "assert", "x"), by="run", frames=5))
            self.assertEqual(str(found), wanted, text)

    def test_what_has_no_row_has_a_note(self):
        design = self.read("module other(input a); always @* x: assert (a); endmodule\n"
                           "module m(input a);\nalways @* y: assert (a);\n"
                           "`ifdef NEVER\nalways @* z: cover (a);\n`endif\nendmodule", top="m")
        self.assertEqual([it.name for it in design.assertions], ["y"])
        self.assertTrue(design.notes[0].startswith("x.v:1, x.v:5: no row"), design.notes)
        self.assertEqual([(it.why, it.place) for it in design.unread], [(Why.ELSEWHERE, "x.v:5")])

    def test_what_asks_for_liveness_has_no_row(self):
        """Yosys reads one by itself, and the translation leaves out the others; of two on a line each counts."""
        design = self.read("module m(input c, input a);\nx: assert property (@(posedge c) a |=> a);\n"
                           "always @(posedge c) assert property (s_eventually a);\n"
                           "y: assert property (@(posedge c) s_eventually a); assert property (@(posedge c) s_always a);\nendmodule")
        self.assertEqual([it.name for it in design.assertions if it.kind == "assert"], ["x"])
        self.assertEqual([(it.why, it.place) for it in design.unread],
                         [(Why.LIVENESS, "x.v:3"), (Why.LIVENESS, "x.v:4"), (Why.LIVENESS, "x.v:4")])

    def test_each_text_without_a_row_is_in_a_note(self):
        """Also beside one that has a row, and where a macro hides it."""
        design = self.read("""`define CHECK(x) assert (x)
            `define BOTH(x) `CHECK(x); cover (x)
            module other(input a); always @* `CHECK(a); endmodule
            module m(input a, input b); parameter P = 0;
              always @* begin `CHECK(a); `BOTH(b); end
              always @* begin y: assert (a); if (P) z: assert (b); end
              generate if (P) begin always @* begin `BOTH(a); end end endgenerate
              always @* begin w: assert (
                a); /* assert */ v:
                cover (b); end
            endmodule""", top="m")
        self.assertEqual(len([it for it in design.assertions if it.kind != "condition"]), 6)
        self.assertTrue(design.notes[0].startswith("x.v:3, x.v:6, x.v:7: no row"), design.notes)
        self.assertEqual([it.place for it in design.unread], ["x.v:6", "x.v:7", "x.v:7"])

    def test_macros_with_the_names_of_checks(self):
        """Each use is one assertion or cover, and no text of its own is in a note."""
        text = """`ifdef FORMAL
            `define assert(c) assert(c)
            `define cover(c) cover (c)
            `define assert_soon(c) `assert(c); `cover(!(c))
            `else
            `define assert(c)
            `define cover(c)
            `define assert_soon(c)
            `endif
            module other(input a); always @* `assert(a); endmodule
            module m(input a, input b); always @* begin `assert(a || !b); `cover(a);
              `assert_soon(a); if (b) begin `assert (a); assert (b); end end endmodule"""
        design = self.read(text, top="m")
        self.assertEqual([it.name for it in design.assertions if it.kind != "condition"],
                         ["x.v:11#0", "x.v:11#1", "x.v:12#0", "x.v:12#1", "x.v:12#2", "x.v:12#3"])
        self.assertEqual(design.notes, [
            "x.v:10: no row, for it is in no instance below m, or under an `if` or `ifdef` that is constant"])

    def test_what_is_left_out_has_a_note(self):
        for text, said in (
            ("reg q = 0; always @(posedge c)\nq <= #1 a;", "x.v:2: delays are left out"),
            ("wire\n#(2) w = a;", "x.v:2: delays are left out"),
            ("s #(2) u(a);", ""), ("s #(.P(2)) u(a);", ""), ("wire w = a; // #5 bind\n", ""),
            ("wire [3:0] w = a ? 3 : 4;", ""),
            ("reg y;\nalways @(a) y = a & b;", "x.v:2: `always` with a list"),
            ("reg y;\nalways @(a or b) y = a & b;", "x.v:2: `always` with a list"),
            ("reg y; always @(*) y = a & b;", ""),
            ("reg y = 0; always @(posedge c or negedge a) if (!a) y <= 0; else y <= b;", "asynchronous"),
            ("wire z = a;\nbind s t u(.a(a));", ""),
            ("always @*\nw: assert ($countbits(a, 'x) == 0);", "x.v:2: compares with x"),
            ("reg n [0:1]; always @(posedge c)\nn[0] <= a; always @(posedge c) n[b] <= b; wire y = n[a];",
             "several blocks write a memory"),
            ("reg n [0:1]; always @(posedge c) begin n[0] <= a; n[b] <= b; end wire y = n[a]; always @* w: assert (y);",
             ""),
        ):
            design = self.read("module t(input a); endmodule "
                               "module s #(parameter P = 1) (input a); wire b = a; endmodule "
                               f"module m(input c, a, b); {text} always @* x: assert (a); endmodule", top="m")
            self.assertTrue(any(said in note for note in design.notes) if said else not design.notes,
                            (text, design.notes))
