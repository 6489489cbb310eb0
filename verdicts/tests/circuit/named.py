"""The names in a circuit that is made of Verilog: of assertions with labels, signals, registers and bits. It needs
Yosys."""

import aig
from aig.tools import ToolFailed
from circuit.common import WithYosys


class Named(WithYosys):
    def test_labels(self):
        """A label that Yosys would reject: it is in another file, in a loop and in a case. A macro without the
        semicolon stays rejected, and so does a label that is a signal's name."""
        self.made("part.vh", "for (i = 0; i < 2; i = i + 1) begin : b always @* part: assert (a[i]); end")
        design = self.read("""`define CHECK(name, it) name: assert (it);
            module m(input [1:0] a); genvar i; `include "part.vh"
            for (i = 1; i >= 0; i = i - 1) begin : d always @* `CHECK(macro, !a[i]) end
            task t(input v); in_task: assert (v); endtask always @* begin t(a[0]); t(a[1]); end
            always @* case (a) 0: begin : s c: assert (!a[0]); end 1: assert (a[0]); \
              default: begin end endcase endmodule""")
        self.assertEqual([it.name for it in design.assertions if it.kind == "assert"],
                         ["b[0].part", "b[1].part", "d[0].macro", "d[1].macro", "in_task#0", "in_task#1", "s.c",
                          "x.v:5"])
        self.assertIn("a named block", design.script)
        self.assertNotIn(b"aig_verdicts", b"".join(design.sources.values()))
        for label, check in (("x", "`C(x, a[i]);"), ("a", "a: assert (a[i]);")):
            with self.assertRaises(ToolFailed) as raised:
                self.read("`define C(n, it) n: assert (it)\n"
                          "module m(input [1:0] a); genvar i; for (i = 0; i < 2; i = i + 1) begin\n"
                          f"always @* {check} end endmodule")
            self.assertRegex(str(raised.exception), rf"x.v:3: Yosys: .*\\{label}' .* leave out the label")

    def test_declared_indices(self):
        """Each bit has the index of the sources, and the bits are in the order of their weight."""
        text = """module s #(parameter W = 2) (input c, input [0:W-1] d, output reg [W+2:3] q); \
              always @(posedge c) q <= d; endmodule
            module m(input clk, input [5:4] a, input [2:4] b, input [7:7] one, output [4:3] q); parameter W = 2; \
              s u(clk, {a[4], b[4]}, q);
            reg [0:W-1] n [3:2]; reg [6:5] k [0:1]; reg [W-1:0] w [0:1]; \
              always @(posedge clk) begin n[{1'b1, one}] <= b[2:3]; k[one] <= a; w[one] <= a; end
            wire [-1:-2] low = ~a; always @* x: assert (|n[{1'b1, b[2]}] | k[b[3]][6] | w[b[4]][1]); \
              always @(posedge clk) y: assert ($past(b) != 3); endmodule"""
        found = aig.Circuit(self.read(text, top="m").circuit).entries
        words = [f"{it.letter} {it.name}" for it in found if it.letter in "ilo"]
        self.assertEqual(words, [
            "i clk", "i a[4]", "i a[5]", "i b[4]", "i b[3]", "i b[2]", "i one",
            "l q[3] u.q[3]", "l q[4] u.q[4]", "l k[0][6]", "l k[1][6]", "l n[2][1]", "l n[2][0]", "l n[3][1]",
            "l n[3][0]", "l w[0][1]", "l w[1][1]", "l past_1[0]", "l past_1[1]", "l past_1[2]", "l value_1", "l when_1",
            "o q[3]", "o q[4]", "o low[-2]", "o low[-1]", "o u.c", "o u.d[1]", "o u.d[0]"])
        text = ("module m(input c, input e, input [2:3] d, output reg [2:3] q); always @(posedge c) q <= d; "
                "reg r; always @(posedge e) r <= q[2]; always @* x: assert (!r); endmodule")
        words = [it.name for it in aig.Circuit(self.read(text).circuit).entries if it.letter == "l"]
        self.assertLessEqual({"q_before[3]", "q_before[2]", "d_before[3]", "d_before[2]", "c_before", "e_before"},
                             set(words))
        self.assertTrue(all(words), words)

    def test_names_of_registers_and_assumptions(self):
        """Also of those with asynchronous values, and of latches."""
        text = """module s(input clk, input [1:0] v); always @* lab: assume (v != 1); endmodule
            module m(input clk, input rst_n, input set, input clr, input d, input [1:0] v, output reg q);
            reg [3:2] n; reg lt; reg both; reg [1:0] mem [0:1]; reg p; s u(clk, v);
            always @(posedge clk or negedge rst_n) if (!rst_n) n <= 2; else if (d) n <= n + v;
            always @(posedge clk or posedge set) if (set) q <= 1; else q <= d;
            always @(posedge clk or posedge set or posedge clr) if (set) both <= 1; else if (clr) both <= 0; \
              else both <= d;
            always @* if (d) lt = v[0];
            always @(posedge clk) begin p <= n[2]; mem[d] <= v; assume (v != 2); assume (v != 3); end
            always @* a: assert (n != 3 || !q || lt || mem[d] != 3 || p || both);
            always @(posedge clk or negedge rst_n) if (rst_n) b: assert (n != 1); endmodule"""
        circuit = aig.Circuit(self.read(text, top="m").circuit)
        found = {letter: [it.name for it in circuit.entries if it.letter == letter] for letter in "loc"}
        self.assertLessEqual({"n_kept[2]", "n_kept[3]", "q_kept", "both_kept", "lt_kept", "p", "mem[0][1]"},
                             set(found["l"]))
        self.assertTrue(all(found["l"]), found["l"])
        self.assertLessEqual({"n[2]", "n[3]", "q", "both", "lt"}, set(found["o"]))
        self.assertEqual(sorted(found["c"]), ["u.lab", "x.v:8#0", "x.v:8#1"])

    def test_a_comment_changes_no_byte(self):
        """Where all assertions have labels: no name has a line, and Yosys sees the same order."""
        text = """module m(input clk, input rst, input push, input pop, input [3:0] d, output [3:0] o);
            reg [3:0] m [0:3]; reg [1:0] w = 0, r = 0; reg [2:0] n = 0; reg seen = 0; assign o = m[r];
            always @(posedge clk) begin seen <= 1; if (rst) begin w <= 0; r <= 0; n <= 0; end else begin
            if (push && n != 4) begin m[w] <= d; w <= w + 1; end if (pop && n != 0) r <= r + 1;
            n <= n + (push && n != 4) - (pop && n != 0); end end
            always @(posedge clk) begin if (seen && $past(rst)) cleared: assert (n == 0); am: assume (d != $past(d));
            if (seen && !$past(rst)) full: assert ($past(n) != 4 || n == 4 || $past(pop));
            two: assert ($past(n, 2) != 5); end
            always @* same: assert (n[1:0] == w - r); endmodule"""
        first = self.read(text, top="m").circuit
        for lines in (1, 3, 90, 1000):
            self.assertEqual(self.read("// A comment.\n" * lines + text, top="m").circuit, first, lines)

    def test_a_free_wire_has_its_name(self):
        """Also an output of a module without a body."""
        text = """module box(input i, output [3:2] o); endmodule
            module m(input clk, output reg q); wire [3:2] o; wire open; box u(clk, o); \
              always @(posedge clk) q <= o[3] & open; always @* x: assert (!q); endmodule"""
        circuit = aig.Circuit(self.read(text, top="m").circuit)
        self.assertEqual([it.name for it in circuit.entries if it.letter == "i"], ["clk", "o[2]", "o[3]", "open"])

    def test_names_of_signals(self):
        text = """module leaf(input c, input d, output reg [1:0] n); initial n = 0; \
              always @(posedge c) n <= n + d; endmodule
            module m(input clk, input go, input [1:0] v, output [1:0] shown); leaf u(clk, go, shown); \
              wire [3:0] mix = {v, shown[0], 1'b1};
            reg [1:0] mem [0:1]; always @(posedge clk) mem[go] <= v; wire [1:0] read = mem[go]; \
              function f(input a); f = !a; endfunction
            wire g = f(go);
            always @(posedge clk) assert ($past(v) != shown || g); endmodule"""
        circuit = aig.Circuit(self.read(text).circuit)
        found = {letter: [it.name for it in circuit.entries if it.letter == letter] for letter in "ilo"}
        self.assertEqual(found["i"], ["clk", "go", "v[0]", "v[1]"])
        self.assertEqual(found["l"], ["shown[0] mix[1] u.n[0]", "shown[1] u.n[1]", "mem[0][0]", "mem[0][1]",
                                      "mem[1][0]", "mem[1][1]",
                                      "past_1[0]", "past_1[1]", "value_0", "when_0"])
        self.assertEqual(found["o"], ["shown[0]", "shown[1]", "g", "mix[0]", "mix[1]", "mix[2]", "mix[3]", "read[0]",
                                      "read[1]", "u.c", "u.d"])
