"""Verilog that is rejected with its line, and hostile names that are no commands. It needs Yosys."""

import os

from aig.tools import ToolFailed
from circuit.common import WithYosys


class Rejected(WithYosys):
    def test_hostile_names(self):
        """Neither a path nor a name in a source is a command."""
        text = """module \\sub;!touch${IFS}owned (input c, input \\d"#; , output reg \\q[3] );
            initial \\q[3] = 0; always @(posedge c) \\q[3] <= \\d"#; ;
            always @(posedge c) assert (!\\q[3] || $past(\\d"#; )); endmodule
            module \\top<script> (input clk, input \\a=b@1 , output z);
            \\sub;!touch${IFS}owned  \\u;!touch${IFS}owned (clk, \\a=b@1 , z); a: assert property (!z); endmodule"""
        before = set(os.listdir())
        design = self.read(text, "a b;!touch owned.v")
        self.assertEqual([it.name for it in design.assertions if it.kind == "assert"],
                         ["u;!touch${IFS}owned:a_b__touch_owned.v:3", "a"])
        self.assertEqual(set(os.listdir()), before)

    def test_rejected(self):
        for text, said in (
            ("module m(input a, b); wire y = a; assign y = b; always @* x: assert (y); endmodule", "several drivers"),
            ("module m(input a); wire y; assign y = a; assign y = 1'b1; always @* x: assert (a); endmodule",
             "y has several drivers"),
            ("module m; wire y; assign y = 1'b0; assign y = 1'b1; always @* x: assert (y); endmodule",
             "y has several drivers"),
            ("module m(input [1:0] a); wire [1:0] y; assign y[0] = 1'b0; assign y = a; always @* x: assert (!a[0]); "
             "endmodule", "y has several drivers"),
            ("module m(input c, a); reg q = 0; always @(posedge c) q <= a; assign q = 1'b0; "
             "always @* x: assert (!q); endmodule", "x.v:1 has several drivers"),
            ("module s(input q); assign q = 1'b0; endmodule module m(input a); s u(a); always @* x: assert (!a); "
             "endmodule", "u.q has several drivers"),
            ("module m(input a); assign a = 1'b1; always @* x: assert (a); endmodule", "a has several drivers"),
            ("module m; reg a = 0; initial begin a = 0; #5 a = 1; end always @* x: assert (a); endmodule",
             "a has several drivers"),
            ("module m; function [2:0] f(input [2:0] b); f = b; endfunction\nalways @* x: assert (f(~2'd1) == 6); "
             "endmodule", "x.v:2: a function or task gets a constant"),
            ("module m; parameter [1:0] P = 3; reg [3:0] r; task t(input [3:0] b); r = b; endtask\n"
             "always @* begin t(P + 1'b1); x: assert (r == 4); end endmodule",
             "x.v:2: a function or task gets a constant"),
            ("module m(input a); task t(inout b); b = !b; endtask\n"
             "reg y; always @* begin y = a; t(y); end always @* x: assert (y != a); endmodule",
             "x.v:1: a task has an `inout` argument"),
            ("module m(input signed a); reg n [0:1]; initial n[1] = 0;\nwire y = n[a]; always @* x: assert (!y); "
             "endmodule", "x.v:2: the address of a memory is signed"),
            ("module m(input c, input signed a); reg n [0:1]; initial begin n[0] = 0; n[1] = 0; end\n"
             "always @(posedge c) n[a] <= 1; always @* x: assert (!n[1]); endmodule",
             "x.v:2: the address of a memory is signed"),
            ("module s(output q); endmodule module m; s u(); always @* x: assert (u.n); endmodule",
             "x.v:1: u.n is a name inside of an instance"),
            ("module m(input [1:0] s, output reg y); always @* case (s) 2'b1x: y = 0; default: y = 1; endcase "
             "always @* x: assert (y); endmodule", "x.v:1: an item of a `case` has x"),
            ("module m(input c, a);\nalways @(posedge c) if (a) $finish; always @* x: assert (a); endmodule",
             "x.v:2: `$finish` or `$stop` outside"),
            ("module m(input c, a); reg q; wire w = c ? ~q : a;\nalways @* if (!c) q = w; always @* x: assert (q);\n"
             "wire v = q ^ u; wire u = c ? v : a; endmodule", "x.v:"),
            ("module s(input a, output o); assign o = a; endmodule module m(input a, b, output wand y);\n"
             "assign y = b; s u(a, y); always @* x: assert (y); endmodule",
             "x.v:2: an output of an instance drives a `wand`"),
            ("module m; wire [31:0] y; assign y = 32'd5; assign y = 32'd3; always @* x: assert (y == 5); endmodule",
             "y has several drivers"),
            ("module m; integer n = 3; initial n = 5; always @* x: assert (n == 5); endmodule",
             "n has several drivers"),
            ("module m; wire [23:0] y; assign y = \"abc\"; assign y = \"abd\"; always @* x: assert (y[0]); endmodule",
             "y has several drivers"),
            ("module s(input a); endmodule\n"
             "module m(output [3:0] y); function [3:0] f(input [3:0] b); begin f = 0; f[b - 1] = 1; end endfunction\n"
             "assign y = f(4'd0); always @* x: assert (y == 0); endmodule", "x.v:2: yosys was ended by signal"),
            ("module m(input a); endmodule", "no assertion"),
            ("module m(input a);\nalways @* x: assert (a) endmodule", f"{self.at}/x.v:2: Yosys: syntax error"),
            ("module m(input a); nothing u(a); always @* x: assert (a); endmodule", "nothing"),
            ("(* blackbox *) module s(input a, output y); endmodule module m(input a); wire y; s u(a, y);\n"
             "assign y = a; always @* x: assert (y); endmodule", "several drivers"),
            ("module m(input a, output q, n); assign q = ~(a | n);\nassign n = ~(a ^ q); always @* x: assert (q); "
             "endmodule", "x.v:2: a loop of gates"),
            ("module m(input c, l, input [1:0] d, output reg [1:0] q);\n"
             "always @(posedge c or posedge l) if (l) q <= d; else q <= 0; always @* x: assert (q != 3); endmodule",
             "x.v:2: q is loaded asynchronously"),
            ("module m(input a); wire p = !p & a; always @* x: assert (p); endmodule", ""),
            ('`include "/dev/zero"\nmodule m(input a); always @* x: assert (a); endmodule', "missing_zero"),
        ):
            with self.assertRaises(ToolFailed, msg=text) as raised:
                self.read(text)
            self.assertIn(said, str(raised.exception))

    def test_signed_addresses(self):
        """An address is rejected if it may be negative in Verilog, and nothing else is."""
        def source(*addresses):
            words = "".join(f"\nassign y[{k}] = n[{it}];" for k, it in enumerate(addresses))
            return f"""module m(input c, input signed [1:0] s, t, input [1:0] u, output [19:0] y); \
              wire [1:0] of_s = s; wire signed [1:0] of_u = u; integer i;
                reg n [0:3]; reg signed [1:0] w [0:3]; reg [1:0] v [0:3]; \
                  initial for (i = 0; i < 4; i = i + 1) begin n[i] = i; w[i] = i; v[i] = i; end
                reg signed [1:0] d [0:1][0:1]; initial begin d[0][0] = 0; d[0][1] = 1; d[1][0] = 2; d[1][1] = 3; end
                function signed [1:0] f(input [1:0] x); f = x; endfunction \
                  function [1:0] g(input signed [1:0] x); g = x; endfunction
                always @(posedge c) i <= i + 1; always @* x: assert (y[0]);{words} endmodule"""

        for address in ("s", "$signed(u)", "-s", "s & t", "u ? s : t", "s >>> u", "f(u)", "w[u]", "d[1][u[0]]", "of_u",
                        "$signed({s})"):
            with self.assertRaises(ToolFailed, msg=address) as raised:
                self.read(source(address))
            self.assertIn("x.v:6: the address of a memory is signed", str(raised.exception))
        self.read(source("$unsigned(s)", "{s}", "s & u", "u ? s : u", "$unsigned(s) >>> t", "g(s)", "v[s[0]]", "of_s",
                         "s[1:0]", "s == t", "s + 1", "i",
                         "3'sd3", "w[u][0]", "d[1][1][0]", "s + 2'd0", "{1'b0, s}"))
