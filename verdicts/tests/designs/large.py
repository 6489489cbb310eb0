#!/usr/bin/env python3
"""Prints a design of N channels, 25 of which have some 13,000 gates: each is a link with credits over a queue, a decimal
digit and a shift register, with ten assertions and two covers. One channel in ten has a bug.

usage: large.py N > large.v"""

import sys

QUEUE = """\
module queue(input clk, input rst, input we, input [7:0] wd, input re, output [7:0] rd, output [2:0] n);
  reg [7:0] mem [0:3];
  reg [1:0] wp = 0, rp = 0;
  reg [2:0] count = 0;
  wire pop = re && count != 0;
  assign rd = mem[rp];
  assign n = count;
  always @(posedge clk)
    if (rst) begin wp <= 0; rp <= 0; count <= 0; end
    else begin
      if (we) begin mem[wp] <= wd; wp <= wp + 1; end
      if (pop) rp <= rp + 1;
      count <= count + we - pop;
    end
endmodule
"""
CHANNEL = """\
module channel #(parameter BUG = 0) (input clk, input rst, input started, input want, input take, input [7:0] data,
                                     input enable, output [7:0] q);
  reg [2:0] credits = 4;
  reg sent = 0, returned = 0;
  reg [7:0] in_flight = 0;
  wire [2:0] occupied;
  wire send = want && credits != 0;
  queue rx(clk, rst, sent, in_flight, take, q, occupied);
  always @(posedge clk)
    if (rst) begin credits <= 4; sent <= 0; returned <= 0; end
    else begin
      sent <= send; in_flight <= data; returned <= take && occupied != 0;
      if (send && returned) credits <= BUG ? credits + 1 : credits;
      else if (send) credits <= credits - 1;
      else if (returned) credits <= credits + 1;
    end
  reg [3:0] digit = 0, copy = 0;
  reg [5:0] lfsr = 1;
  always @(posedge clk) if (enable) begin
    digit <= digit == 9 ? 0 : digit + 1;
    copy <= copy == 9 ? 0 : copy + 1;
  end
  always @(posedge clk) lfsr <= {lfsr[4:0], lfsr[5] ^ lfsr[4]};
  always @* begin
    a0: assert (occupied <= 4);
    if (started) a1: assert (credits + occupied + sent + returned == 4);
    a2: assert (digit != 13);
    a3: assert (digit == copy);
    a4: assert (lfsr != 0);
    a5: assert (credits <= 4 || BUG);
    a6: assert (digit <= 9);
    if (occupied == 4 && take) a7: assert (!(credits == 4));
    a8: assert (copy != 13);
    a9: assert (lfsr != 6'h15);
    c0: cover (occupied == 4);
    c1: cover (digit == 9 && credits == 1);
  end
endmodule
"""


def top(count):
    """The module with all channels, and the assumption that the reset is 1 at the first frame alone."""
    ports = ", ".join(f"input want{k}, input take{k}, input [7:0] data{k}, input en{k}, output [7:0] q{k}"
                      for k in range(count))
    channels = "".join(f"  channel #({int(k % 10 == 3)}) ch{k}(clk, rst, started, want{k}, take{k}, data{k}, en{k}, q{k});\n"
                       for k in range(count))
    return (f"module large(input clk, input rst, {ports});\n  reg started = 0;\n  always @(posedge clk) started <= 1;\n"
            f"  always @* assume (rst == !started);\n{channels}endmodule\n")


if __name__ == "__main__":
    if len(sys.argv) != 2:
        sys.exit(__doc__)
    print(QUEUE + CHANNEL + top(int(sys.argv[1])), end="")
