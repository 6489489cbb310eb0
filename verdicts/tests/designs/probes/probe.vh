// Each probe has these inputs. Its own signals are compared with Icarus Verilog, by their names.
`define PROBE(NAME) \
  module NAME(input clk, c, input [5:0] a, b, input signed [5:0] s, t, input [2:0] i, input signed [2:0] j);

// An assertion. Its probe has a signal LABEL_is, which says whether it holds.
`ifdef YOSYS
`define CHECK(LABEL, VALUE) LABEL: assert (VALUE)
`else
`define CHECK(LABEL, VALUE)
`endif
