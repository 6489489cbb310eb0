`define SIDE 2
