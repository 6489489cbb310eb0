`define SIDE 1
