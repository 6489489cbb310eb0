"""Concurrent assertions of SystemVerilog for a reader that knows immediate ones alone.

`translation.translated` writes copies of sources in which each concurrent assertion is an immediate one in a clocked
block, with registers for what is still open. Each line stays where it is. What is not understood is rejected by its
file, line and word."""
