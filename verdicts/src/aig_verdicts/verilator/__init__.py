"""A second reader of Verilog and SystemVerilog: Verilator reads the sources, and no Yosys. `aig-verdicts run` does not ask
it yet.

- `dumps` knows Verilator, and `meaning` what its tree means.
- `design`, `instances`, `first_values`, `registers` and `circuit` make a circuit of words. `labels` has the names of bits.
- `btor2` writes the words; `blast` and `gates` make gates of that text.
- `probe` tries a Verilator before it is believed. `reader` and `command` are the whole."""
