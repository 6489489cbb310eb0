"""What several tables of rows share: files, and lines of explanations."""

from library.runs import EXAMPLES, contents

COUNTER = contents(f"{EXAMPLES}/counter.aag")
WRAPS = contents(f"{EXAMPLES}/wraps.aag")
WITNESS = contents(f"{EXAMPLES}/wraps.wit")
CR_LF = "lines end with CR LF"
GZIP = "the file is compressed with gzip"
UNPACK = "zcat FILE > NEW, and name the new file"
VERILOG = "module m(input a, output b); endmodule\n"
FORMULA = "c i 2 0 0\np cnf 10 20\n"
NAME_STIMULUS = "name a stimulus: see \"Stimulus\" in man aig-formats"
NAME_WITNESS = "name a witness: see \"Witness\" in man aig-formats"
WRITE_AGAIN = "write the file again: the command that should write it may have failed"
CUT = ("something is missing at the end", "write or copy the file again: it may be cut off")
FORMAT = "wanted: `aag` or `aig`, and a space (in the first word)"
CONVERT = "convert it to AIGER, with write_aiger of yosys or ABC"
OTHER = "the witness may be for another circuit: compare it with aig info CIRCUIT"
