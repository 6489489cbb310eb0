"""The one Yosys script that makes a circuit of Verilog. Nothing of it is proved.

An x, a wire without a driver, a division by zero and a read out of range are free: each frame has any value there. So all
of them become `$anyseq` before a pass runs that may choose a value, and registers without an initial value become
`$anyinit`, which no pass merges or removes. These passes choose, and run only afterwards: `wreduce`, `opt_dff`, `opt_merge`,
`opt_expr -mux_undef`, and `techmap` of `$shiftx` and of divisions."""

from __future__ import annotations

from typing import List, Optional, Sequence

# Cells with values that Verilog leaves open. No value of a circuit is x, so nothing is equal to an x that is written in
# `===`.
_UNKNOWN = r"""
(* techmap_celltype = "$div $mod $divfloor $modfloor" *)
module by_zero(A, B, Y);
  parameter A_SIGNED = 0, B_SIGNED = 0, A_WIDTH = 1, B_WIDTH = 1, Y_WIDTH = 1, _TECHMAP_CELLTYPE_ = "";
  input [A_WIDTH-1:0] A; input [B_WIDTH-1:0] B; output [Y_WIDTH-1:0] Y; wire [Y_WIDTH-1:0] R;
  generate
    if (_TECHMAP_CELLTYPE_ == "$div")
      \$div #(.A_SIGNED(A_SIGNED), .B_SIGNED(B_SIGNED), .A_WIDTH(A_WIDTH), .B_WIDTH(B_WIDTH), .Y_WIDTH(Y_WIDTH)) _TECHMAP_REPLACE_ (.A(A), .B(B), .Y(R));
    else if (_TECHMAP_CELLTYPE_ == "$mod")
      \$mod #(.A_SIGNED(A_SIGNED), .B_SIGNED(B_SIGNED), .A_WIDTH(A_WIDTH), .B_WIDTH(B_WIDTH), .Y_WIDTH(Y_WIDTH)) _TECHMAP_REPLACE_ (.A(A), .B(B), .Y(R));
    else if (_TECHMAP_CELLTYPE_ == "$divfloor")
      \$divfloor #(.A_SIGNED(A_SIGNED), .B_SIGNED(B_SIGNED), .A_WIDTH(A_WIDTH), .B_WIDTH(B_WIDTH), .Y_WIDTH(Y_WIDTH)) _TECHMAP_REPLACE_ (.A(A), .B(B), .Y(R));
    else
      \$modfloor #(.A_SIGNED(A_SIGNED), .B_SIGNED(B_SIGNED), .A_WIDTH(A_WIDTH), .B_WIDTH(B_WIDTH), .Y_WIDTH(Y_WIDTH)) _TECHMAP_REPLACE_ (.A(A), .B(B), .Y(R));
  endgenerate
  assign Y = |B ? R : {Y_WIDTH{1'bx}};
endmodule
(* techmap_celltype = "$shiftx" *)
module out_of_range(A, B, Y);
  parameter A_SIGNED = 0, B_SIGNED = 0, A_WIDTH = 1, B_WIDTH = 1, Y_WIDTH = 1;
  input [A_WIDTH-1:0] A; input [B_WIDTH-1:0] B; output [Y_WIDTH-1:0] Y; wire [Y_WIDTH-1:0] R, IN;
  \$shift #(.A_SIGNED(0), .B_SIGNED(B_SIGNED), .A_WIDTH(A_WIDTH), .B_WIDTH(B_WIDTH), .Y_WIDTH(Y_WIDTH)) value (.A(A), .B(B), .Y(R));
  \$shift #(.A_SIGNED(0), .B_SIGNED(B_SIGNED), .A_WIDTH(A_WIDTH), .B_WIDTH(B_WIDTH), .Y_WIDTH(Y_WIDTH)) range (.A({A_WIDTH{1'b1}}), .B(B), .Y(IN));
  genvar k;
  generate for (k = 0; k < Y_WIDTH; k = k + 1) assign Y[k] = IN[k] ? R[k] : 1'bx; endgenerate
endmodule
(* techmap_celltype = "$eqx $nex" *)
module equal_to_x(A, B, Y);
  parameter A_SIGNED = 0, B_SIGNED = 0, A_WIDTH = 1, B_WIDTH = 1, Y_WIDTH = 1, _TECHMAP_CELLTYPE_ = "";
  parameter [A_WIDTH-1:0] _TECHMAP_CONSTMSK_A_ = 0, _TECHMAP_CONSTVAL_A_ = 0;
  parameter [B_WIDTH-1:0] _TECHMAP_CONSTMSK_B_ = 0, _TECHMAP_CONSTVAL_B_ = 0;
  input [A_WIDTH-1:0] A; input [B_WIDTH-1:0] B; output [Y_WIDTH-1:0] Y;
  wire _TECHMAP_FAIL_ = ^(_TECHMAP_CONSTMSK_A_ & _TECHMAP_CONSTVAL_A_) !== 1'bx && ^(_TECHMAP_CONSTMSK_B_ & _TECHMAP_CONSTVAL_B_) !== 1'bx;
  assign Y = _TECHMAP_CELLTYPE_ == "$nex";
endmodule"""

# `memory_memx` asks whether an address has an x. None has, for all of them are free values by then.
_ADDRESSES = r"""
(* techmap_celltype = "$nex" *)
module address_without_x(A, B, Y);
  parameter A_SIGNED = 0, B_SIGNED = 0, A_WIDTH = 1, B_WIDTH = 1, Y_WIDTH = 1;
  input [A_WIDTH-1:0] A; input [B_WIDTH-1:0] B; output [Y_WIDTH-1:0] Y;
  assign Y = 1'b1;
endmodule"""

# A cover becomes an assertion that it never happens. An assertion under an `if` gets a twin, which says that the `if` never
# happens: if that is proved, nothing was asserted. So does one that Yosys says is never asserted.
_TWINS = r"""
(* techmap_celltype = "$cover" *)
module cover_of_yosys(input A, input EN);
  \$assert _TECHMAP_REPLACE_ (.A(!A), .EN(EN));
endmodule
(* techmap_celltype = "$assert" *)
module assert_of_yosys(input A, input EN);
  parameter _TECHMAP_CONSTMSK_EN_ = 0, _TECHMAP_CONSTVAL_EN_ = 0;
  wire _TECHMAP_FAIL_ = _TECHMAP_CONSTMSK_EN_ && _TECHMAP_CONSTVAL_EN_;
  \$assert _TECHMAP_REPLACE_ (.A(A), .EN(EN));
  \$assert \_TECHMAP_REPLACE_.condition (.A(1'b0), .EN(EN));
endmodule"""

# What a write or an assertion reads is x where there is no write and no assertion. Its multiplexers are found in so many
# steps, and choose another value there; an x that they do not find is a free value that nothing depends on.
_STEPS = 16


# What `opt -fine` does in each of its rounds. It goes round until nothing changes, for a circuit that each search cuts smaller.
_ROUND = ["opt_muxtree", "opt_reduce -fine", "opt_merge", "opt_dff -keepdc", "opt_clean", "opt_expr -fine -keepdc"]
_ROUNDS = 3


def _map(name: str, text: str) -> List[str]:
    return ["read_verilog -icells -nooverwrite <<END_OF_MAP", *text.strip().split("\n"), "END_OF_MAP", f"design -stash {name}"]


def reading(sources: Sequence[str], top: Optional[str], defines: Sequence[str], language: str = "-sv ") -> List[str]:
    """The commands that read the sources."""
    return [
        " ".join([f"tee -q -o tree read_verilog {language}-formal -dump_ast1 -no_dump_ptr", *(f"-D{it}" for it in defines), *sources]),
        f"hierarchy -check {f'-top {top}' if top else '-auto-top'}",
        "write_rtlil read.il", "design -reset",
    ]


# What is done with the files between these commands.
PREPARED = ("# here aig-verdicts works on read.il: it makes each cell $check an assertion with registers (lowered.py), leaves out boxes,\n"
            "# unread memories and loop variables (left_out.py), makes variables of blocks x that are no latches (block_locals.py),\n"
            "# writes some processes anew (processes.py: prepared), gives comparisons one bit (comparisons.py), gives assertions the names\n"
            "# of blocks that were made of labels (labels.py), and writes lines in names with seven digits (registers.py)")
NAMED = ("# here aig-verdicts makes circuit.aig of made.aig: the names and the order of inputs, latches, outputs and properties are\n"
         "# others, inputs that nothing reads are gone (names.py), and gates that are twice there or constant (hashed.py)")
DIRECTED = "# here aig-verdicts works on flat.il: it makes each inout port that the design drives an output (wiring.py)"
FREED = "# here aig-verdicts works on flat.il: it makes each z an x, which has any value (wiring.py)"
UNDRIVEN = "# here aig-verdicts works on flat.il: it gives the signals of --free any value (left_out.py)"
SETTLED = "# here aig-verdicts works on reset.il: it keeps the order of asynchronous values, and clocks assertions (processes.py: settled)"


def resetting() -> List[str]:
    """The commands that find asynchronous resets."""
    return ["read_rtlil read.il", "proc_clean", "proc_rmdead", "proc_prune", "proc_init", "proc_arst", "write_rtlil reset.il",
            "design -reset"]


def flattening() -> List[str]:
    """The commands up to one flat module with all of its cells. Equal assertions are kept apart from the beginning."""
    return [
        *_map("unknown", _UNKNOWN), *_map("addresses", _ADDRESSES),
        "read_rtlil reset.il", "proc_mux", "proc_dlatch", "proc_dff", "proc_memwr", "proc_clean", "opt_expr -keepdc",
        "setattr -set keep 1 t:$assert t:$cover t:$assume",
        "json -o modules.json",
        "techmap -max_iter 1 -map %unknown t:$div t:$mod t:$divfloor t:$modfloor t:$shiftx t:$eqx t:$nex",
        "select -set idle w:$*$memwr$*_ADDR* w:$*$memwr$*_DATA* %u w:$*$formal$*_CHECK* %u",
        *["select -set idle @idle @idle %ci1:-[S] w:$procmux$*_Y c:$procmux$* %u %i %u"] * _STEPS,
        "opt_expr -mux_undef @idle",
        "flatten", "memory_memx", "techmap -map %addresses c:*$memory_memx.cc* t:$nex %i", "memory_collect",
        "check", "json -o flat.json", "write_rtlil flat.il", "design -reset",
    ]


# What is done with gates. They are many, and these passes slow: hashed.py does the rest at once.
_OF_GATES = ["opt_expr", "opt_dff", "aigmap", "formalff -anyinit2ff -fine", "opt_clean", "check"]
_AS_THEY_ARE = ["aigmap", "formalff -anyinit2ff -fine"]


def making(one_clock: bool, conditions: bool, wires: bool, may_loop: bool) -> List[str]:
    """The commands from the flat module to an AIGER file. Where there is one clock, each frame is a cycle of it. If there
    may be a loop of gates, `check` looks for it."""
    return [
        *_map("twins", _TWINS), "read_rtlil flat.il",
        *(["techmap -max_iter 1 -map %twins t:$assert"] if conditions else []),
        "techmap -max_iter 1 -map %twins t:$cover",
        "setattr -set keep 1 t:$assert", "chformal -live -fair -remove",
        # an assumption at a clock's edge is one on the values that the edge samples
        *(["chformal -assume -early"] if one_clock else []),
        "setundef -undriven -anyseq",
        *(["expose w:* w:$* %d w:*$func$* %d a:nosync %d o:* %d i:* %d"] if wires else []),
        "opt_expr -fine -keepdc", "opt_clean",
        "async2sync" if one_clock else "clk2fflogic",
        "memory_map -formal", "dffunmap", "json -o clocked.json",
        "formalff -clk2ff -ff2anyinit",
        "setundef -undriven -anyseq", "wreduce -keepdc",
        "opt_expr -fine -keepdc", "opt_merge -nomux", *_ROUND * _ROUNDS,
        "techmap", "setundef -undriven -anyseq", *(_OF_GATES if may_loop else _AS_THEY_ARE),
        "tee -q -o order select -list t:$assert", "tee -q -o assumed select -list t:$assume", "write_aiger -symbols made.aig",
        # `-vmap` of Yosys 0.52 crashes where two outputs are one wire; without outputs the numbers are the same
        "delete -output w:*", "logger -nowarn \"Treating .*undriven\"", "write_aiger -vmap names numbers.aig",
    ]
