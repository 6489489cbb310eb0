"""Lists of files with options, as simulators have them: what they say is what the same options of the command say."""

from __future__ import annotations

from pathlib import Path

from bundles.common import called, manifest_of, same_manifests

DESIGN = """module part #(parameter N = 3)(input clk);
  reg [3:0] n = 0;
  always @(posedge clk) n <= n == N ? 0 : n + 1;
  always @* below: assert (n <= `MOST);
endmodule
module m(input clk);
  part one(clk);
endmodule
"""
# A list, and the same options of the command.
SAME = {
    "-P N=5 -s part -D MOST=5 m.v": ("m.v", "-P", "N=5", "--top", "part", "-D", "MOST=5"),
    "+define+MOST=5 -GN=7 --top-module part\nm.v": ("m.v", "-P", "N=7", "--top", "part", "-D", "MOST=5"),
}
REFUSED = {"m.v\n--trace": "list.f:2: --trace is no option of a list",
           "-s m\n\n-s part": "list.f:3: the top module is m already",
           "m.v -P": "list.f:1: -P has no value"}


def lists(_, tally, __):
    """Parameters, macros and the top module by a list; what is not known is rejected by its line."""
    Path("m.v").write_text(DESIGN)
    for text, words in SAME.items():
        Path("list.f").write_text(text)
        usual = ("--no-simulator", "-q", "--abc", "")
        status = called("run", "-f", "list.f", "-o", "by_list", *usual)[0]
        tally.compare(f"lists: {text}: status", status, called("run", *words, "-o", "by_words", *usual)[0])
        tally.compare(f"lists: {text}: options", manifest_of("by_list")["options"], manifest_of("by_words")["options"])
        tally.check(f"lists: {text}: the same bytes", same_manifests("by_list", "by_words"))
    Path("list.f").write_text("-s part -D MOST=3 m.v")
    called("run", "-f", "list.f", "--top", "m", "-o", "whole", "--no-simulator", "-q")
    tally.compare("lists: the command's top module", manifest_of("whole")["options"]["top"], "m")
    for text, said in REFUSED.items():
        Path("list.f").write_text(text)
        status, _, err = called("run", "m.v", "-f", "list.f", "-o", "refused")
        tally.check(f"lists: refused: {text!r}", status == 1 and said in err, (status, err))
