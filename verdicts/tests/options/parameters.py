"""Values for parameters of the top module: what each declaration makes of them is what Icarus Verilog's own `-P`
makes."""

from __future__ import annotations

import json
import shutil
import subprocess
from pathlib import Path

from bundles.common import called, manifest_of, write_manifest

# What a module declares, with P for the name. A `signed` one without a range is read with signed values alone.
DECLARED = ("parameter P = 4", "parameter [3:0] P = 4", "parameter signed [7:0] P = 4", "parameter integer P = 4",
            "parameter signed [40:0] P = 1", "parameter logic [5:0] P = 3", "parameter int P = 7",
            "parameter [0:6] P = 1")
SIGNED = "parameter signed P = 4"
VALUES = ("8", "0", "-1", "-77", "4'd9", "4'sd9", "8'hff", "12'o7777", "'h1f", "'sd5", "1'b1", "64'hffffffffffffffff",
          "33'sh100000000", '"ab"')
HAS_SIGN = ("8", "0", "-1", "-77", "4'sd9", "'sd5", "33'sh100000000")


def facts(declared):
    """A module with these declarations, whose `facts` depend on the value, the width and the sign of each parameter."""
    names = [f"P{k}" for k in range(len(declared))]
    lists = ", ".join(it.replace(" P ", f" {name} ") for it, name in zip(declared, names))
    parts = [f"assign w{k} = {it}; assign t{k} = {it} / 3; assign n{k} = {it} > -1; assign j{k} = {{{it}, 1'b1}};"
             for k, it in enumerate(names)]
    wires = [f"wire [65:0] w{k}, t{k}, j{k}; wire n{k};" for k in range(len(names))]
    whole = ", ".join(f"w{k}, t{k}, n{k}, j{k}" for k in range(len(names)))
    width = 199 * len(names)  # Icarus Verilog 11 takes no number of over 2,048 bits from its command line
    return f"""module facts #({lists})();
{chr(10).join([*wires, *parts])}
  wire [{width - 1}:0] facts;
  assign facts = {{{whole}}};
`ifdef EXPECTED
  always @* begin is: assert (facts == `EXPECTED); isnt: assert (facts != `EXPECTED); end
`else
  initial begin #1 $display("%0d'b%b", {width}, facts); end
`endif
endmodule
"""


def in_icarus(text, top, given):
    """What Icarus Verilog prints of a design whose parameters it gives values to by itself."""
    Path("truth.v").write_text(text)
    subprocess.run(["iverilog", "-g2012", "-s", top, *(f"-P{top}.{it}" for it in given), "-o", "truth.vvp", "truth.v"],
                   check=True)
    return subprocess.run(["vvp", "-n", "truth.vvp"], check=True, capture_output=True, text=True).stdout.strip()


def words_of(folder):
    """The words of each assertion of a folder; none if there is no folder."""
    rows = manifest_of(folder)["rows"] if Path(folder, "MANIFEST.json").exists() else []
    return {it["name"]: it["result"] for it in rows if it["kind"] in ("assert", "cover")}


def simulated(folder):
    """What a simulator says of the circuit of a folder, and whether that is that it is the same."""
    is_there = Path(folder, "MANIFEST.json").exists()
    said = manifest_of(folder)["simulated"] if is_there else {"agrees": False, "circuit": "none"}
    return said["circuit"], said["agrees"] and ": as in" in said["circuit"]


def ran(*words, out="out"):
    """The status, the table and what is said, of a run from scratch."""
    shutil.rmtree(out, ignore_errors=True)
    return called("run", *words, "-o", out, "-q", "-j", "1", "--frames", "12")


def values(_, tally, __):
    """Each value in each declaration."""
    for value in VALUES:
        declared = [*DECLARED, *[SIGNED] * (value in HAS_SIGN)]
        text, given = facts(declared), [f"P{k}={value}" for k in range(len(declared))]
        expected = in_icarus(text, "facts", given)
        Path("facts.sv").write_text(text)
        status, table, said = ran("facts.sv", "-D", f"EXPECTED={expected}",
                                  *(word for it in given for word in ("-P", it)))
        tally.compare(f"values: {value}: {said[:300]}", (status, words_of("out")),
                      (5, {"is": "holds", "isnt": "fails"}))
        tally.check(f"values: {value}: in a simulator", simulated("out")[1], simulated("out")[0])
    Path("facts.sv").write_text(facts([SIGNED]))
    status, _, said = ran("facts.sv", "-D", "EXPECTED=1'b1", "-P", "P0=4'd9")
    tally.check("values: without a sign for a signed one", status == 1 and "gets a value without sign" in said, said)


# Where a parameter is declared: the text around the module's items, and the values that are given.
BODY = """
  reg [7:0] n = 0;
  always @(posedge clk) n <= n == LIMIT ? 0 : n + STEP;
  at_most: assert property (@(posedge clk) n <= LIMIT);
  grows: assert property (@(posedge clk) n == 0 |-> ##1 n == STEP);
  back: assert property (@(posedge clk) n == LIMIT |=> n == 0);
  soon: assert property (@(posedge clk) n == 0 |-> ##[1:LIMIT] n == LIMIT);
endmodule
"""
PLACES = {
    "list": "module m #(parameter LIMIT = 3, parameter STEP = 1)(input clk);",
    "one_word": "module m #(parameter LIMIT = 3, STEP = 1)(input clk);",
    "typed": "module m #(parameter int LIMIT = 3, parameter logic [7:0] STEP = 1)(input clk);",
    "body": "module m(input clk);\n  parameter LIMIT = 3, STEP = 1;",
    "old_ports": "module m(clk);\n  parameter [7:0] LIMIT = 2 + 1;\n  parameter STEP = LIMIT - 2;\n  input clk;",
    "macro": "`define SIZES parameter LIMIT = 3, \\\n  parameter STEP = 1\nmodule m #(`SIZES)(input clk);",
    "lines": "module m #(parameter LIMIT =\n  1 +\n  2, // LIMIT = 7\n  /* STEP = 9 */ parameter STEP = 1)(input clk);",
    "parts": "module m #(parameter A = {1'b1, 1'b0}, localparam B = 3, parameter LIMIT = B, STEP = 1)(input clk);",
    "dead": "`ifdef OTHER\nmodule m #(parameter LIMIT = 1, STEP = 2)(input clk);\n`else\n"
            "module m #(parameter LIMIT = 3, STEP = 1)(input clk);\n`endif",
    "others": "module o #(parameter LIMIT = 5, STEP = 6)(input clk, output [7:0] p);\n  localparam LOW = LIMIT;\n"
              "  assign p = LOW + STEP;\nendmodule\n"
              "module m #(parameter LIMIT = 3, STEP = 1)(input clk);\n  wire [7:0] p;\n  o o(clk, p);\n"
              "  kept: assert property (@(posedge clk) p == 11);",
}
# What holds of them with each value of LIMIT and STEP: of 6 and 3 the counter goes 0, 3, 6; of 3 and 2 it is never 3.
GIVEN = {(): {"at_most": "holds", "grows": "holds", "back": "holds", "soon": "holds"},
         ("LIMIT=6", "STEP=3"): {"at_most": "holds", "grows": "holds", "back": "holds", "soon": "holds"},
         ("STEP=2",): {"at_most": "fails", "grows": "holds", "back": "vacuous", "soon": "fails"}}
OF_OLD_PORTS = {("LIMIT=6",): {"at_most": "fails", "grows": "holds", "back": "vacuous", "soon": "fails"}}


def places(_, tally, __):
    """Parameters are found where they are declared, and lines stay where they are."""
    for name, head in PLACES.items():
        Path("m.sv").write_text(head + BODY)
        lines = {word: (head + BODY)[:(head + BODY).index(f"{word}:")].count("\n") + 1 for word in ("at_most", "soon")}
        all_given = {**GIVEN, **(OF_OLD_PORTS if name == "old_ports" else {})}
        for given, wanted in all_given.items():
            status, _, said = ran("m.sv", "--top", "m", *(word for it in given for word in ("-P", it)))
            of_kept = {"kept": "holds"} if name == "others" else {}
            tally.compare(f"places: {name}, {given}: {said[:300]}", words_of("out"), {**wanted, **of_kept})
            if not words_of("out"):
                continue
            rows = {it.get("name"): it for it in manifest_of("out")["rows"]}
            tally.compare(f"places: {name}: lines", {it: rows[it]["last"] for it in lines}, lines)
            tally.check(f"places: {name}, {given}: in a simulator", simulated("out")[1], simulated("out")[0])


TWO = """module low #(parameter W = 1)(input clk); a: assert property (@(posedge clk) W == 1); endmodule
module m #(parameter LIMIT = 3, parameter type T = logic, parameter real R = 1.5, localparam L = 2, parameter int A [0:1] = '{1, 2})(input clk);
  parameter BODY = 1;
  localparam OWN = 3;
  function automatic [3:0] f(input [3:0] a); parameter INNER = 1; f = a + INNER; endfunction
  low #(.W(LIMIT)) u(clk);
endmodule
"""
REFUSED = {
    ("LIMIT",): "'LIMIT' is no value of a parameter: NAME=VALUE",
    ("=3",): "'=3' is no value of a parameter",
    ("m.LIMIT=3",): "'m.LIMIT=3' is no value of a parameter",
    ("LIMIT=",): "the parameter LIMIT gets '', and that is no constant",
    ("LIMIT=OTHER",): "the parameter LIMIT gets 'OTHER', and that is no constant",
    ("LIMIT=2+1",): "'2+1', and that is no constant",
    ("LIMIT=1.5",): "'1.5', and that is no constant",
    ("LIMIT=4'bx1",): "\"4'bx1\", and that is no constant",
    ("LIMIT=4'h",): "\"4'h\", and that is no constant",
    ("LIMIT=0'd1",): "\"0'd1\", and that is no constant",
    ("LIMIT=2147483648",): "'2147483648', and that is no constant",
    ("LIMIT=fast",): "'fast', and that is no constant",
    ("LIMIT=\"a\\\"b\"",): "and that is no constant",
    ("LIMIT=3", "LIMIT=4"): "the parameter LIMIT gets two values",
    ("MOST=3",): "MOST is no parameter of m, which has LIMIT",
    ("W=3",): "W is no parameter of m, which has LIMIT",
    ("INNER=3",): "INNER is no parameter of m, which has LIMIT",
    ("L=3",): "m.sv:2: L is a constant of its own",
    ("OWN=3",): "m.sv:4: OWN is a constant of its own",
    ("BODY=3",): "m.sv:3: BODY is local: the module has a list of parameters",
    ("T=3",): "m.sv:2: T is a type",
    ("R=3",): "m.sv:2: R is a real number",
    ("A=3",): "m.sv:2: A is an array",
}


def refused(_, tally, __):
    """What is no parameter of the top module, or no constant, is refused by its name."""
    Path("m.sv").write_text(TWO)
    for given, wanted in REFUSED.items():
        status, out, said = ran("m.sv", *(word for it in given for word in ("-P", it)))
        tally.check(f"refused: {given}", (status, out) == (1, "") and wanted in said and not Path("out").exists(),
                    (status, said))
    Path("two.sv").write_text("module a #(parameter N = 1)(); endmodule\nmodule b #(parameter N = 1)(); endmodule\n")
    status, _, said = ran("two.sv", "-P", "N=2")
    tally.check("refused: which top", status == 1 and "of which module? Name it with --top: a, b" in said, said)
    Path("again.v").write_text("""module m #(parameter N = 2)(input clk);
  generate if (N == 3) m #(.N(1)) u(clk); endgenerate
  always @(posedge clk) assert (N < 9);
endmodule
""")
    status, _, said = ran("again.v", "--top", "m", "-P", "N=3")
    tally.check("refused: an instance of itself", status == 1 and "again.v:2: an instance of the top module" in said,
                said)


COUNTER = """module m #(parameter LIMIT = 3)(input clk);
  reg [3:0] n = 0;
  always @(posedge clk) n <= n == LIMIT ? 0 : n + 1;
  named: assert property (@(posedge clk) n <= LIMIT);
  plain: assert property (@(posedge clk) n != 5);
endmodule
"""


def everywhere(_, tally, __):
    """A value counts in the circuit, in a simulator, in a bundle that is checked again, and beside another version."""
    Path("m.sv").write_text(COUNTER)
    tally.compare("everywhere: the value of the source", (ran("m.sv", out="own")[0], words_of("own")),
                  (0, {"named": "holds", "plain": "holds"}))
    status, table, said = ran("m.sv", "-P", "LIMIT=6", out="given")
    tally.compare("everywhere: another value", (status, words_of("given")), (5, {"named": "holds", "plain": "fails"}))
    tally.compare("everywhere: in the manifest", manifest_of("given")["options"]["parameters"], ["LIMIT=6"])
    tally.check("everywhere: none in the other", "parameters" not in manifest_of("own")["options"])
    tally.check("everywhere: the text of the user", Path("given/sources/m.sv").read_text() == COUNTER)
    tally.check("everywhere: what Yosys read", "LIMIT = 6" in Path("given/translated/m.sv").read_text())
    status, _, said = called("recheck", "given", "--yosys", "--simulate")
    tally.check("everywhere: checked again",
                status == 5 and "with the parameters LIMIT=6" in said and "as in Icarus" in said, said)
    status, out, said = called("replay", "given", "--random", "8", "--to", "benches")
    tally.check("everywhere: played", status == 0 and "b2  plain  in iverilog too" in out, out)
    tally.check("everywhere: the testbench", "m #(.LIMIT(6)) dut(" in Path("benches/2.tb.v").read_text())
    status, out, said = called("compare", "own", "given")
    tally.check("everywhere: compared", status == 5 and "the parameters are LIMIT=6, and were none" in out + said,
                out + said)
    kinds = {line.split()[2]: line.split()[0] for line in out.splitlines()
             if line.startswith(("edited", "broken", "new"))}
    tally.compare("everywhere: the one that names it is edited", kinds, {"named": "edited", "plain": "broken"})
    for options, why in (({"parameters": ["LIMIT=7"]}, "another circuit"),
                         ({"parameters": "LIMIT=6"}, "options of MANIFEST.json"),
                         ({"parameters": ["LIMIT=f()"]}, "no constant"), ({}, "another circuit")):
        shutil.rmtree("forged", ignore_errors=True)
        shutil.copytree("given", "forged")
        manifest = manifest_of("forged")
        del manifest["options"]["parameters"]
        manifest["options"].update(options)
        write_manifest(Path("forged"), manifest)
        status, _, said = called("recheck", "forged", "--yosys")
        tally.check(f"everywhere: forged {options}", status == 1 and why in said, said)
    shutil.copytree("given", "denied")
    manifest = manifest_of("denied")
    manifest["options"]["parameters"] = ["LIMIT=3"]
    write_manifest(Path("denied"), manifest)
    status, out, said = called("replay", "denied", "--random", "8")
    tally.check("everywhere: a simulator sees another value", status == 5 and "iverilog disagrees" in out, out)


def hostile(_, tally, __):
    """A value is one word of Verilog, also in a bundle of others, and no value is lost on the way to the top module."""
    Path("m.sv").write_text(COUNTER)
    ran("m.sv", "-P", "LIMIT=6", out="bundle")
    for value in ("LIMIT=6)); endmodule module z; initial $finish; endmodule//", "LIMIT=`X", "LIMIT=6 ", "LIMIT=6\n",
                  "LI MIT=6",
                  "LIMIT=\"\n\"", "LIMIT=$time", "LIMIT=\"a", "LIMIT=6'd1'd1"):
        manifest = manifest_of("bundle")
        manifest["options"]["parameters"] = [value]
        write_manifest(Path("bundle"), manifest)
        for words in (["recheck", "bundle", "--yosys"], ["replay", "bundle"]):
            status, out, said = called(*words)
            tally.check(f"hostile: {value!r}: {words[0]}",
                        status in (1, 4) and "LI" in out + said and "no " in out + said, out + said)
    assert json.loads(json.dumps(manifest)) == manifest
