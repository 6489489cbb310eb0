"""Syntax trees as Yosys prints them, with places and bounds of expressions, and labels of assertions as named blocks.
The tests need no program."""

import unittest

from aig_verdicts.reading.text import tree
from aig_verdicts.reading.labels import as_blocks, labels
from aig_verdicts.reading.places import with_place
from aig_verdicts.reading.misread.scope import Scope


class OfTrees(unittest.TestCase):
    """What `-dump_ast1` prints of `module m(input [2:0] i); (* keep = 1 *) reg [5:0] q; always @* while (i) go;
    endmodule`."""

    TREE = """    AST_MODULE <sources/a.v:1.1-9.10> str='\\m'
      AST_WIRE <sources/a.v:1.10-1.11> str='\\i' input port=1
        AST_RANGE <sources/a.v:0.0-0.0>
          AST_CONSTANT <sources/a.v:1.12-1.13> bits='00000000000000000000000000000010'(32) signed range=[31:0] int=2
          AST_CONSTANT <sources/a.v:1.14-1.15> bits='00000000000000000000000000000000'(32) signed range=[31:0]
      AST_WIRE <sources/a.v:2.1-2.9> str='\\q' reg
        ATTR \\keep:
          AST_CONSTANT <sources/a.v:2.3-2.4> bits='00000000000000000000000000000001'(32) signed range=[31:0] int=1
        AST_RANGE <sources/a.v:0.0-0.0>
          AST_CONSTANT <sources/a.v:2.12-2.13> bits='00000000000000000000000000000101'(32) signed range=[31:0] int=5
          AST_CONSTANT <sources/a.v:2.14-2.15> bits='00000000000000000000000000000000'(32) signed range=[31:0]
      AST_ALWAYS <sources/a.v:3.1-3.9>
        AST_BLOCK <sources/a.v:3.10-3.20>
          AST_WHILE <sources/a.v:0.0-0.0>
            AST_IDENTIFIER <sources/a.v:4.3-4.4> str='\\i'
            AST_TCALL <sources/a.v:0.0-0.0> str='\\go'""".split("\n")

    def test_nodes(self):
        module, = tree.modules(tree.nodes(self.TREE))
        self.assertEqual([it.name for it in module.parts], ["i", "q", ""])
        self.assertEqual([part.kind for part in module.parts[1].parts], ["RANGE"])
        self.assertEqual({it.kind: it.line for it in module.all() if it.kind in ("WHILE", "TCALL")},
                         {"WHILE": "a.v:4", "TCALL": "a.v:4"})

    def test_places(self):
        """What an error is about has the place, and else the declaration of its first name."""
        for error, place in (
            ("Yosys: While loops are only allowed in constant functions", "a.v:4: "),
            ("Yosys: Can't resolve task name `\\go'", "a.v:4: "),
            ("Yosys: Conflicting initialization values for \\q", "a.v:2: "),
            ("Yosys: Latch inferred for signal `\\m.\\q' from `\\m.$proc$a.v:0$1'", "a.v:2: "),
            ("Yosys: no \\z", ""),
        ):
            self.assertEqual(with_place(error, self.TREE), f"{place}{error}")
            self.assertEqual(with_place(f"sources/a.v:7: {error}", self.TREE), f"sources/a.v:7: {error}")
            self.assertEqual(with_place(f"sources/a.v:0: {error}", self.TREE), f"{place or 'sources/a.v:0: '}{error}")

    def test_bounds(self):
        """The least and the greatest value of what a text of Verilog would be."""
        def number(value, width=32, signed=True):
            return tree.Node("CONSTANT", "?", "", format(value, f"0{width}b"), signed, False, False, "?")

        def node(kind, *parts, name=""):
            return tree.Node(kind, "?", name, "", False, False, False, "?", list(parts))

        module, = tree.modules(tree.nodes(self.TREE))
        scope, i = Scope(module), node("IDENTIFIER", name="i")
        for expression, bounds in (
            (number(5), (5, 5)), (number(6, 3), (-2, -2)), (i, (0, 7)), (node("IDENTIFIER", name="q"), (0, 63)),
            (node("ADD", node("MUL", number(8), i), number(7)), (7, 63)), (node("SUB", i, number(1)), (-1, 6)),
            (node("NEG", i), (-7, 0)), (node("MOD", i, number(3)), (0, 2)),
            (node("SHIFT_LEFT", number(1), i), (1, 128)),
            (node("TERNARY", i, number(3), i), (0, 7)), (node("IDENTIFIER", name="z"), (0, None)),
            (node("POW", number(2), node("SHIFT_LEFT", number(1), number(40))), (None, None)),
            (node("BIT_OR", i, number(1)), (0, None)),
        ):
            self.assertEqual(scope.bounds(expression), bounds, expression)


class OfLabels(unittest.TestCase):
    def test_of_tree(self):
        tree = ["    AST_ASSERT <sources/a.v:3.5-3.9> str='\\x'", "    AST_COVER <sources/a.v:4.5-5.9> [0x1] str='\\y'",
                "    AST_ASSERT <sources/a.v:6.5-6.9>",
                "    AST_WIRE <sources/a.v:7.5-7.9> str='\\z'"]
        self.assertEqual(labels(tree), {("a.v", 3, "x"), ("a.v", 4, "y")})

    def test_blocks(self):
        begin, read = "begin : x reg aig_verdicts_label; ", ") || aig_verdicts_label)"
        for text, wanted in (
            ("x: assert (a);", f"{begin}assert ((a{read}; end"),
            ("if (b) x :\n cover property(f(a) /* ) */ | \")\") // )\n;\nelse y: assert (a);",
             f"if (b) {begin}\ncover property((f(a) /* ) */ | \")\"{read} // )\n; end\nelse y: assert (a);"),
            ("`define C(n) n: assert (a); \\\n m: assume (b)\nx: assert (`C(b));",
             f"`define C(n) {begin.replace('x', 'n')}assert ((a{read}; end \\\n m: assume (b)\n"
             f"{begin}assert ((`C(b){read}; end"),
        ):
            self.assertEqual(as_blocks("a.v", text, {("a.v", line, "x") for line in range(1, 9)}), wanted)
        for text in ("y: assert (a);", "// x: assert (a);", "\"x: assert (a);\"", "x: assert (a) else b;",
                     "x: assert (a", "x: cover property ();", "x: assert (s_eventually a);",
                     "yx: assert (a);", "$x: assert (a);", "x: asserted (a);", "x.x: assert (a)",
                     "case (b) \\x : assert (a); endcase"):
            self.assertEqual(as_blocks("a.v", text, {("a.v", 1, "x")}), text)

    def test_hostile_text_takes_no_time(self):
        for text in ("x: assert (" * 50000, "`define a x: assert (\n" * 20000, "x:" * 100000):
            self.assertEqual(as_blocks("a.v", text, {("a.v", 1, "x")}), text)
