#!/usr/bin/env python3
"""Tests of what aig-verdicts changes in the text of Yosys before there are registers, and of what it reads in the wiring
after that. They need no program: the texts are those that Yosys writes.

usage: run_netlists.py [PROGRAM]"""

import sys
import unittest

import paths  # noqa: F401

from aig_verdicts.reading import left_out, lowered, processes, wiring
from aig_verdicts.reading.text import rtlil
from aig.tools import ToolFailed

# What Yosys 0.52 writes of an assertion in the `else` of an asynchronous reset.
CHECK = r"""
attribute \top 1
module \k
  wire $0\q[0:0]
  wire input 3 \a
  wire input 1 \clk
  wire output 4 \q
  wire input 2 \rst_n
  attribute \src "sources/k.v:4.24-4.37"
  wire \x_EN
  attribute \src "sources/k.v:4.24-4.37"
  cell $check \x
    parameter \ARGS_WIDTH 0
    parameter \FLAVOR "assert"
    parameter \FORMAT ""
    parameter \PRIORITY 32'11111111111111111111111111111111
    parameter \TRG_ENABLE 1
    parameter \TRG_POLARITY 2'01
    parameter \TRG_WIDTH 2
    connect \A \a
    connect \ARGS { }
    connect \EN \x_EN
    connect \TRG { \rst_n \clk }
  end
  attribute \src "sources/k.v:2.3-4.42"
  process $proc$k.v:2$1
    assign $0\q[0:0] \q
    assign \x_EN 1'0
    switch \rst_n
      case 1'0
        assign $0\q[0:0] 1'0
      case 
        assign $0\q[0:0] \a
        assign \x_EN 1'1
    end
    sync posedge \clk
      update \q $0\q[0:0]
    sync negedge \rst_n
      update \q $0\q[0:0]
  end
end
"""


def read(text):
    return rtlil.read(text.lstrip("\n"))


def module(body, head="attribute \\top 1\nmodule \\m\n"):
    return read(f"{head}{body}end\n")


class OfRtlil(unittest.TestCase):
    def test_a_text_stays(self):
        text = CHECK.lstrip("\n")
        self.assertEqual(read("# by Yosys\nautoidx 3\n" + text).text(), "# by Yosys\nautoidx 3\n" + text)

    def test_signals(self):
        for text, found in ((r"\a \b [2]", [r"\a", r"\b [2]"]), (r"{ \a [3:0] 2'01 } 4", [r"{ \a [3:0] 2'01 }", "4"]),
                            (r'"a b" \c', ['"a b"', r"\c"])):
            self.assertEqual(rtlil.signals(text), found)

    def test_bits(self):
        for text, found in ((r"\b", [r"\b [0]", r"\b [1]"]), (r"{ \b [1] 2'0x \c }", [r"\c [0]", "x", "0", r"\b [1]"]),
                            ("3", ["1", "1", *["0"] * 30]), ("3'x", ["x"] * 3), ("3'1", ["1", "0", "0"]), ("0'x", []), ('"A\\n"', list("01010000" "10000010")), ('{ "\\101" 1\'0 }', list("010000010"))):
            self.assertEqual(rtlil.bits(text, {"\\b": 2, "\\c": 1}), found)


class OfChecks(unittest.TestCase):
    def test_its_registers(self):
        """They are in the process, so they get its reset: nothing of it is lost before `proc` runs."""
        design = read(CHECK)
        lowered.lower(design)
        text = design.text()
        stem = "$formal$sources/k.v:4$0"
        for line in (f"    assign $0{stem}_EN 1'0", f"        assign $0{stem}_CHECK \\a", f"        assign $0{stem}_EN 1'1",
                     f"      update {stem}_EN $0{stem}_EN", "  cell $assert \\x", f"    connect \\EN {stem}_EN",
                     f"  wire width 1 {stem}_EN"):
            self.assertIn(f"{line}\n", text)
        self.assertEqual(text.count(f"      update {stem}_CHECK "), 2)
        self.assertNotIn("x_EN", text)
        self.assertNotIn("$check", text)

    def test_what_is_not_known(self):
        for old, new, said in (
            ("parameter \\FORMAT \"\"", "parameter \\COLOR 1", "other parts"), ("connect \\ARGS { }", "connect \\WHEN \\a", "other parts"),
            ('"assert"', '"hope"', "the kind hope"), ("\\TRG_WIDTH 2", "\\TRG_WIDTH 2'0x", "the number 2'0x"),
            ("\\TRG_WIDTH 2", "\\TRG_WIDTH 1", "1 edges beside a process with 2"),
            ("        assign \\x_EN 1'1\n", "", "does not say when"), ("    sync negedge \\rst_n", "    sync always", "2 edges beside a process with 1"),
            ("cell $check \\x", "cell $assert \\x", "a cell $assert with other ports"),
        ):
            text = CHECK.replace(old, new)
            self.assertNotEqual(text, CHECK)
            with self.assertRaises(ToolFailed, msg=new) as raised:
                lowered.lower(read(text))
            self.assertIn(f"k.v:4: this Yosys writes an assertion in a form that aig-verdicts does not know: ", str(raised.exception))
            self.assertIn(said, str(raised.exception))


class OfProcesses(unittest.TestCase):
    def test_constant_selectors(self):
        """Of those with a ? in an item a wire is compared; others stay."""
        design = module("""  process $p
    switch 2'10
      case 2'1-
        assign \\q 1'1
    end
    switch 2'10
      case 2'10
        assign \\r 1'1
        switch 1'1
          case 1'-
        end
    end
  end
""")
        processes.prepared(design.modules[0])
        text = design.text()
        self.assertIn("  wire width 2 $selector$0\n", text)
        self.assertIn("  connect $selector$0 2'10\n", text)
        self.assertEqual([line.strip() for line in text.split("\n") if "switch" in line], ["switch $selector$0", "switch 2'10", "switch $selector$1"])

    def test_the_order_of_items(self):
        design = module("  process $p\n    attribute \\parallel_case 1\n    switch \\a\n    end\n  end\n")
        processes.prepared(design.modules[0])
        self.assertNotIn("parallel_case", design.text())

    PROCESS = """  wire width 2 \\v
  wire input 1 \\s
  wire input 2 \\r
  wire input 3 \\c
  wire width 2 $0\\v[1:0]
  connect \\y \\v
  attribute \\src "sources/x.v:3.1-5.9"
  process $p
    sync %s
      update \\v %s
    sync %s
      update \\v %s
    sync posedge \\c
      update \\v $0\\v[1:0]
  end
"""

    def test_set_before_reset(self):
        """The second signal counts only where the first one is off; a bit that the first one keeps keeps its value."""
        design = module(self.PROCESS % ("low \\s", "{ \\v [1] 1'1 }", "high \\r", "2'00"))
        self.assertEqual(processes.settled(design.modules[0]), ["x.v:5: v"])
        text = design.text()
        for lines in ("  cell $_NOT_ $asynchronous$0$0_cell\n    connect \\A \\s\n", "  cell $_ANDNOT_ $asynchronous$0$1_cell\n    connect \\A \\r\n    connect \\B $asynchronous$0$0\n",
                      "    sync high $asynchronous$0$0\n      update { \\v [0] } { 1'1 }\n", "    sync high $asynchronous$0$1\n      update { \\v [1] \\v [0] } { 1'0 1'0 }\n",
                      "    connect \\A $0\\v[1:0] [1]\n    connect \\B \\v [1]\n    connect \\S $asynchronous$0$0\n"):
            self.assertIn(lines, text)

    def test_one_reset_stays(self):
        text = (self.PROCESS % ("high \\s", "2'01", "high \\r", "2'00")).replace("    sync high \\r\n      update \\v 2'00\n", "")
        design = module(text)
        self.assertEqual(processes.settled(design.modules[0]), [])
        self.assertEqual(design.text(), module(text).text())

    def test_loads(self):
        for value in ("\\w", "{ 1'0 \\r }"):
            with self.assertRaises(ToolFailed) as raised:
                processes.settled(module("  wire width 2 \\w\n" + self.PROCESS % ("high \\s", value, "high \\r", "2'00")).modules[0])
            self.assertIn("x.v:5: v is loaded asynchronously", str(raised.exception))

    def test_assertions_wait_for_the_clock(self):
        """An assertion that a reset disables is one about the clock's edges where the reset is off. One of the reset is about
        each frame of it."""
        body = """  wire $formal$x.v:4$1_EN
  wire $formal$x.v:4$1_CHECK
  wire $past$x.v:4$2
  process $p
    sync high \\r
      update $formal$x.v:4$1_EN 1'%s
      update $formal$x.v:4$1_CHECK %s
    sync posedge \\c
      update $formal$x.v:4$1_EN \\d
      update $formal$x.v:4$1_CHECK \\e
  end
  wire \\r
  wire \\c
  wire \\d
  wire \\a
  wire \\e
"""
        design = module(body % ("0", "1'x"))
        processes.settled(design.modules[0])
        self.assertIn("    sync high \\r\n    sync posedge \\c\n      update $formal$x.v:4$1_EN { $asynchronous$0$0 }\n      update $formal$x.v:4$1_CHECK { \\e [0] }\n", design.text())
        self.assertIn("  cell $_ANDNOT_ $asynchronous$0$0_cell\n    connect \\A \\d [0]\n    connect \\B \\r\n", design.text())
        design = module(body % ("1", "\\a"))
        processes.settled(design.modules[0])
        self.assertEqual(design.text(), module(body % ("1", "\\a")).text())


class OfWhatIsLeftOut(unittest.TestCase):
    BOXES = """attribute \\blackbox 1
module \\ram
  parameter \\W 4
  wire input 1 \\a
  wire width 4 output 2 \\q
  wire inout 3 \\p
end
attribute \\hdlname "\\\\part"
module $paramod\\part\\W=8
  wire input 1 \\i
  wire output 2 \\o
  cell $assert \\inside
  end
end
attribute \\top 1
module \\m
  wire width 8 \\q
  wire \\o
  wire \\pin
  attribute \\src "sources/x.v:7.1-7.9"
  cell \\ram \\r
    parameter \\W 8
    connect \\a 1'0
    connect \\q \\q
    connect \\p \\pin
  end
  attribute \\src "sources/x.v:8.1-8.9"
  cell $paramod\\part\\W=8 \\u
    connect \\i 1'1
    connect \\o \\o
  end
end
"""

    def test_boxes(self):
        """Each output of a cell is free, with the width that the cell has; a module that is named is left out too."""
        design = read(self.BOXES)
        self.assertEqual(left_out.open_boxes(design, ["part"]), [
            "x.v:7: the outputs of module ram, which has no body, are free values", "x.v:8: the outputs of module part, which is left out, are free values"])
        self.assertEqual([it.name for it in design.modules], ["\\m"])
        for lines in ("  cell $anyseq \\r.q\n    parameter \\WIDTH 8\n    connect \\Y \\q\n", "  cell $anyseq \\r.p\n    parameter \\WIDTH 1\n    connect \\Y \\pin\n",
                      "  cell $anyseq \\u.o\n    parameter \\WIDTH 1\n    connect \\Y \\o\n"):
            self.assertIn(lines, design.text())
        self.assertNotIn("\\r.a", design.text())

    def test_boxes_that_cannot_be(self):
        for text, free, said in ((self.BOXES, ["other"], "no module other"), (self.BOXES, ["m"], "no assertion"),
                                 (self.BOXES.replace("connect \\a", "connect \\b"), [], "x.v:7: module ram has no port b")):
            with self.assertRaises(ToolFailed) as raised:
                left_out.open_boxes(read(text), free)
            self.assertIn(said, str(raised.exception))

    def test_unread_memories(self):
        body = """  attribute \\src "sources/x.v:2.1-2.9"
  memory width 4 size 8 \\trace
  memory width 4 size 8 \\kept
  cell $memrd $r
    parameter \\MEMID "\\\\kept"
  end
  cell $meminit_v2 $i
    parameter \\MEMID "\\\\trace"
  end
  process $p
    sync posedge \\c
      update \\q \\d
      attribute \\src "sources/x.v:3.1-3.9"
      memwr \\trace \\a \\d 4'1111 0'x
      attribute \\src "sources/x.v:4.1-4.9"
      memwr \\kept \\a \\d 4'1111 0'x
  end
"""
        design = module(body)
        self.assertEqual(left_out.drop_unread_memories(design.modules[0]), ["x.v:2: trace"])
        self.assertNotIn("trace", design.text())
        self.assertNotIn("x.v:3", design.text())
        self.assertIn("      attribute \\src \"sources/x.v:4.1-4.9\"\n      memwr \\kept", design.text())

    LOOPS = """  wire width 32 signed \\i
  process $p
    assign $0\\i[31:0] \\i
    sync posedge \\c
      update \\i $0\\i[31:0]
  end
  process $q
    sync posedge \\c
      update \\i 4
  end
  process $r
    sync init
      update \\i 0
  end
"""

    def test_loop_variables(self):
        """Nobody reads one that several blocks count with, so it is gone; one that is read, a port or of one block stays."""
        design = module(self.LOOPS)
        left_out.drop_loop_variables(design.modules[0])
        self.assertNotIn("\\i", design.text())
        for text in (self.LOOPS + "  connect \\y \\i [0]\n", self.LOOPS.replace("signed", "output 3 signed"), self.LOOPS.replace("      update \\i 4\n", ""),
                     self.LOOPS.replace("$0\\i[31:0] \\i", "$0\\j[31:0] \\i"), self.LOOPS.replace("update \\i 0", "update \\j \\i")):
            design = module(text)
            left_out.drop_loop_variables(design.modules[0])
            self.assertEqual(design.text(), module(text).text())


class OfWiring(unittest.TestCase):
    @staticmethod
    def gate(kind, reads, makes=(), place="sources/x.v:5.1-6.9"):
        return {"type": kind, "attributes": {"src": place}, "connections": {"A": list(reads), "Y": list(makes)}, "port_directions": {"A": "input", "Y": "output"}}

    def flat(self, **cells):
        wire = {"bits": [2, 3], "attributes": {"src": "sources/x.v:3.1-3.9"}}
        return {"netnames": {"$task$a": wire, "y": {"bits": [9], "attributes": {}}}, "cells": cells}

    def test_undriven(self):
        """A wire of Yosys' own without a driver is wrong only where something reads it."""
        warned = ["Wire m.$task$a [1] is used but has no driver", "Wire m.\\b is used but has no driver"]
        for wanted, cells in (
            ([], {}), ([], {"u": self.gate("$not", [3], [4])}), ([], {"u": self.gate("$not", [2], [9])}),
            (["x.v:3: $task$a"], {"u": self.gate("$not", [3], [4]), "v": self.gate("$not", [4], [9])}),
            (["x.v:3: $task$a"], {"u": self.gate("$not", [3], [4]), "v": self.gate("$dff", [4], [5])}),
            (["x.v:3: $task$a"], {"u": self.gate("$assert", [3])}), (["x.v:3: $task$a"], {"u": self.gate("box", [3])}),
            ([], {"u": self.gate("$not", [3], [4]), "v": self.gate("$not", [4], [3])}),
        ):
            self.assertEqual(wiring.undriven(warned, self.flat(**cells)), wanted, cells)
        self.assertEqual(wiring.undriven(["Wire m.$gone is used but has no driver"], self.flat()), ["?: $gone"])

    def test_loops(self):
        warned = ["found logic loop in module m:\ncell $not$1 ($not)\ncell \\u ($and)\nwire \\y", "other"]
        wires = {"y": {"attributes": {"src": "sources/x.v:2.1-2.9"}}}
        cells = {"$not$1": self.gate("$not", [2], [3]), "u": self.gate("$and", [3], [2], "sources/x.v:8.1-8.9"), "v": self.gate("$or", [2], [4])}
        self.assertEqual(wiring.loops(warned, warned, {"cells": cells, "netnames": wires}), ["x.v:6", "x.v:8"])
        self.assertEqual(wiring.loops([], warned, {"cells": cells, "netnames": wires}), ["x.v:2"])
        self.assertEqual([wiring.has_loop(warned), wiring.has_loop(warned[1:])], [True, False])

    def test_z(self):
        """Each z is an x then, also beside other bits; names and texts are as before."""
        body = "  wire width 4 \\a'1z\n  cell $mux \\u\n    parameter \\P 1'z\n    connect \\A { 1'%s \\a'1z 3'01%s }\n    connect \\T \"1'z\"\n  end\n"
        end = "  connect \\y 2'%sx\n"
        for letters, was_there in (("zzz", True), ("1z1", True), ("xxx", False)):
            text = body % tuple(letters[:2]) + end % letters[2]
            design = module(text)
            self.assertEqual([wiring.has_z(design.text()), wiring.free_z(design.modules[0])], [True, was_there], letters)
            freed = letters.replace("z", "x")
            self.assertEqual(design.text(), module(body % tuple(freed[:2]) + end % freed[2]).text())
        self.assertFalse(wiring.has_z("connect \\a 4'01x-\n  wire \\z\n"))


if __name__ == "__main__":
    found = unittest.TextTestRunner(verbosity=0).run(unittest.defaultTestLoader.loadTestsFromModule(sys.modules[__name__]))
    failed = len(found.failures) + len(found.errors)
    print(f"netlists: {found.testsRun - failed} passed, {failed} failed")
    sys.exit(failed > 0)
