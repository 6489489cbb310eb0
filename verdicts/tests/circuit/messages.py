"""What is made of the messages and warnings of Yosys, and of its version. The tests need no program."""

import unittest

from aig_verdicts.reading import warnings
from aig_verdicts.reading.messages import Reason, failure
from aig_verdicts.reading.sources import Sources
from aig.tools import Ran
from aig_verdicts.reading.versions import untried
from circuit.common import Folder


class OfMessages(Folder):
    CELL = ('ERROR: Found error in internal cell \\m.$1 ($mem_v2) at kernel/rtlil.cc:1391:\n'
            '  attribute \\src "sources/b.v:1.1-2.9|sources/a.v:3.2-3.9"\n'
            "  cell $mem_v2 $1\n  end\n")

    def test_failures(self):
        for status, said, message in (
            (1, "sources/a.v:2: ERROR: syntax error, unexpected '@'\n",
             "sources/a.v:2: Yosys: syntax error, unexpected '@'"),
            (1, "sources/a.v:1: Warning: wide.\nERROR: Unsupported cell type: PLL (u)\n",
             "Yosys: Unsupported cell type: PLL (u)"),
            (1, self.CELL,
             "sources/a.v:3: Yosys: Found error in internal cell \\m.$1 ($mem_v2) at kernel/rtlil.cc:1391"),
            (-11, "Warning: a loop\n", "yosys was ended by signal 11"),
            (7, "no\nnothing\n", "yosys ended with status 7: nothing"), (7, "", "yosys ended with status 7: nothing"),
            (7, "word " * 99, f"yosys ended with status 7: {'word ' * 79}.."),
        ):
            self.assertEqual(failure(Ran(status, b"", said.encode())).said, message)

    def test_reasons(self):
        """The reason is in the error, and not in the path of a file."""
        for said, reason in (
            ("a.v:2: ERROR: syntax error, unexpected '@'", Reason.SYNTAX),
            ("Yosys: syntax error/a.v:2: ERROR: Unsupported", Reason.OTHER),
            ("a.v:2: ERROR: No syntax error, but this", Reason.OTHER),
            ("a.v:3: ERROR: System task `$finish' outside initial block is unsupported.", Reason.ENDS),
            ("a.v:3: ERROR: Cannot add procedural assertion `\\a' because a signal has its name", Reason.REPEATED),
        ):
            self.assertEqual(failure(Ran(1, b"", said.encode())).reason, reason)
        self.assertEqual(failure(Ran(-11, b"", b"syntax error")).reason, Reason.OTHER)

    def test_versions(self):
        """A version of Yosys that was not tried has a note, and so has one that does not say which it is."""
        for said in ("yosys Yosys 0.23 (git sha1 7ce5011c24b)", "yosys Yosys 0.52 (git sha1 fee39a3284c90249)",
                     "yosys Yosys 0.66 (git sha1 86f2ddebce7e98ce)"):
            self.assertEqual(untried(said), "")
        for said, name in (("yosys Yosys 0.33 (git sha1 2584903a060)", "Yosys 0.33"), ("yosys ?", "another Yosys"),
                           ("yosys Yosys 0.52+57 (git sha1 fee39a328)", "Yosys 0.52+57")):
            self.assertTrue(untried(said).startswith(f"{name} was not tried: "), untried(said))

    def test_places(self):
        """A message has the path that the user wrote, of the right one of two files."""
        first, second = self.made("a/x.v", ""), self.made("b/x.v", "")
        read = Sources([first, second])
        for said, message in (
            ("sources/x.v:2: Yosys: no", f"{first}:2: Yosys: no"),
            ("x_2.v:2, x.v:13: no", f"{second}:2, {first}:13: no"),
            ("at sources/x_2.v:2.1-13.2!", f"at {second}:2!"),
            ("y.x.v:2, ax.v:1, xxv:1, x.v", "y.x.v:2, ax.v:1, xxv:1, x.v"),
        ):
            self.assertEqual(read.as_written(said), message)


class OfWarnings(unittest.TestCase):
    HARMLESS = (
        "Literal has a width of 4 bit, but value requires 5 bit. (sources/a.v:3)",
        "Yosys has only limited support for tri-state logic at the moment. (sources/a.v:3)",
        "Encountered `translate_off' comment! Such legacy hot comments are supported by Yosys",
        "sources/a.v:3: Identifier `\\w' is implicitly declared",
        "sources/a.v:3: Range select out of bounds on signal `\\q': Setting result bit to undef",
        "sources/a.v:3: Range select [7:6] out of bounds on signal `\\q': Setting all 2 result bits to undef",
        "sources/a.v:3: Range [7:5] select out of bounds on signal `\\q': Setting 2 MSB bits to undef",
        "sources/a.v:3: Ignoring assignment to constant bits:\nold assignment: { \\q 1'x } = \\a",
        "sources/a.v:3: converting real value 2.500000e+00 to binary 3",
        "wire '\\q' is assigned in a block at a.v:3.1-3.5",
        "reg '\\q' is assigned in a continuous assignment at a.v:3.1-3.5",
        "sources/a.v:3: Ignoring call to system task $monitor",
        "sources/a.v:3: System task `$display' outside initial block is unsupported",
        "sources/a.v:3: System task `$write' outside initial or always block is unsupported",
        "Replacing memory \\m with list of registers. See sources/a.v:3, sources/a.v:4",
        "Resizing cell port m.u.p from 3 bits to 8 bits",
        "Wire m.\\q [3] is used but has no driver", "Wire m.\\q is used but has no driver",
    )
    ELSEWHERE = ("Complex async reset for dff `\\q'", "Async reset value `\\b' is not constant!",
                 "found logic loop in module m:\ncell $a")
    DIFFERENT = (  # each with the place that the line has
        ("a.v:3: ", "Identifier `\\$random' is implicitly declared"),
        ("a.v:3: ", "Identifier `$time' is implicitly declared"),
        ("a.v:3: ", "Replacing floating point parameter u.R = 0.000000 with string"),
        ("a.v:3: ", "Ignoring call to system function $time"),
        ("", "Driver-driver conflict for \\q between cell m.$a and constant 1'0 in m: Resolved using constant"),
        ("", "Initial value conflict for \\q resolving to 1'1 but with init 1'0"),
        ("", "Widening signal m.q to match size of s.q (via m.u)"),
        ("", "Could not find interface instance for `b' in `m'"), ("", "what nobody knows"),
    )

    def test_kinds(self):
        """A warning that is not known stops, with the user's file and line."""
        self.assertEqual(list(warnings.differing(self.HARMLESS + self.ELSEWHERE)), [])
        self.assertEqual(len(warnings.shown(self.HARMLESS * 2)), len(self.HARMLESS))
        self.assertEqual(warnings.shown(self.ELSEWHERE), [])
        for place, text in self.DIFFERENT:
            warning = f"{place and 'sources/'}{place}{text}"
            self.assertEqual(list(warnings.differing([warning])), [f"{place}Yosys: {text}"])

    def test_own(self):
        """A `$warning` of the source is no warning of Yosys."""
        said = ["sources/a.v:3: shallow", "sources/a.v:4: deep"]
        self.assertEqual(list(warnings.differing(said, {"a.v:3"})), ["a.v:4: Yosys: deep"])
