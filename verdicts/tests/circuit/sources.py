"""The sources of a design: plain names of files, includes, checks in their text, and lists of files as simulators have
them. The tests need no program."""

import argparse
import os
import re
import tempfile
import unittest
import unittest.mock
from pathlib import Path

from aig_verdicts.reading.file_lists import listed
from aig_verdicts.options import look_at_words
from aig_verdicts.reading.sources import Sources, plain_name
from aig.tools import ToolFailed
from circuit.common import Folder


class OfSources(Folder):
    def test_plain_names(self):
        for name, plain in (("a.v", "a.v"), ("-o x;y.v", "_o_x_y.v"), (".hidden", "_hidden"), ("\u00e4.sv", "_.sv"),
                            ("a\nb", "a_b"), ("+x", "_x")):
            self.assertEqual(plain_name(name), plain)

    def test_same_name_in_two_folders(self):
        read = Sources([self.made("a/x.v", "1"), self.made("b/x.v", "2"), self.made("c/x_2.v", "3")])
        self.assertEqual(read.texts, {"x.v": b"1", "x_2.v": b"2", "x_2_2.v": b"3"})
        self.assertEqual(read.read, list(read.texts))

    def test_includes(self):
        main = self.made("a/main.v", '`include "../h/w.vh"\n`include  "near.vh" // `include "no.vh"\n'
                                     '/* `include "no.vh" */ "`include \\"no.vh\\""\n`include "gone.vh"\n'
                                     '$readmemh ( "../h/data.hex", m);')
        self.made("a/near.vh", '`include "deep.vh"')
        self.made("h/near.vh", "far")
        self.made("h/w.vh", "w")
        self.made("h/deep.vh", "deep")
        self.made("h/data.hex", "00")
        self.made("a/no.vh", "never")
        read = Sources([main, self.at / "h/w.vh"], [self.at / "h"])
        self.assertEqual(read.read, ["main.v"])
        self.assertEqual(sorted(read.texts), ["data.hex", "deep.vh", "main.v", "near.vh", "w.vh"])
        self.assertEqual(read.texts["main.v"].decode(), (
            '`include "w.vh"\n`include  "near.vh" // `include "no.vh"\n'
            '/* `include "no.vh" */ "`include \\"no.vh\\""\n`include "missing_gone.vh"\n'
            '$readmemh ( "data.hex", m);'))

    def test_again(self):
        """The sources of a bundle, in one folder, are read as they were."""
        main = self.made("a/x.v", '`include "../b/x.v"\n`include "/etc/hostname"')
        self.made("b/x.v", "in")
        first = Sources([main])
        for name, text in first.texts.items():
            (self.at / name).write_bytes(text)
        second = Sources([self.at / name for name in first.texts])
        self.assertEqual((second.texts, second.read), (first.texts, first.read))
        self.assertNotIn("hostname", first.texts)

    def test_hostile_text_takes_no_time(self):
        for text in ("/*" * 200000, '"' * 200001, "`include " * 100000, '`include "' * 100000,
                     "//" * 200000 + "assert"):
            read = Sources([self.made("x.v", text)])
            self.assertEqual(list(read.checks()), [])

    def test_checks(self):
        read = Sources([self.made("x.v", '// assert\n"assert" /* cover\n */ a: assert(1); cover (0);\n'
                                         'asserted my_assert\n')])
        self.assertEqual(list(read.checks()), [("x.v", 3), ("x.v", 3)])

    def test_words(self):
        look_at_words("top_1", ["A", "B=8'hff", "C=-1.5"])
        for top, define in (("a;b", "A"), ("a b", "A"), ("-x", "A"), ("", "A"), ("a", "A B"), ("a", "A=1;x"),
                            ("a", "A=\n"), ("a", "1"), ("a", 'A="x"')):
            with self.assertRaises(ToolFailed):
                look_at_words(top, [define])


class OfLists(unittest.TestCase):
    """Lists of files, as simulators have them."""

    def test_read(self):
        with tempfile.TemporaryDirectory() as name, unittest.mock.patch.dict(os.environ, {"RTL": "rtl"}):
            folder = Path(name)
            (folder / "in").mkdir()
            (folder / "in/b.f").write_text("b.v // +define+NONE\n")
            (folder / "in/c.f").write_text("c.v\n")
            main = folder / "main.f"
            for text, wanted in (
                ("a.v\n  d.sv -v lib.v\n", (["a.v", "d.sv", "lib.v"], [], [])),
                ("# none\n// none.v\n/* none.v\n*/ a.v /**/\n", (["a.v"], [], [])),
                ("+incdir+x+y -Iz +define+A=1+B -DC=2 -sv", ([], ["x", "y", "z"], ["A=1", "B", "C=2"])),
                ('"a b.v" $RTL/a.v ${RTL}/b.v $(RTL)/c.v +define+T="1 2"',
                 (["a b.v", "rtl/a.v", "rtl/b.v", "rtl/c.v"], [], ["T=1 2"])),
                ("-I x -D A=1 -D B", ([], ["x"], ["A=1", "B"])),
                (f"-F {folder}/in/b.f", ([f"{folder}/in/b.v"], [], [])),
                (f"-f {folder}/in/c.f a.v", (["c.v", "a.v"], [], [])),
            ):
                main.write_text(text)
                found = listed([main])
                self.assertEqual(([str(it) for it in found.files], [str(it) for it in found.include], found.define),
                                 wanted, text)

    def test_parameters_and_top(self):
        with tempfile.TemporaryDirectory() as name:
            path = Path(name) / "main.f"
            for text, parameters, top in (
                ("-PN=1 -P M=2 -GK=3", ["N=1", "M=2", "K=3"], ""), ("-s m -P m.N=1", ["m.N=1"], "m"),
                ("--top m", [], "m"), ("--top-module m\n-top m", [], "m"), ("-g2012 a.v", [], ""),
            ):
                path.write_text(text)
                found = listed([path])
                self.assertEqual((found.parameter, found.top), (parameters, top), text)
                words = argparse.Namespace(files=[], include=[], define=[], parameter=["Z=1"], top=None)
                found.give(words)
                self.assertEqual((words.parameter, words.top), (["Z=1", *parameters], top or None), text)
                words.top = "other"
                found.give(words)
                self.assertEqual(words.top, "other")

    def test_refused(self):
        with tempfile.TemporaryDirectory() as name:
            path = Path(name) / "main.f"
            for text, said in (("a.v\n-y lib", "main.f:2: -y is no option"),
                               ("+libext+.v", "main.f:1: +libext+.v is no option"),
                               ("a.v\n\n-f", "main.f:3: -f names no file"),
                               ("a.v -P", "main.f:1: -P has no value"),
                               ("-s a\n-s b", "main.f:2: the top module is a already"),
                               ("--trace", "main.f:1: --trace is no option"),
                               ("-pvalue+N=1", "main.f:1: -pvalue+N=1 is no option"),
                               ("$NO_SUCH_NAME/a.v", "main.f:1: the environment has no"),
                               (f"-f {path}", "perhaps it names itself"),
                               ('a.v\n"b.v\n', "main.f:2: a text in quotes")):
                path.write_text(text)
                with self.assertRaisesRegex(ToolFailed, re.escape(said)):
                    listed([path])
            with self.assertRaises(FileNotFoundError):
                listed([Path(name) / "none.f"])
