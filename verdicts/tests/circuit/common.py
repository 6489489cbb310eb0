"""What the tests of circuits share: a folder of their own, and a reader of Verilog where there is Yosys."""

import shutil
import tempfile
import unittest
from pathlib import Path

from aig_verdicts.reading.design import Reading, read_verilog
from aig.tools import Stop


class Folder(unittest.TestCase):
    def setUp(self):
        self._folder = tempfile.TemporaryDirectory()
        self.at = Path(self._folder.name)

    def tearDown(self):
        self._folder.cleanup()

    def made(self, name, text):
        path = self.at / name
        path.parent.mkdir(parents=True, exist_ok=True)
        path.write_text(text)
        return path


@unittest.skipUnless(shutil.which("yosys"), "there is no yosys")
class WithYosys(Folder):
    def read(self, text, name="x.v", **settings):
        return read_verilog([self.made(name, text)], Reading(**settings), Stop())
