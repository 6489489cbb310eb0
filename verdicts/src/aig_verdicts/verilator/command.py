"""`python3 -m aig_verdicts.verilator`: a circuit of Verilog, read by Verilator."""

from __future__ import annotations

import argparse
import sys
import threading
import traceback
from pathlib import Path
from typing import Callable, List, Optional, TypeVar

from .blast import blasted
from .btor2 import written
from .reader import circuit
from .dumps.source import without_pieces
from .dumps.tree import NotRead

_DESCRIPTION = """\
Make a circuit of Verilog or SystemVerilog, in AIGER, on standard output. Verilator reads the sources; Yosys is not needed.

This is a second reader of sources. `aig-verdicts run` does not ask it yet. Its circuit has the properties of the sources
as bad states and constraints. It stops, with a file and a line, at what it does not read."""
_EPILOG = """\
VERILATOR names another program than `verilator`. At its first use, a Verilator has to read a probe as the standard says.
The exit status is 0, or 1 if the sources were not read."""
_STACK = 1 << 29
_DEEPEST = 1000000

T = TypeVar("T")


def deep(call: Callable[[], T]) -> T:
    """Runs a call in a thread with a large stack: trees and words are deep."""
    made: List[T] = []
    failed: List[BaseException] = []

    def run() -> None:
        try:
            made.append(call())
        except BaseException as why:  # it is raised again below
            failed.append(why)

    before, deepest = threading.stack_size(_STACK), sys.getrecursionlimit()
    sys.setrecursionlimit(_DEEPEST)
    try:
        thread = threading.Thread(target=run, daemon=True)
        thread.start()
        thread.join()
    finally:
        threading.stack_size(before)
        sys.setrecursionlimit(deepest)
    if failed:
        raise failed[0]
    return made[0]


def arguments(words: Optional[List[str]]) -> argparse.Namespace:
    """The arguments of the command line."""
    parser = argparse.ArgumentParser(prog="python3 -m aig_verdicts.verilator", description=_DESCRIPTION, epilog=_EPILOG,
                                     formatter_class=argparse.RawDescriptionHelpFormatter)
    parser.add_argument("files", nargs="+", metavar="FILE", help="sources, in order")
    parser.add_argument("--top", default="", metavar="M", help="the top module, if there are several")
    parser.add_argument("-D", action="append", default=[], metavar="X",
                        help="define a macro, X or X=VALUE; FORMAL is defined")
    parser.add_argument("--outputs", action="store_true", help="add the outputs of the top module to the circuit")
    parser.add_argument("--btor2", type=Path, metavar="F", help="write the words of the circuit to a file, as BTOR2")
    return parser.parse_args(words)


def _made(given: argparse.Namespace) -> str:
    read = circuit(given.files, given.D, given.top, given.outputs)
    for it in read.notes:
        print("note: " + without_pieces(it), file=sys.stderr)
    text = written(read.circuit)
    if given.btor2:
        given.btor2.write_text(text, encoding="latin-1")
    return blasted(text)


def main(words: Optional[List[str]] = None) -> int:
    """The command."""
    given = arguments(words)
    try:
        sys.stdout.write(deep(lambda: _made(given)))
        return 0
    except NotRead as why:
        said = without_pieces(str(why))
    except OSError as why:
        said = f"{why.filename}: {why.strerror}"
    except Exception as why:  # a fault of the reader is no circuit
        at = traceback.extract_tb(why.__traceback__)[-1]
        said = f"a fault of the reader: {type(why).__name__} {why} ({Path(at.filename).name}:{at.lineno})"
    print("not read: " + said, file=sys.stderr)
    return 1
