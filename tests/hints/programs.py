"""The programs in C++ of this folder, where there is a compiler. Each is compiled once in a run of the script."""

import functools
import os
import shutil
import subprocess
import tempfile

from library import supervised
from library.runs import REPOSITORY, LeftOut, Program

HERE = os.path.dirname(os.path.abspath(__file__))
COMPILERS = ("c++", "g++", "clang++")
PROOF_TESTS = "aig_tests"
_room = tempfile.TemporaryDirectory()


@functools.lru_cache(maxsize=None)
def built(name):
    """The path of a program of this folder."""
    compiler = next(filter(shutil.which, COMPILERS), None)
    if compiler is None:
        raise LeftOut(f"there is no compiler of C++ ({', '.join(COMPILERS)})")
    path = f"{_room.name}/{name}"
    supervised.run([compiler, "-O2", "-std=c++17", "-o", path, f"{HERE}/{name}.cpp"], check=True)
    return path


def ran(name, *words):
    """The status, standard output and standard error of a program of this folder."""
    done = supervised.run([built(name), *words], stdin=subprocess.DEVNULL, capture_output=True)
    return done.returncode, done.stdout.decode(errors="replace"), done.stderr.decode(errors="replace")


def proof_tests(program):
    """The program aig_tests, which is beside the program that is tested, or that the gate proved."""
    proved = f"{REPOSITORY}/crates/{PROOF_TESTS}/out/{PROOF_TESTS}"
    path = f"{os.path.dirname(program.path)}/{PROOF_TESTS}" if program.is_named else proved
    if not os.access(path, os.X_OK):
        raise LeftOut(f"there is no program {path}")
    return Program(path, program.is_named)
