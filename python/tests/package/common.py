"""What the parts of run_package.py share: small circuits, and the program that the package runs."""

import contextlib
import importlib.util
import os
import shutil
import sys

import aig
from library.runs import EXAMPLES, TESTS, LeftOut, write

CONFIRMED = "1\nb0\n00\n1\n1\n1\n1\n.\n"
# Latch 4 takes input 2 and latch 4, so it stays 0 once it is. The certificate claims that it is 0.
STAYS = "aag 3 1 1 0 1 1\n2\n4 6\n4\n6 2 4\n"
CLAIMS_0 = "aag 2 1 1 1 0\n2\n4 4\n4\n"
PROOF_OF_0 = b"6 0\n0\n"
CLAIMS_1 = "aag 2 1 1 1 0\n2\n4 4\n5\n"


def chain_of(count):
    """Inputs d[0] to d[count], latches q[0] to q[count - 1], of which q[K] is 1 after frame K if d[1] to d[K + 1] were
    1 one after the other, the property pK that q[K - 1] is 1, and the constraint that not all of d are. p0 never is."""
    inputs = [2 * (at + 1) for at in range(count + 1)]
    latches = [2 * (count + 2 + at) for at in range(count)]
    gates = [2 * (2 * count + 2 + at) for at in range(2 * count)]
    lines = [f"aag {gates[-1] // 2} {count + 1} {count} {count + 1} {len(gates)} {count + 1} 1", *map(str, inputs)]
    lines += [f"{latch} {gates[at] if at else inputs[1]}" for at, latch in enumerate(latches)]
    bad = [gates[0], *latches]
    lines += [str(it) for it in (*bad, *bad, gates[-1] ^ 1)]
    lines.append(f"{gates[0]} {latches[0]} {latches[0] ^ 1}")
    lines += [f"{gates[at]} {latches[at - 1]} {inputs[at + 1]}" for at in range(1, count)]
    all_of = inputs[0]
    for at in range(count):
        lines.append(f"{gates[count + at]} {all_of} {inputs[at + 1]}")
        all_of = gates[count + at]
    lines += [f"i{at} d[{at}]" for at in range(count + 1)] + [f"l{at} q[{at}]" for at in range(count)]
    return "\n".join([*lines, *(f"b{at} p{at}" for at in range(count + 1)), ""])


CHAIN = chain_of(12)
# A certificate that claims nothing but the property.
NO_CLAIM = "aag 0 0 0 0 0\n"


def need(*names):
    """Leaves the part out where a program or a package of Python is missing."""
    for name in names:
        if importlib.util.find_spec(name) is None and not shutil.which(name):
            raise LeftOut(f"there is no {name}")


@contextlib.contextmanager
def setting(name, value):
    """A variable of the environment has this value, or none."""
    usual = os.environ.pop(name, None)
    if value is not None:
        os.environ[name] = value
    try:
        yield
    finally:
        os.environ.pop(name, None)
        if usual is not None:
            os.environ[name] = usual


@contextlib.contextmanager
def running(program):
    """The package runs this program, and takes no library."""
    with setting("AIG_PROGRAM", os.path.abspath(program)), setting("AIG_LIBRARY", ""):
        yield


def small_solver(path):
    """Writes a small solver as a program."""
    write(path, f'#!/bin/sh\nexec "{sys.executable}" -S -E "{TESTS}/library/small_solver.py" "$@"\n')
    os.chmod(path, 0o755)


def example(name):
    return aig.read(f"{EXAMPLES}/{name}")


def raised(call, *words, **settings):
    """What a call raises."""
    try:
        call(*words, **settings)
    except Exception as error:
        return error
    return None
