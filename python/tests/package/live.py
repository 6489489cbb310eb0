"""Benches that the library holds, beside those of a process: the same calls get the same answers."""

import copy
import os
import pickle
import random
import resource
import shutil
import threading
import warnings
from array import array
from pathlib import Path

import aig
from aig._by_library import CALLS
from library import runs, supervised
from library.runs import LeftOut, leave_out
from package.bench import bench
from package.common import example, raised, setting
from package.random_benches import Calls, circuit_of, said

# So many benches of more than half a megabyte are opened, and may keep so many kilobytes in all.
COLLECTED, KEPT = 60, 15 * 1024
# Random calls on each pair of benches.
COUNT = 120


def library_of(program, installed):
    """The library that belongs to the program: as installed, or in `lib` beside it, or the one that the gate made."""
    if installed:
        with setting("AIG_LIBRARY", None):
            found = aig._where.library()
    else:
        # beside the program, or beside that of the gate
        beside = os.path.dirname(os.path.abspath(program.path))
        folders = (f"{beside}/lib", f"{beside}/../../aig_c/out/lib")
        found = next((it for it in (f"{folder}/libaig.so" for folder in folders) if os.path.exists(it)), folders[0])
    if found is None or not os.path.isfile(found):
        raise LeftOut("live: no library is beside the program")
    return found


def live(program, tally, chosen):
    """Benches in the library, beside the process and alone."""
    path = library_of(program, chosen.installed)
    with setting("AIG_LIBRARY", path):
        with example("counter.aag").bench() as opened:
            tally.compare("the library holds the bench", type(opened._engine).__name__, "ByLibrary")
        bench(program, tally, chosen)
        arrays(tally)
        wrong(tally)
        afterwards(tally)
        rejected(tally, path)
        collected(tally)
    calls = sum(beside(tally, path, seed, sizes) for seed, sizes in enumerate([(2, 2, 9)] * 8 + [(70, 40, 300)] * 2))
    return f"{calls} calls by both; " + large(tally, path)


def beside(tally, path, seed, sizes):
    """Random calls on two benches, one held by the library and one by a process. It answers how many there were."""
    chance = random.Random(seed)
    calls = Calls(chance, circuit_of(chance, *sizes))
    rows = calls.rows(chance.choice((0, 3, 70, 140)))
    with setting("AIG_LIBRARY", path):
        ours = calls.circuit.bench(rows)
    with setting("AIG_LIBRARY", ""):
        others = calls.circuit.bench(rows)
    with ours, others:
        for at in range(COUNT):
            name, words = calls.any()
            found, wanted = said(ours, name, words), said(others, name, words)
            tally.compare(f"seed {seed}, call {at}: {name}{words}"[:200], found, wanted)
            calls.note(name, wanted)
    return COUNT


def large(tally, path):
    """Texts longer than the first room, and more cells and edits than there are lines between replies."""
    circuit = circuit_of(random.Random(1), 200, 200, 9000)
    chance = random.Random(2)
    rows = ["".join(chance.choice("01x") for _ in range(200)) for _ in range(300)]
    found = []
    cells = array("I", [number for at in range(5000) for number in (at % 300, 2 * (at % 9400 + 1))])
    edits = array("I", [number for at in range(1500) for number in (0, at % 300, at % 200, at % 3)])
    for library in (path, ""):
        with setting("AIG_LIBRARY", library), circuit.bench(rows) as opened:
            opened.edits(edits)
            saved, kept = opened.save()
            found.append((opened.values(cells), opened.trace().text, saved.file, kept))
    tally.check("large texts and arrays", found[0] == found[1])
    tally.check("larger than a room", len(found[0][1]) > 1 << 16 and len(found[0][2]) > 1 << 16)
    return f"texts of {len(found[0][1])} and {len(found[0][2])} bytes; "


def arrays(tally):
    """Arrays of each kind that is right."""
    cells = array("I", [0, 6, 1, 6, 2, 6, 3, 7])
    for library in (os.environ["AIG_LIBRARY"], ""):
        with setting("AIG_LIBRARY", library), example("counter.aag").bench(["10"] * 4) as opened:
            views = (cells, memoryview(cells), memoryview(cells).toreadonly(),
                     memoryview(cells).cast("B").cast("I", (4, 2)))
            tally.compare("arrays of cells", [opened.values(it) for it in views], [b"\0\1\0\0"] * 4)
            tally.compare("a part of an array", opened.values(memoryview(cells)[2:4]), b"\1")
            tally.compare("pairs", opened.values([("count[0]", 1), ("!count[0]", 3), (6, 3)]), [1, 0, 1])
            nothing = opened.values(array("I")), opened.values([]), opened.values([], [1])
            tally.compare("nothing", nothing, (b"", [], [[]]))
            opened.edits([])
            opened.edits(array("I"))
            opened.edits([("set", "clear", 0, aig.X), ("reset", "count[0]", 1), ("pop",), ("add_gate", 2, 4),
                          ("set_output", "wrap", 48), ("rewire", 48, "enable", 1)])
            tally.compare("edits", (opened.trace()["o4"], len(opened.trace()), opened.value(6, 0)), ("111", 3, 1))
            tally.compare("a gate after that of an array", opened.add_gate(2, 4), 50)
            error = raised(opened.edits, [("pop",), ("set", "clear", 2, 1), ("pop",)])
            tally.compare("edits up to one that is refused", (error.number, error.done, len(opened.trace())), (6, 1, 2))


def wrong(tally):
    """Arguments that are none: an exception says so, and nothing changes."""
    for library in (os.environ["AIG_LIBRARY"], ""):
        with setting("AIG_LIBRARY", library), example("counter.aag").bench(["10"] * 2) as opened:
            before = opened.trace().text
            numbers = array("I", range(16))
            for given in (array("i", [0, 6]), array("H", [0] * 8), array("Q", [0, 6]), array("B", [0] * 8), bytes(8),
                          array("I", [0]), array("f", [0, 6]), memoryview(numbers)[::2], numbers[:3]):
                for call in (opened.values, opened.edits):
                    error = raised(call, given)
                    tally.check(f"no array: {given!r}"[:90], isinstance(error, ValueError), error)
            for four in ([0, 0, 0, 3], [0, 0, 0, 256], [0, 9, 9, 3], [2, 6, 3, 0], [2, 6, 1 << 31, 0], [6, 0, 0, 0],
                         [256, 0, 0, 0], [(1 << 32) - 1, 0, 0, 0]):
                error = raised(opened.edits, array("I", four))
                tally.check(f"no edit: {four}", isinstance(error, ValueError) and "edit 0 is none" in str(error), error)
            for name, words in (("value", (6, 1 << 32)), ("value", ((1 << 32) + 6, 0)), ("value", (6, -1)),
                                ("value", (6, 1.0)), ("set", ("clear", 1 << 32, 1)), ("set", ("clear", 0, 3)),
                                ("rewire", (1 << 32, 2, 2)), ("rewire", (14, -2, 2)), ("append", ("0X",)),
                                ("append", ("01\n01",)), ("append", ("0 1",)), ("values", ([6], [1 << 32])),
                                ("values", ([(6, 1 << 64)],)), ("edits", ([("set", "clear", -1, 1)],)),
                                ("edits", ([("append", "01")],)), ("edits", ([("set", "clear", 0, 2)],)),
                                ("edits", ([("pop",), ("rewire", 1 << 32, 2, 2)],))):
                error = raised(getattr(opened, name), *words)
                tally.check(f"no number, or no value: {name}{words}", isinstance(error, ValueError), error)
            tally.compare("nothing changed", opened.trace().text, before)


def afterwards(tally):
    """A bench that is closed, and one on another thread."""
    asked = [("value", (2, 0)), ("values", ([2], [0])), ("values", (array("I", [0, 2]),)), ("trace", ()),
             ("unroll", ()), ("set", (0, 0, 1)), ("append", ("10",)), ("pop", ()), ("rewire", (14, 2, 2)),
             ("reset", ("count[0]", 1)), ("add_gate", (2, 2)), ("set_output", ("wrap", 1)), ("edits", ([("pop",)],)), ("script", (["-"],)),
             ("save", ()), ("value", ("count", 0)), ("frame", (0,)), ("set", ("clear", 0, 1)), ("replace_rows", (["10"] * 2,)),
             ("why", ("count",)), ("why", ()), ("check", ()), ("witness", ()), ("diff", ()), ("wave", ()), ("svg", ())]
    for library in (os.environ["AIG_LIBRARY"], ""):
        with setting("AIG_LIBRARY", library), example("counter.aag").bench(["10"] * 2) as opened:
            errors = []
            thread = threading.Thread(target=lambda: errors.extend(
                raised(getattr(opened, name), *words) for name, words in [*asked, ("close", ())]))
            thread.start()
            thread.join()
            for (name, _), error in zip([*asked, ("close", ())], errors):
                tally.check(f"on another thread: {name}", isinstance(error, RuntimeError), error)
            tally.compare("as it was", (len(opened.trace()), opened.value(2, 0)), (2, 1))
            for call in (copy.copy, copy.deepcopy, pickle.dumps):
                tally.check(f"no copy: {call.__name__}", isinstance(raised(call, opened), TypeError))
            opened.close()
            opened.close()
            for name, words in asked:
                error = raised(getattr(opened, name), *words)
                tally.check(f"closed: {name}", isinstance(error, ValueError) and "closed" in str(error), error)
            for name in ("rows", "frames"):
                tally.check(f"closed: {name}", isinstance(raised(getattr, opened, name), ValueError))


def rejected(tally, path):
    """Rejected files get the same error, with its explanation."""
    counter = example("counter.aag")
    for rows in (["1"], ["10", "1"], b"1z\n", b"10"):
        errors = []
        for library in (path, ""):
            with setting("AIG_LIBRARY", library):
                errors.append(raised(counter.bench, rows))
        one, other = [(type(it), it.part, it.reason, it.explanation) for it in errors]
        tally.compare(f"rejected rows {rows}", one, other)


def collected(tally):
    """A bench that nothing names any more is closed."""
    circuit = circuit_of(random.Random(3), 100, 100, 3000)
    rows = ["0" * 100] * 1000
    circuit.bench(rows)
    before = resource.getrusage(resource.RUSAGE_SELF).ru_maxrss
    for _ in range(COLLECTED):
        circuit.bench(rows)
    grown = resource.getrusage(resource.RUSAGE_SELF).ru_maxrss - before
    tally.check("the memory of benches that were collected", grown < KEPT, f"{grown} kilobytes")


def libraries(program, tally, _):
    """Where the library is looked for, and what is no library."""
    where = os.path.realpath(os.getcwd())
    for name in ("prefix/bin/aig", "prefix/lib/libaig.so.0", "build/aig", "build/lib/libaig.so", "alone/aig"):
        os.makedirs(os.path.dirname(name), exist_ok=True)
        runs.write(name, "")
        os.chmod(name, 0o755)
    os.symlink(f"{where}/prefix/bin/aig", "linked")
    for given, wanted in (("prefix/bin/aig", "prefix/lib/libaig.so.0"), ("linked", "prefix/lib/libaig.so.0"),
                          ("build/aig", "build/lib/libaig.so"), ("alone/aig", None)):
        with setting("AIG_PROGRAM", f"{where}/{given}"), setting("AIG_LIBRARY", None):
            found = aig._where.library()
        tally.compare(f"beside {given}", found and os.path.realpath(found), wanted and f"{where}/{wanted}")
        with setting("AIG_PROGRAM", f"{where}/{given}"), setting("AIG_LIBRARY", ""):
            tally.compare(f"none beside {given}", aig._where.library(), None)
    with setting("AIG_LIBRARY", "nothing.so"):
        error = raised(aig._where.library)
        tally.check("a library that is not there", isinstance(error, FileNotFoundError), error)
    loaded = [line.split()[-1] for line in Path("/proc/self/maps").read_text().splitlines() if "libc.so.6" in line]
    for name, why in (("build/lib/libaig.so", "too short"), *((it, "aig_version") for it in loaded[:1])):
        tally.compare(f"{os.path.basename(name)} has no benches", by_process(tally, name, why), True)
    inside = os.path.dirname(aig.__file__) + "/libaig.so"
    with setting("AIG_PROGRAM", None), setting("AIG_LIBRARY", None), setting("PATH", f"{where}/build"):
        found = aig._where.library() if shutil.which("aig") else None
    tally.compare("the one of the wheel comes first", found, inside if os.path.exists(inside) else found)
    other_versions(tally)


def by_process(tally, library, why):
    """Whether a process holds benches where there is this library. One line says why, the first time alone."""
    with setting("AIG_LIBRARY", library), warnings.catch_warnings(record=True) as said:
        warnings.simplefilter("always")
        for _ in range(2):
            with example("counter.aag").bench(["10"]) as opened:
                found = type(opened._engine).__name__, opened.value("enable", 0)
    lines = [str(it.message) for it in said]
    tally.check(f"said of {library}", len(lines) == 1 and why in lines[0] and "\n" not in lines[0], lines)
    tally.compare(f"where it is said of {library}", [it.filename for it in said], [__file__])
    return found == ("ByProgram", 1)


def other_versions(tally):
    """A library of another version has calls that say that memory ran out: none of them is called."""
    if not shutil.which("cc"):
        leave_out("libraries: other versions", "there is no cc")
        return
    calls = "".join(f"unsigned char aig_live_{name}(void) {{ return 3; }}\n" for name in CALLS)
    for at, (version, said) in enumerate((("0.2.9", "0.2.9"), (aig.__version__ + ".1", aig.__version__ + ".1"),
                                          (aig.__version__[:-1], aig.__version__[:-1]), ("9" * 80, "unknown"), ("", ""))):
        runs.write("other.c", VERSION % version + calls)
        supervised.run(["cc", "-shared", "-fPIC", "other.c", "-o", f"other{at}.so"], check=True)
        why = f"has version {said}, and this package {aig.__version__}"
        tally.check(f"a library of version {version}", by_process(tally, os.path.abspath(f"other{at}.so"), why))


# The call of a library that says its version.
VERSION = """#include <string.h>
unsigned char aig_version(char *room, size_t room_length, size_t *length)
{
    const char *version = "%s";
    if (strlen(version) > room_length)
        return 2;
    *length = strlen(version);
    memcpy(room, version, *length);
    return 0;
}
"""
