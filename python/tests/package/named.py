"""Benches by names: vectors, buffers of values, and what the prompt answers. The library and a process answer alike."""

import os
import re
import sys
import xml.etree.ElementTree as tree
from array import array

import aig
import run_notebook
from library import supervised
from library.runs import EXAMPLES, LeftOut, leave_out
from library.supervised import SCRIPT_SECONDS
from package.common import example, need, raised, setting
from package.live import library_of

# Two latches that swap, with names of a vector each way round: [1:0] of an output, and [0:1].
FALLING = "aag 2 0 2 2 0\n2 4\n4 2 1\n2\n4\nl0 up[0]\nl1 up[1]\no0 down[1]\no1 down[0]\n"
# One name of two inputs beside a vector of that name.
TWICE = "aag 4 4 0 0 0\n2\n4\n6\n8\ni0 a\ni1 a\ni2 a[0]\ni3 a[1]\n"


def by_each(part):
    """A part that is run with the library that belongs to the program, if there is one, and with a process."""
    def both(program, tally, chosen):
        try:
            libraries = [library_of(program, chosen.installed), ""]
        except LeftOut as why:
            leave_out(part.__name__, why)
            libraries = [""]
        for library in libraries:
            with setting("AIG_LIBRARY", library):
                part(tally)
    both.__doc__ = part.__doc__
    return both


@by_each
def vectors(tally):
    """Values, edits and rows of vectors."""
    with example("wraps.aag").bench(["1"] * 6) as opened:
        tally.compare("a vector", [opened.value("count", at) for at in range(6)], [0, 1, 2, 3, 0, 1])
        tally.compare("negated", [opened.value("!count", at) for at in (0, 1)], [3, 2])
        tally.compare("beside signals", opened.values(["count", "enable", 3, "count[1]"], [2, 5]),
                      [[2, 1, 0, 1], [1, 1, 0, 0]])
        tally.compare("pairs", opened.values([("count", 3), ("enable", 0), ("!count", 3)]), [3, 1, 0])
        opened.reset("count", 2)
        tally.compare("a latch vector that starts elsewhere", opened.trace().vector("count"), [2, 3, 0, 1, 2, 3])
        opened.edits([("reset", "count", "x1"), ("pop",)])
        tally.compare("an unknown bit", (opened.value("count", 0), opened.value("count[0]", 0)), (aig.X, 1))
        error = raised(opened.edits, [("reset", "count", 1), ("set", "enable", 5, 1)])
        tally.compare("done are the caller's edits", (error.number, error.done, opened.value("count", 0)), (6, 1, 1))
        opened.reset("count", aig.X)
        tally.compare("x in each bit", opened.values(["count[0]", "count[1]", "count"], [0]), [[aig.X] * 3])
        error = raised(opened.value, "count", 5)
        tally.compare("no frame", (error.number, str(raised(opened.value, "cuont", 0))), (6, "\"there is no signal 'cuont'\""))
        for value in (4, -1, 1.5, "1", "012", "2", "0z", [0, 1], "10 "):
            error = raised(opened.reset, "count", value)
            tally.check(f"no value of two bits: {value!r}", isinstance(error, ValueError) and repr(value) in str(error), error)
    queue = example("queue.aig")
    with queue.bench([{"din": 0xB1, "push": 1}, {"din": None}, "0" * 12]) as opened:
        tally.compare("their values", opened.values(["din", "push"], range(3)), [[0xB1, 1], [aig.X, aig.X], [0, 0]])
        opened.set("din", 1, 0x3C)
        tally.compare("bits in their order", [opened.value(f"din[{at}]", 1) for at in range(8)], [0, 0, 1, 1, 1, 1, 0, 0])
        error = raised(opened.set, "din", 3, 1)
        tally.compare("a frame that is not there", (error.number, opened.values(["din"], range(3))), (6, [[0xB1], [0x3C], [0]]))
        tally.check("no input", isinstance(raised(opened.set, "count", 0, 1), KeyError))
        tally.check("more than a vector has", isinstance(raised(opened.set, "din", 0, 256), ValueError))
    with aig.Circuit(FALLING).bench([""] * 2) as opened:
        tally.compare("rising", [opened.value("up", at) for at in (0, 1)], [2, 1])
        error = raised(opened.value, "down", 0)
        tally.check("falling", isinstance(error, KeyError) and "falling" in str(error), error)
    with aig.Circuit(TWICE).bench(["0110"]) as opened:
        error = raised(opened.value, "a", 0)
        tally.check("one name of two inputs", isinstance(error, KeyError) and "use one of these" in str(error), error)


@by_each
def moved(tally):
    """The name of an output that was set is that of its new literal."""
    edits = (lambda it: it.set_output("wrap", "!enable"), lambda it: it.edits([("pop",), ("set_output", "wrap", 3)]),
             lambda it: it.edits(array("I", [5, 0, 0, 0, 4, 4, 3, 0])), lambda it: it.script(["q", "o 4 3", "o 9 3"]),
             lambda it: raised(it.edits, [("set_output", "wrap", 3), ("set_output", "wrap", 10 ** 6)]))
    counter = example("counter.aag")
    for at, edit in enumerate(edits):
        with counter.bench(["10", "00"]) as opened:
            old = opened.value("wrap", 0), opened.signals.literal("wrap")
            edit(opened)
            tally.compare(f"an output that was set, {at}", (opened.value("wrap", 0), opened.trace()["wrap"][0]), (0, "0"))
            tally.compare(f"its literal, {at}", opened.signals.literal("wrap"), 3)
            tally.compare(f"the circuit, {at}", opened.circuit.literal("wrap"), old[1])
            opened.save()
            tally.compare(f"saved, {at}", opened.circuit.literal("wrap"), 3)


@by_each
def buffers(tally):
    """Values into a buffer of the caller, and all values of a frame."""
    counter = example("counter.aag")
    cells = array("I", [0, 6, 1, 6, 2, 6, 3, 7])
    with counter.bench(["10"] * 4) as opened:
        for room in (bytearray(4), array("B", [9] * 4), memoryview(bytearray(9))[2:6]):
            found = opened.values(cells, into=room)
            tally.compare(f"into {type(room).__name__}", (bytes(room), found), (b"\0\1\0\0",) * 2)
        for words in ((["enable"], [0]), ([("enable", 0)],)):
            tally.check("into= without an array", isinstance(raised(opened.values, *words, into=bytearray(1)), ValueError))
        around = bytearray(b"\7" * 9)
        opened.values(cells, into=memoryview(around)[2:6])
        tally.compare("nothing around it", bytes(around), b"\7\7\0\1\0\0\7\7\7")
        for room in (bytearray(3), bytearray(5), bytes(4), array("I", [0]), memoryview(bytearray(8))[::2]):
            error = raised(opened.values, cells, into=room)
            tally.check(f"no room: {room!r}", isinstance(error, ValueError), error)
        frame = opened.frame(1)
        tally.compare("a frame", [frame[it] for it in range(len(frame))],
                      [opened.value(2 * it, 1) for it in range(len(frame))])
        count = counter.info()["variables"] + 1
        gate = opened.add_gate("enable", "count[0]")
        frame, room = opened.frame(1), bytearray(count + 1)
        tally.compare("with the new gate", (len(frame), frame[gate // 2]), (count + 1, 1))
        tally.compare("into a buffer", (opened.frame(1, into=room), bytes(room)), (frame, frame))
        opened.set("enable", 1, aig.X)
        tally.compare("x", opened.frame(1)[1], 2)
        tally.compare("no frame", [raised(opened.frame, it).number for it in (4, (1 << 32) - 1)], [6, 6])
        for at in (-1, 1 << 32, 1.0, "1"):
            tally.check(f"no number: {at!r}", isinstance(raised(opened.frame, at), ValueError))
    with aig.Circuit("aag 3 1 0 1 0\n2\n2\n").bench(["1"]) as opened:
        tally.compare("variables that are not defined", opened.frame(0), b"\0\1\24\24")


@by_each
def arrays_of_numpy(tally):
    """Arrays of numpy, in and out."""
    need("numpy")
    import numpy

    cells = numpy.array([[0, 6], [1, 6], [2, 6], [3, 7]], dtype=numpy.uint32)
    pairs = numpy.array([(0, 6), (1, 6), (2, 6), (3, 7)], dtype=[("frame", "u4"), ("literal", "u4")])
    edit = numpy.dtype([("kind", "u4"), ("a", "u4"), ("b", "u4"), ("c", "u4")])
    with example("counter.aag").bench(["10"] * 4) as opened:
        for given in (cells, pairs):
            found, room = opened.values(given), numpy.zeros(4, dtype=numpy.uint8)
            tally.compare("values", (type(found), found.dtype.str, found.tolist()), (numpy.ndarray, "|u1", [0, 1, 0, 0]))
            opened.values(given, into=room)
            tally.compare("into an array", room.tolist(), [0, 1, 0, 0])
        opened.edits(numpy.array([(0, 1, 0, 0), (5, 0, 0, 0)], dtype=edit))
        tally.compare("edits", (opened.rows, opened.frames), (["10", "00", "10"], 3))
        opened.set("enable", numpy.int64(1), numpy.int64(1))
        tally.compare("numbers", (opened.value("enable", numpy.uint8(1)), opened.rows[1]), (1, "10"))
        wide = numpy.array([(0, 6)], dtype=[("frame", "u8"), ("literal", "u8")])
        three = numpy.array([(0, 6, 0)], dtype=[("frame", "u4"), ("literal", "u4"), ("more", "u4")])
        floats = numpy.array([(0, 6)], dtype=[("frame", "u4"), ("literal", "f4")])
        apart = numpy.zeros(1, dtype=numpy.dtype({"names": ["a", "b"], "formats": ["u4", "u4"], "itemsize": 12}))
        for given in (wide, three, floats, apart, pairs[::2], cells.astype(numpy.int64), cells[:, ::-1], cells.T):
            error = raised(opened.values, given)
            tally.check(f"no cells: {given.dtype}", isinstance(error, ValueError), error)


@by_each
def prompt(tally):
    """What the prompt answers too: why, check, witness, diff and wave; rows; and the picture."""
    wraps = example("wraps.aag")
    with wraps.bench(["1"] * 6) as opened:
        tally.compare("no difference", (opened.diff(), opened.check()), ({}, ["b0 wraps: reached at 3"]))
        opened.set("enable", 2, 0)
        opened.append("x")
        moved = {"enable": {2: (1, 0), 6: (None, aig.X)}, "count": {3: (3, 2), 4: (0, 3), 5: (1, 0), 6: (None, 1)},
                 "wraps": {3: (1, 0), 4: (0, 1), 6: (None, 0)}}
        tally.compare("a difference", opened.diff(), moved)
        tally.compare("check", opened.check(), ["b0 wraps: reached at 4"])
        tally.compare("why", opened.why("count", 3), ["count=2'h2 at 3, by 2: enable=0 count=2'h2",
                                                     "count=2'h2 at 2, by 1: enable=1 count=2'h1",
                                                     "count=2'h1 at 1, by 0: enable=1 count=2'h0",
                                                     "at 0, by reset: count=2'h0"])
        tally.compare("why, to a depth", opened.why("count", 3, 0), ["at 3, not explained: count=2'h2"])
        tally.compare("why the property", opened.why(depth=0)[0], "wraps=1 at 4: enable=1 count=2'h3")
        witness = opened.witness("wraps")
        tally.compare("a witness", (witness.rows, bool(wraps.check(witness))), (["1", "1", "0", "1", "1"], True))
        tally.check("a wave", b"$enddefinitions" in opened.wave() and opened.wave() == wraps.wave(opened.rows))
        tally.compare("rows", (opened.rows, opened.frames), (["1", "1", "0", "1", "1", "1", "x"], 7))
        keys = [it for it in tree.fromstring(opened._repr_html_()).iter() if " k" in f" {it.get('class')}"]
        tally.check("the picture marks differences", keys)
        opened.replace_rows([{"enable": 1}] * 6 + ["0"])
        tally.compare("other rows", (opened.trace().vector("count"), opened.rows), ([0, 1, 2, 3, 0, 1, 2], ["1"] * 6 + ["0"]))
        opened.replace_rows(b"1\n" * 6 + b"0\n")
        for rows in (["1"] * 6, ["1"] * 8, ["1"] * 6 + ["11"], ["1"] * 6 + ["z"], b"1\n" * 6 + b"1", [], ["1"] * 6 + [""]):
            error = raised(opened.replace_rows, rows)
            tally.check(f"no rows: {rows}", isinstance(error, ValueError), error)
        opened.pop()
        tally.compare("as it was opened", opened.diff(), {})
        opened.set("enable", 0, 0)
        opened.set("enable", 1, 0)
        opened.set("enable", 2, 0)
        tally.compare("not reached", opened.check(), ["b0 wraps: not reached"])
        error = raised(opened.witness)
        tally.compare("no witness", error.reason, "no run")
        tally.compare("why of no name", raised(opened.why, "cuont").reason, "name")
        quiet = [it for it in tree.fromstring(wraps.bench(["1"])._repr_html_()).iter() if " k" in f" {it.get('class')}"]
        tally.compare("a picture without differences", quiet, [])
        closed = wraps.bench(["1"])
        closed.close()
        tally.compare("no picture of a closed bench", closed._repr_html_(), None)
        stuck = wraps.bench(["1"] * 4)
        stuck.rewire(18, 0, 0)
        tally.compare("of the edited circuit", (stuck.check(), stuck.why("count", 2)[0]),
                      (["b0 wraps: not reached"], "count=2'h0 at 2, by 1: enable=1 count=2'b?1"))
    with aig.Circuit("aag 2 2 0 1 0 1 1\n2\n4\n2\n4\n2\n").bench(["11", "01", "11"]) as opened:
        tally.compare("a run that is none", opened.check(), ["b0: reached at 0", "c0 is 0 at 1"])


@by_each
def notebook(tally):
    """The cells of the notebook of examples/ run without Jupyter, and have the outputs that the file has."""
    path = f"{EXAMPLES}/bench.ipynb"
    with open(path, encoding="utf-8") as file:
        text = file.read()
    ran = run_notebook.run(path)
    tally.compare("the notebook", run_notebook.text_of(ran), text)
    outputs = [cell["outputs"][0]["data"] for cell in ran["cells"] if cell.get("outputs")]
    pictures = [tree.fromstring(f"<div>{''.join(it['text/html'])}</div>") for it in outputs if "text/html" in it]
    tally.compare("its pictures", [sum(it.tag.endswith("svg") for it in picture.iter()) for picture in pictures], [1, 1])
    tally.check("its other outputs", len(outputs) > 6)


@by_each
def lift(tally):
    """The example that lifts a state frees the same by edits and by evaluating anew, and what is left is confirmed."""
    paths = [f"{EXAMPLES}/{name}" for name in ("lift.py", "queue.aig", "queue.wit")]
    settings = {**os.environ, "PYTHONPATH": os.path.dirname(os.path.dirname(aig.__file__))}
    done = supervised.run([sys.executable, *paths, "5"], env=settings, capture_output=True, text=True, check=False,
                          timeout=SCRIPT_SECONDS)
    form = r"Anew: (\d+) of (\d+) values are free, \d+ us each\nEdits: \1 of \2 values are free, \d+ us each\n" \
           r"state 5: ([01x]{76})\nconfirmed\n"
    match = re.fullmatch(form, done.stdout)
    tally.check("lift.py", match and done.stderr == "", done)
    tally.check("it frees some values", match and 0 < int(match[1]) < int(match[2]))
