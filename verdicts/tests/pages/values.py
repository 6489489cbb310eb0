"""Pictures of random runs beside the plain simulator and explainer: each value, each thick line, each name."""

import random
import re

import aig
from aig.entries import listed
from aig.waves import explained
from aig.waves.runs import Told, chosen, story
from aig.waves.signals import Names, labels
from aig.waves.svg import Scene, parts, sheets, waveform
from pages.oracle import Expected, Picture, drawn

BASES = ("q", "=1", "at", "a=b=c", "x=1", "always", "0", "q[1]", "<b>", "i0", "l1", "é", "b0", "count")


def circuit_of(chance):
    """A random circuit with odd names: of several signals, with blanks, vectors with holes, bits in the wrong order."""
    inputs, latches, gates = chance.randrange(1, 7), chance.randrange(1, 9), chance.randrange(1, 25)
    variables = [2 * (at + 1) for at in range(inputs + latches + gates)]

    def one(below):
        return chance.choice([0, *variables[:below]]) + chance.randrange(2)

    known = inputs + latches
    lines = [str(it) for it in variables[:inputs]]
    for latch in variables[inputs:known]:
        lines.append(f"{latch} {one(known + gates)}{chance.choice(['', ' 1', f' {latch}', ''])}")
    outputs = chance.randrange(4)
    lines += [str(one(known + gates)) for _ in range(outputs)]
    lines += [str(one(known + gates) if chance.randrange(5) else chance.choice(variables[inputs:known]))]
    lines += [f"{variables[known + at]} {one(known + at)} {one(known + at)}" for at in range(gates)]
    counts = f"aag {known + gates} {inputs} {latches} {outputs} {gates} 1"
    symbols = [line for letter, count in (("i", inputs), ("l", latches), ("o", outputs))
               for line in symbols_of(chance, letter, count)]
    return "\n".join([counts, *lines, *symbols, f"b0 {chance.choice(BASES)}", ""]).encode()


def symbols_of(chance, letter, count):
    names, at = [], 0
    while at < count:
        base, wide = chance.choice(BASES), chance.choice((1, 1, 2, 3, 4))
        indices = list(range(wide))
        kind = chance.randrange(6)
        if kind == 0:
            indices.reverse()
        elif kind == 1:
            indices = [it + chance.randrange(3) for it in indices]
        elif kind == 2:
            indices.pop(chance.randrange(wide))
        for index in indices[: count - at]:
            name = f"{base}[{index}]" if wide > 1 or chance.randrange(3) == 0 else base
            name = chance.choice((name, name, name, f"{name} top.{name}", f" {name}"))
            names.append(f"{letter}{at} {name}" if chance.randrange(8) else "")
            at += 1
    return [name for name in names if name]


def witness_of(circuit, chance):
    """A witness of a random run, reduced or not; None if no run is found."""
    rows = ["".join(chance.choice("0011x") for _ in circuit.inputs) for _ in range(chance.randrange(1, 12))]
    try:
        witness = circuit.witness(rows)
    except aig.AigError:
        return None
    return witness.reduced() if chance.randrange(2) else witness


def compared(tally, name, witness, text="", chance=None):
    """Compares the picture of a witness with what it has to show, with values for x by chance or 0. Returns how many
    lanes it has."""
    told = Told(witness.circuit)
    first, name_of_property, rows = witness.text.split(b"\n", 2)
    rows = bytes(chance.choice(b"01") if chance and it == ord("x") else it for it in rows).replace(b"x", b"0")
    whole = b"\n".join([first, name_of_property, rows])
    found = story(told, witness.text, text, whole if chance else None)
    expected = Expected(told.circuit.to("aag"), witness.text)
    filled = Expected(told.circuit.to("aag"), whole)
    if told.circuit.check(witness.text).line == "confirmed":
        tally.compare(f"{name}: the run of the pale digits", told.circuit.check(whole).line, "confirmed")
    picture = Picture(*parts(found.lanes, found.run.frames, found.run.frames - 1, witness.property))
    tally.compare(f"{name}: the lines", [line.text for line in found.why], witness.why())
    tally.compare(f"{name}: no name twice", [it.name for it in picture.lanes], labels(found.signals))
    signals = {(it.letter, tuple(it.positions)): it for it in drawn(expected.names.signals)}
    frames = range(len(witness.rows))
    for lane, shown in zip(picture.lanes, found.signals):
        signal = signals[shown.key]
        tally.compare(f"{name}: the name of {lane.name!r}", shown.name, signal.name)
        wanted = {frame: expected.value(signal, frame) for frame in frames}
        tally.compare(f"{name}: values of {lane.name!r}", lane.values, wanted)
        numbers = {frame: expected.number(signal, frame, filled) for frame in frames
                   if len(signal.positions) > 1 or wanted[frame] == "x"}
        is_cut = any("…" in digits for digits, _ in lane.numbers.values())
        tally.check(f"{name}: numbers of {lane.name!r}", is_cut or lane.numbers == numbers, (lane.numbers, numbers))
        thick = {frame for frame in frames if expected.is_named(signal, frame)}
        tally.compare(f"{name}: causes of {lane.name!r}", lane.thick, thick)
    keys = {it.key for it in found.signals}
    missing = [it.name for key, it in signals.items() if it.letter in "il" and key not in keys
               and any(expected.is_named(it, frame) for frame in frames)]
    tally.compare(f"{name}: all causes are there", missing if not found.left else [], [])
    return len(picture.lanes)


def values(_, tally, __):
    """Random circuits with odd names, and one with a latch that keeps its value."""
    kept = aig.Circuit("aag 4 1 2 0 1 1\n2\n4 4 1\n6 2\n8\n8 4 6\nl0 q\n")
    compared(tally, "kept", kept.witness(["0", "0", "1", "0"]).reduced())
    chance, seen = random.Random(11), 0
    for number in range(200):
        witness = witness_of(aig.Circuit(circuit_of(chance)), chance)
        if witness is not None:
            text = f"assert ({chance.choice(BASES)} == count);"
            seen += compared(tally, str(number), witness, text, chance if number % 2 else None)
    tally.check("pictures were drawn", seen > 200, seen)


def names(_, tally, __):
    """Names, as `why` forms them: vectors, holes, one name of several signals. Bits that fall are a vector too."""
    def named(*symbols, letter="l"):
        count = len(symbols)
        lines = [f"aag {count} 0 {count} 0 0"] + [f"{2 * at + 2} 0" for at in range(count)]
        return aig.Circuit("\n".join([*lines, *(f"{letter}{at} {it}" for at, it in enumerate(symbols) if it), ""]))

    cases = {
        ("q[0]", "q[1]", "q[2]"): ["q"], ("q[0]",): ["q[0]"], ("q[0]", "q[1]", "q[5]"): ["q", "q[5]"],
        ("q[1]", "q[2]"): ["q[2:1]"], ("q[0]", "q[1]", "a", "q[3]", "q[4]"): ["q[1:0]", "a", "q[4:3]"],
        ("q[2]", "q[1]", "q[0]"): ["q[0:2]"], ("q[9]", "q[8]", "a", "q[7]", "q[5]", "p[4]"): ["q[8:9]", "a", "q[7]", "q[5]", "p[4]"],
        ("q[1]", "q[0]", "q[1]", "q[2]"): ["q[1]", "q"], ("q[2]", "q[1]", "q[2]", "q[1]"): ["q[2]", "q[2:1]", "q[1]"], ("", "x y"): ["l0", "x"],
        ("q[00]", "q[1]"): ["q[00]", "q[1]"], ("a[0][0]", "a[0][1]"): ["a[0]"],
    }
    for symbols, wanted in cases.items():
        tally.compare(f"{symbols}", [it.name for it in Names(named(*symbols).entries).all], wanted)
    clashes = {
        ("q", "q", "q"): ["q", "q(l1)", "q(l2)"], ("", "l0"): ["l0", "l0(l1)"], ("a b", "b a"): ["a", "b"],
        ("q[0]", "q[1]", "q[0]", "q[1]"): ["q[1:0]", "q[1:0](l2)"],
    }
    for symbols, wanted in clashes.items():
        tally.compare(f"labels of {symbols}", labels(Names(named(*symbols).entries).all), wanted)
    both = aig.Circuit("aag 1 1 0 2 0\n2\n2\n3\ni0 q\no0 q\no1 r\n")
    tally.compare("an output with a name that is taken", [it.name for it in Names(both.entries).all], ["q", "r"])


# A line of `why --json` of each kind, and the same line of `why`.
LINES = {
    '{"line":"asked","frame":10,"name":"queue.v:37","value":"1","by":10,"causes":[%s]}': "queue.v:37=1 at 10: {}",
    '{"line":"asked","frame":2,"name":"!q","value":"01","by":2,"causes":[]}': "!q=2'h1 at 2: always",
    '{"line":"latches","frame":9,"signal":{"letter":"l","position":0,"name":"full","value":"0"},"by":8,"causes":[%s]}':
        "full=0 at 9, by 8: {}",
    '{"line":"not explained","frame":7,"latches":[%s]}': "at 7, not explained: {}",
    '{"line":"reset","frame":0,"latches":[%s]}': "at 0, by reset: {}",
    '{"line":"start","frame":0,"latches":[%s]}': "at 0, by start: {}",
}
SIGNALS = ('{"letter":"i","position":1,"name":"rst","value":"x"},'
           '{"letter":"l","position":7,"name":"count","value":"10?1"}')


def lines(_, tally, __):
    """Lines of an explanation as data, and the same as text; which places they name."""
    said = "".join(f"{line % SIGNALS if '%s' in line else line}\n" for line in LINES)
    found = explained.lines(said.encode())
    tally.compare("lines: texts", [it.text for it in found],
                  [text.format("rst=x count=4'b10?1") for text in LINES.values()])
    tally.compare("lines: places", [place for it in found[0].causes for place in it.named],
                  [("i", 1), ("l", 7), ("l", 9), ("l", 10)])
    tally.compare("lines: frames", [(it.frame, it.by, len(it.kept), len(it.causes)) for it in found],
                  [(10, 10, 0, 2), (2, 2, 0, 0), (9, 8, 1, 2), (7, 7, 2, 0), (0, 0, 2, 0), (0, 0, 2, 0)])
    tally.compare("lines: none", explained.lines(b""), [])
    entries = (b'{"letter":"i","position":0,"literal":2,"name":"a \\"q\\" \\\\ \\u0007 \xc3\xa9"}\n'
               b'{"letter":"l","position":0,"literal":4,"name":null}\n'
               b'{"letter":"o","position":0,"literal":3,"name":[255,104]}\n'
               b'{"letter":"j","position":0,"literal":null,"name":"live"}\n')
    names = [it.name for it in listed(entries)]
    tally.compare("lines: names", names, ['a "q" \\ \x07 \xe9', "", "\udcffh", "live"])
    for value, wanted in (("1", "1"), ("x", "x"), ("xxxx", "x"), ("1010", "4'ha"), ("0" * 9, "9'h000"),
                          ("10?1", "4'b10?1"), ("1x", "2'b1x"), ("?x", "2'b?x"), ("10110100101", "11'h5a5")):
        tally.compare(f"lines: {value}", explained.shown(value), wanted)


def frames(_, tally, __):
    """Runs of 40, 42 and 300 frames: the first frames and the last ones are shown, and all of them on paper. And
    vectors of 64 bits."""
    counter = aig.Circuit("aag 1 0 1 0 0 1\n2 3\n2\nl0 q\n")
    for count in (1, 2, 40, 42, 300):
        witness = aig.Witness(counter, b"1\nb0\n0\n" + b"\n" * count + b".\n")
        found = story(Told(counter), witness.text)
        picture = Picture(*parts(found.lanes, count, count - 1))
        wanted = list(range(count)) if count <= 40 else [*range(8), None, *range(count - 31, count)]
        tally.compare(f"{count} frames", picture.frames, wanted)
        values_of = {frame: str(frame % 2) for frame in wanted if frame is not None}
        tally.compare(f"{count} frames: values", picture.lanes[0].values, values_of)
        on_paper(tally, f"{count} frames on paper", found.lanes, count)
    wide = aig.Circuit("aag 70 70 0 0 0 1\n" + "".join(f"{2 * at + 2}\n" for at in range(70)) + "2\n"
                       + "".join(f"i{at} d[{at}]\n" for at in range(70)))
    witness = wide.witness(["1" + "0" * 62 + "1x" + "10101"])
    tally.compare("a wide vector", compared(tally, "wide", witness), 1)
    text = wide.simulate([witness.rows[0]] * 3).svg()
    tally.check("of a trace", "70&#39;b10101x1" in text and ">2…<" not in text)


def on_paper(tally, name, lanes, count):
    """Each frame is on one sheet, none of which is wider than a paper, and the mark is on that of the last frame."""
    found = list(sheets(Scene(lanes, count - 1, "", "ends"), count))
    pictures = [Picture(it, it) for it in found]
    tally.compare(f"{name}: frames", [frame for it in pictures for frame in it.frames], list(range(count)))
    values_of = {frame: value for it in pictures for frame, value in it.lanes[0].values.items()}
    tally.compare(f"{name}: values", values_of, {frame: str(frame % 2) for frame in range(count)})
    tally.check(f"{name}: width", max(int(re.search(r' width="(\d+)"', it)[1]) for it in found) <= 680)
    tally.compare(f"{name}: the mark", [at for at, it in enumerate(found) if "ends" in it], [len(found) - 1])
    tally.compare(f"{name}: the names", [it.lanes[0].name for it in pictures], ["q"] * len(found))


def mentioned(_, tally, __):
    """Signals that the text of an assertion names come first and are bold; 24 lanes at most."""
    lines = ["aag 30 30 0 1 0 1\n" + "".join(f"{2 * at + 2}\n" for at in range(30)), "4\n2\n",
             "".join(f"i{at} top.s{at} s{at}\n" for at in range(30)), "o0 w\n"]
    circuit = aig.Circuit("".join(lines))
    told, witness = Told(circuit), circuit.witness(["1" * 30])
    found = story(told, witness.text, "assert (s7 == w || nothing);")
    tally.compare("mentioned", [(it.name, it.strong, sorted(it.keys)) for it in found.lanes],
                  [("top.s7", True, []), ("w", True, []), ("top.s0", False, [0])])
    many = " ".join(f"s{at}" for at in reversed(range(30)))
    first = explained.Valued(told.names.all[0], "1")
    shown, left = chosen(told.names, [explained.Line("", [], 0, [first], 0)], many)
    tally.compare("24 at most", (len(shown), left), (24, 6))
    tally.compare("causes first", shown[0].name, "top.s0")
    tally.check("alone", waveform(found.lanes, 1, 0).count("<style>") == 1)
