"""Rows of `aig wave`: stimuli and their dumps, headers, names and codes, refused lines, and which file a failure
names."""

import itertools

from library.circuits import write_all
from library.dump_reader import Dump
from library.runs import DESIGNS, EXAMPLES, EXPECTED, REPOSITORY, contents, write
from program.rows import Rows

FRONT = "$version aig $end\n$timescale 1 ns $end\n"
BEHIND = "$enddefinitions $end\n"

# The example of docs/FORMATS.md: an input that is unknown and then 1, and two latches with two names each.
DESCRIBED = "aag 3 1 2 0 0\n2\n4 2\n6 4\ni0 en\nl0 u1.q[0] x[0]\nl1 u1.q[1] x[1]\n"
DESCRIBED_DUMP = """$version aig $end
$timescale 1 ns $end
$scope module inputs $end
$var wire 1 ! en $end
$upscope $end
$scope module latches $end
$scope module u1 $end
$var reg 1 # q[1] $end
$var reg 1 " q[0] $end
$upscope $end
$var reg 1 # x[1] $end
$var reg 1 " x[0] $end
$upscope $end
$enddefinitions $end
#0
$dumpvars
x!
0"
0#
$end
#1
1!
x"
#2
"""


def scope(name, shape, *signals):
    """A scope of these signals, each a code and a name."""
    lines = "".join(f"$var {shape} 1 {code} {said} $end\n" for code, said in signals)
    return f"$scope module {name} $end\n{lines}$upscope $end\n"


ONE_GATE = FRONT + scope("inputs", "wire", ("!", "i0"), ('"', "i1")) + scope("outputs", "wire", ("#", "o0")) + BEHIND
TOGGLE = FRONT + scope("latches", "reg", ("!", "l0")) + scope("outputs", "wire", ('"', "o0"), ("#", "o1")) + BEHIND
SECTIONS = (FRONT + scope("inputs", "wire", ("!", "in")) + scope("latches", "reg", ('"', "state"))
            + scope("outputs", "wire", ("#", "o0")) + scope("bad", "wire", ("$", "b0"))
            + scope("constraints", "wire", ("%", "c0")) + BEHIND)

# What is run, the circuit, the stimulus and the dump.
DUMPS = (
    ("no frames", "one_gate", "", ONE_GATE),
    ("one frame", "one_gate", "1x\n", ONE_GATE + '#0\n$dumpvars\n1!\nx"\nx#\n$end\n#1\n'),
    ("changes alone", "one_gate", "11\n11\n01\n0x\n",
     ONE_GATE + '#0\n$dumpvars\n1!\n1"\n1#\n$end\n#1\n#2\n0!\n0#\n#3\nx"\n#4\n'),
    ("no inputs", "toggle", "\n\n\n",
     TOGGLE + '#0\n$dumpvars\n0!\n0"\n1#\n$end\n#1\n1!\n1"\n0#\n#2\n0!\n0"\n1#\n#3\n'),
    ("an uninitialised latch", "uninitialised_toggle", "\n\n", TOGGLE + '#0\n$dumpvars\nx!\nx"\nx#\n$end\n#1\n#2\n'),
    ("no signals", "empty", "\n\n", FRONT + BEHIND + "#0\n$dumpvars\n$end\n#1\n#2\n"),
    ("no signals and no frames", "empty", "", FRONT + BEHIND),
    ("all sections; justice and fairness are not shown", "sections", "1\n0\n",
     SECTIONS + '#0\n$dumpvars\n1!\nx"\nx#\nx$\nx%\n$end\n#1\n0!\n0#\n0$\n#2\n'),
    ("more frames than a bench may have", "gap", "1\n" * 65537,
     FRONT + scope("inputs", "wire", ("!", "i0")) + scope("outputs", "wire", ('"', "o0")) + BEHIND
     + '#0\n$dumpvars\n1!\n1"\n$end\n' + "".join(f"#{time}\n" for time in range(1, 65538))),
)

# Symbols of a circuit's outputs, and the lines of their scope in short: a code and a name, `+` and a scope that is
# opened, `-` for one that is closed. The codes from the first are ! " # $ % & ' ( ) *.
HEADERS = (
    ("bytes that are no visible ASCII", (b"\tx\r", b"\x00\x1f\x7f\x80\xff", "\u00e9t\u00e9".encode(), b"!\"#~", b"#0"),
     ("! _x_", '" _____', "# __t__", '$ !"#~', "% #0")),
    ("colons", (b"queue.v:37", b":", b"a:b:c", b"$assert$q.v:3$4", b"a[3:0]", b"a[1:0]:", b"::.:x"),
     ("+ queue", "! v_37", "-", '" _', "# a_b_c", "+ _assert$q", "$ v_3$4", "-", "% a[3_0]", "& a[1_0]_", "+ __",
      "' _x",
      "-")),
    ("a $ at the front of a piece", (b"$end", b"$$", b"a$", b"$u.$q", b"$u", b"$scope $end"),
     ("! _end", '" _$', "# a$", "+ _u", "$ _q", "-", "% _u", "& _scope", "& _end")),
    ("words", (b"a b", b" c  d ", b"e", b" ", b"  f   g  h", b"", b"i"),
     ("! a", '" c', "# e", "$ o3", "% f", "& o5", "' i", "! b", '" d', "% g", "% h")),
    ("scopes", (b"u1.q", b"u1.r", b"u2.q", b"u2.v.w.q", b"u2.v.x.q", b"u2.v.q", b"q", b"u1.s"),
     ("+ u1", "! q", '" r', "-", "+ u2", "# q", "+ v", "+ w", "$ q", "-", "+ x", "% q", "-", "& q", "-", "-", "' q",
      "+ u1", "( s", "-")),
    ("scopes stay open from the first words to the second", (b"u.a u.b", b"u.v.c u.d"),
     ("+ u", "! a", "+ v", '" c', "-", "! b", '" d', "-")),
    ("names with an empty piece", (b".a", b"a.", b"a..b", b".", b"...", b"$.a", b"$..a", b".$a", b"u.a"),
     ("! .a", '" a.', "# a..b", "$ .", "% ...", "+ _", "& a", "-", "' _..a", "( ._a", "+ u", ") a", "-")),
    ("a run", (b"a[0]", b"a[1]", b"a[2]", b"a[3]"), ("$ a[3]", "# a[2]", '" a[1]', "! a[0]")),
    ("a run between other names", (b"a", b"a[7]", b"a[8]", b"a[9]", b"a[10]", b"b"),
     ("! a", "% a[10]", "$ a[9]", "# a[8]", '" a[7]', "& b")),
    ("a run downwards", (b"a[2]", b"a[1]", b"a[0]"), ("! a[2]", '" a[1]', "# a[0]")),
    ("runs that break", (b"a[0]", b"a[1]", b"a[3]", b"a[4]", b"a[4]", b"b[5]", b"b[6]"),
     ('" a[1]', "! a[0]", "$ a[4]", "# a[3]", "% a[4]", "' b[6]", "& b[5]")),
    ("a run that an entry without a symbol breaks", (b"a[0]", b"a[1]", b"", b"a[2]", b"a[3]"),
     ('" a[1]', "! a[0]", "# o2", "% a[3]", "$ a[2]")),
    ("numbers of many digits",
     (*(b"a[%d]" % (10 ** 19 + n) for n in (-2, -1, 0, 1)), b"b[4294967295]", b"b[4294967296]"),
     ("# a[10000000000000000000]", '" a[9999999999999999999]', "! a[9999999999999999998]", "$ a[10000000000000000001]",
      "& b[4294967296]", "% b[4294967295]")),
    ("numbers with zeros in front", (b"a[00]", b"a[01]", b"a[02]"), ("! a[00]", '" a[01]', "# a[02]")),
    ("a zero in front of the last", (b"a[8]", b"a[9]", b"a[010]"), ('" a[9]', "! a[8]", "# a[010]")),
    ("two pairs of brackets", (b"a[1][0]", b"a[1][1]", b"a[2][2]", b"a[0][0]", b"a[1][0]"),
     ('" a[1][1]', "! a[1][0]", "# a[2][2]", "$ a[0][0]", "% a[1][0]")),
    ("what only looks like a run", (b"a[0]x", b"a[1]x", b"a[-1]", b"a[0]]", b"a[1]]", b"a0", b"a1", b"a[]"),
     ("! a[0]x", '" a[1]x', "# a[-1]", "$ a[0]]", "% a[1]]", "& a0", "' a1", "( a[]")),
    ("runs in scopes", (b"u1.a[0]", b"u1.a[1]", b"u2.a[2]", b"u2.a[3]", b"a[4]", b"a[5]"),
     ("+ u1", '" a[1]', "! a[0]", "-", "+ u2", "$ a[3]", "# a[2]", "-", "& a[5]", "% a[4]")),
    ("a dot in the brackets", (b"a[0.0]", b"a[0.1]"), ("+ a[0", "! 0]", '" 1]', "-")),
    ("runs of second words", (b"a[0] x[4]", b"a[1] x[5]", b"a[2]", b"c x[6]", b"d x[8]"),
     ("# a[2]", '" a[1]', "! a[0]", "$ c", "% d", "$ x[6]", '" x[5]', "! x[4]", "% x[8]")),
    ("no run from the first words to the second", (b"a[0] a[2]", b"a[1] a[3]"),
     ('" a[1]', "! a[0]", '" a[3]', "! a[2]")),
    ("two entries with one name", (b"data[3]", b"data[3]"), ("! data[3]", '" data[3]')),
)

# What is run, the third line of the stimulus and the refusal; the dump of the first two was written.
REFUSALS = (
    ("a wrong character", "1z\n", "character in line 3"),
    ("a short line", "1\n", "length of line 3"),
    ("an unfinished line", "1z1111", "unfinished"),
)
BEFORE = ONE_GATE + '#0\n$dumpvars\n1!\n1"\n1#\n$end\n#1\n0"\n0#\n'

# Files that are missing or are directories, by the part that the message names.
FAILURES = (
    ("circuit", ("nowhere rows", "nowhere nowhere", "nowhere .", ". rows", ". .")),
    ("stimulus", ("one_gate nowhere", "cycle nowhere", ". nowhere")),
)


def codes():
    """All identifier codes in order: the codes of one digit, of two, of three, the last digit the slowest."""
    digits = [chr(byte) for byte in range(33, 127)]
    yield from digits
    yield from (low + high for high in digits[1:] for low in digits)
    yield from (low + middle + high for high in digits[1:] for middle in digits for low in digits)


def of_many(number):
    """A circuit of so many outputs, all of them its input, and the dump of two frames."""
    all_codes = list(itertools.islice(codes(), number + 1))
    circuit = f"aag 1 1 0 {number} 0\n2\n" + "2\n" * number
    outputs = scope("outputs", "wire", *((code, f"o{place}") for place, code in enumerate(all_codes[1:])))
    dump = FRONT + scope("inputs", "wire", ("!", "i0")) + outputs + BEHIND
    dump += "#0\n$dumpvars\n" + "".join(f"1{code}\n" for code in all_codes) + "$end\n"
    return circuit, dump + "#1\n" + "".join(f"0{code}\n" for code in all_codes) + "#2\n"


def named(symbols, short):
    """A circuit with an output for each symbol, without one where it is empty, and its dump without frames."""
    circuit = b"aag 0 0 0 %d 0\n" % len(symbols) + b"0\n" * len(symbols)
    circuit += b"".join(b"o%d %s\n" % (place, symbol) for place, symbol in enumerate(symbols) if symbol)
    lines = ""
    for line in short:
        word, *name = line.split(" ")
        # The codes + and - belong to signals 10 and 12; no circuit here has so many.
        lines += {"+": f"$scope module {' '.join(name)} $end\n",
                  "-": "$upscope $end\n"}.get(word, f"$var wire 1 {word} {' '.join(name)} $end\n")
    return circuit, FRONT + f"$scope module outputs $end\n{lines}$upscope $end\n" + BEHIND


def headers(rows):
    """Headers by the rules for names, and those of two designs to the byte."""
    for name, symbols, short in HEADERS:
        circuit, dump = named(symbols, short)
        rows.gives(f"names: {name}", "wave named rows", dump, named=circuit, rows="")
    rows.gives("runs do not go from one section to the next", "wave named rows",
               FRONT + scope("inputs", "wire", ('"', "a[1]"), ("!", "a[0]"))
               + scope("latches", "reg", ("$", "a[3]"), ("#", "a[2]")) + BEHIND,
               named="aag 4 2 2 0 0\n2\n4\n6 2\n8 4\ni0 a[0]\ni1 a[1]\nl0 a[2]\nl1 a[3]\n", rows="")
    for circuit, design in ((f"{EXAMPLES}/counter.aag", "counter"), (f"{DESIGNS}/hier.aag", "hier")):
        rows.copies(f"the header of {design}", ["wave", circuit, "rows"], f"{EXPECTED}/{design}.header")


def shows(rows, design):
    """The dump of an example, read back, has the expected trace."""
    ended = rows.program.run("wave", *(f"{EXAMPLES}/{design}.{ending}" for ending in ("aag", "stim")))
    dump = Dump(ended.out)
    fields = zip(dump.of("latches"), dump.of("inputs"), dump.of("outputs"))
    wanted = [line.rsplit(" ", 1)[0] for line in contents(f"{EXPECTED}/{design}.trace").decode().splitlines()]
    rows.tally.compare(f"wave: {design}, read back", [" ".join(field) for field in fields], wanted)
    rows.tally.compare(f"wave: {design}, its end", (dump.times[-1], ended.status, ended.err), (len(wanted), 0, b""))


def wave(program, tally, _):
    rows = Rows("wave", program, tally)
    write_all()
    rows.gives("the example of FORMATS.md", "wave described rows", DESCRIBED_DUMP, described=DESCRIBED, rows="x\n1\n")
    rows.gives("a latch of two names, and an input that changes", "wave two_names rows",
               FRONT + scope("inputs", "wire", ("!", "en"))
               + scope("latches", "reg", ('"', "_count"), ('"',
                                                           "0")) + BEHIND + '#0\n$dumpvars\nx!\n0"\n$end\n#1\n1!\n#2\n',
               two_names="aag 2 1 1 0 0\n2\n4 4\ni0 en\nl0 $count 0\n", rows="x\n1\n")
    document = contents(REPOSITORY + "/docs/FORMATS.md").decode()
    indented = "".join(f"    {line}\n" for line in DESCRIBED_DUMP.splitlines())
    tally.check("wave: the dump in FORMATS.md", f"\n\n{indented}\n" in document, "another dump")
    for name, circuit, stimulus, dump in DUMPS:
        rows.gives(name, f"wave {circuit} rows", dump, rows=stimulus)
    for number in (93, 94, 8835, 8836, 9000):
        circuit, dump = of_many(number)
        rows.gives(f"{number + 1} signals", "wave wide_circuit rows", dump, wide_circuit=circuit, rows="1\n0\n")
    headers(rows)
    for name, line, text in REFUSALS:
        rows.refuses(name, "wave one_gate rows", f"stimulus: {text}", BEFORE, rows="11\n10\n" + line)
    rows.refuses("a first line that is refused", "wave one_gate rows", "stimulus: length of line 1", ONE_GATE,
                 rows="1\n")
    rows.refuses("a refused circuit", "wave cycle rows", "circuit: cycle 2", rows="11\n")
    rows.refuses("a refused circuit wins over a stimulus that cannot be read", "wave cycle .", "circuit: cycle 2")
    for design in ("two_gates", "counter", "fifo"):
        shows(rows, design)
    write("rows", "11\n")
    for part, runs in FAILURES:
        for files in runs:
            rows.fails(f"the {part}'s file is told of {files}", f"wave {files}", part)
