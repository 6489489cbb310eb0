"""Rows of `aig check`: witnesses and their verdicts, refused ones, and which file a failure names."""

import re

from library.circuits import write_all
from library.recipes import shell
from library.runs import EXAMPLES, REPOSITORY, Ended, contents, write
from program.rows import Rows

INPUT = "aag 1 1 0 0 0 1/2/2/"
TOGGLED = "aag 1 0 1 0 0 1/2 3/2/"
CONSTRAINED = "aag 2 2 0 0 0 1 1/2/4/2/4/"
CONSTRAINED_TWICE = "aag 3 3 0 0 0 1 2/2/4/6/2/4/6/"
CONSTRAINED_LATCH = "aag 3 0 3 0 0 1 1/2 2/4 4 1/6 6 6/6/{}/"
CONJUNCTION = "aag 3 2 0 0 1 1/2/4/7/6 4 2/"
UNFOLDED = "aag 2 1 0 0 1 1/2/5/4 2 3/"

# A circuit, a witness and the verdict; / stands for LF.
VERDICTS = (
    (INPUT, "1/b0//x/./", "not bad"),
    (INPUT, "1/b0//1/./", "confirmed"),
    (INPUT, "1/b0//1/0/./", "not bad"),
    (TOGGLED, "1/b0/0///./", "confirmed"),
    (TOGGLED, "1/b0/0//./", "not bad"),
    (TOGGLED, "1/b0/1//./", "initial 0"),
    (TOGGLED, "1/b0/x//./", "initial 0"),
    (CONSTRAINED, "1/b0//11/1x/./", "constraint 1 0"),
    (CONSTRAINED, "1/b0//11/11/./", "confirmed"),
    (CONSTRAINED, "1/b0//10/11/./", "constraint 0 0"),
    (CONSTRAINED, "1/b0//01/00/./", "constraint 1 0"),
    (CONSTRAINED, "1/b0//01/10/./", "constraint 1 0"),
    ("aag 4 2 2 0 0 1 2/2/4/6 6/8 8/2/2/4/", "1/b0/00/11/./", "confirmed"),
    ("aag 4 2 2 0 0 1 2/2/4/6 6/8 8/2/2/4/", "1/b0/01/11/./", "initial 1"),
    ("aag 4 2 2 0 0 1 2/2/4/6 6/8 8/2/2/4/", "1/b0/00/11/1x/./", "constraint 1 1"),
    ("aag 1 0 1 0 0 1/2 3 2/2/", "1/b0/1//./", "confirmed"),
    (CONSTRAINED_TWICE, "1/b0//111/110/100/./", "constraint 1 1"),
    (CONSTRAINED_TWICE, "1/b0//111/100/000/./", "constraint 1 0"),
    ("aag 3 0 3 0 0 1/2 2/4 4 1/6 6 1/2/", "1/b0/000//./", "initial 1"),
    ("aag 3 0 3 0 0 1/2 2/4 4 1/6 6 6/2/", "1/b0/x10//./", "initial 0"),
    (CONSTRAINED_LATCH.format(2), "1/b0/01x//./", "constraint 0 0"),
    (CONSTRAINED_LATCH.format(3), "1/b0/01x//./", "not bad"),
    (CONSTRAINED_LATCH.format(3), "1/b0/011//./", "confirmed"),
    (CONJUNCTION, "1/b0//0x/./", "confirmed"),
    (CONJUNCTION, "1/b0//00/./", "confirmed"),
    (CONJUNCTION, "1/b0//01/./", "confirmed"),
    (CONJUNCTION, "1/b0//1x/./", "not bad"),
    (UNFOLDED, "1/b0//x/./", "not bad"),
    (UNFOLDED, "1/b0//0/./", "confirmed"),
    (UNFOLDED, "1/b0//1/./", "confirmed"),
)

KEPT_LATCH = "aag 1 0 1 0 0 0 1/2 2 2/2/"
TWO_LATCHES = "aag 4 2 2 0 0 1 2/2/4/6 6/8 8/2/2/4/"

# A circuit, the frames that are asked for, a witness, and whether its run keeps the constraints.
ALIVE = (
    (CONSTRAINED, "", "1/b0//11/01/./", "alive"),
    (CONSTRAINED, "2", "1/b0//11/01/./", "alive"),
    (CONSTRAINED, "1", "1/b0//01/00/./", "alive"),
    (CONSTRAINED, "1", "1/b0//x1/xx/./", "alive"),
    (CONSTRAINED, "2", "1/b0//01/00/./", "constraint 1 0"),
    (CONSTRAINED, "", "1/b0//01/00/./", "constraint 1 0"),
    (CONSTRAINED, "2", "1/b0//01/0x/./", "constraint 1 0"),
    (CONSTRAINED, "", "1/b0//1x/./", "constraint 0 0"),
    (CONSTRAINED, "3", "1/b0//01/01/./", "frames 2"),
    (CONSTRAINED, "3", "1/b0//01/0x/./", "constraint 1 0"),
    (CONSTRAINED, "4294967295", "1/b0//01/./", "frames 1"),
    (CONSTRAINED, "0", "1/b0//00/./", "alive"),
    (CONSTRAINED, "", "1/b7//x1/./", "alive"),
    (CONSTRAINED, "", "1/b99999999999999999999//x1/./", "alive"),
    (CONSTRAINED_TWICE, "", "1/b0//011/001/./", "constraint 1 0"),
    (CONSTRAINED_TWICE, "", "1/b0//011/010/./", "constraint 1 1"),
    (CONSTRAINED_TWICE, "2", "1/b0//011/011/000/./", "alive"),
    (TWO_LATCHES, "", "1/b0/01/11/./", "initial 1"),
    (TWO_LATCHES, "", "1/b0/0x/11/./", "initial 1"),
    (TWO_LATCHES, "5", "1/b0/11/00/./", "initial 0"),
    (TWO_LATCHES, "", "1/b0/00/11/./", "alive"),
    (CONSTRAINED_LATCH.format(3), "", "1/b0/01x//./", "alive"),
    (CONSTRAINED_LATCH.format(2), "", "1/b0/01x//./", "constraint 0 0"),
    (KEPT_LATCH, "", "1/b0/1//./", "alive"),
    (KEPT_LATCH, "", "1/b0/0//./", "constraint 0 0"),
    (KEPT_LATCH, "", "1/b0/x//./", "constraint 0 0"),
    (TOGGLED, "", "1/b0/0//./", "alive"),
    (TOGGLED, "2", "1/b0/0//./", "frames 1"),
    ("aag 1 1 0 0 0 0 1/2/2/", "1", "1/b0//1/./", "alive"),
    ("aag 1 1 0 0 0 0 1/2/0/", "", "1/b0//1/./", "constraint 0 0"),
)

# Witnesses of the toggled latch that are refused.
REFUSALS = (
    ("1/b1/0//./", "property"),
    ("1/b99999999999999999999/0//./", "property"),
    ("1/b1/1///./", "property"),
    ("1/b0/0/./", "text"),
    ("1/b00/0//./", "text"),
    ("1/b/0//./", "text"),
    ("1/b9/0//.//", "text"),
    ("1/b0/0///./c/", "text"),
    ("2/b0/0///./", "text"),
    ("1/b0b0/0///./", "text"),
    ("1/j0/0///./", "text"),
    ("1/b1/1///", "text"),
    *(("1/b0/0///./"[:cut], "text") for cut in range(11)),
)

# Files that are missing or are directories, by the part that the message names.
FAILURES = (
    ("circuit", ("nowhere witness", "nowhere nowhere", "nowhere .", ". witness", ". .")),
    ("witness", ("bad_input nowhere", "bad_input .", "cycle nowhere", ". nowhere", "cycle .")),
)

# Two inputs, and three properties: each input, and the first again. Two of them have names.
NAMED = "aag 2 2 0 0 0 3\n2\n4\n2\n4\n2\nb0 left\nb1 right\n"
NAMED_TWICE = NAMED + "b2 left\n"

# A run in which the first input is 1 and the second one 0, as a witness of a property.
HELD = "1\nb{}\n\n10\n.\n"

# The property that the witness names, the one that is asked for, and the position of that in a refusal.
FOR_THE_PROPERTY = ((0, "0"), (0, "b0"), (0, "left"), (2, "2"), (2, "b2"), (1, "1"), (1, "b1"), (1, "right"))
FOR_ANOTHER = ((0, "1", 1), (0, "b1", 1), (0, "right", 1), (0, "2", 2), (2, "0", 0), (2, "left", 0), (1, "0", 0),
               (1, "b2", 2), (0, "3", 3), (0, "b7", 7), (0, "4294967295", 4294967295))

# What a model checker writes: the witness stands between other lines.
FOUND = "c a model checker\n1\nb0b1\n00\n1\n1\n1\n1\n.\nc done\n1\nb1\n"


def check(program, tally, _):
    rows = Rows("check", program, tally)
    write_all()
    for circuit, witness, verdict in VERDICTS:
        texts = {"circuit": circuit.replace("/", "\n"), "witness": witness.replace("/", "\n")}
        status = 0 if verdict == "confirmed" else 1
        rows.gives(f"{circuit} {witness}", "check circuit witness", verdict + "\n", status, **texts)
    for witness, text in REFUSALS:
        texts = {"circuit": TOGGLED.replace("/", "\n"), "witness": witness.replace("/", "\n")}
        rows.refuses(f"{TOGGLED} {witness}", "check circuit witness", f"witness: {text}", **texts)
    alive(rows)
    examples(rows)
    limits(rows)
    properties(rows)
    many_properties(rows)
    recipes(rows)
    for part, runs in FAILURES:
        for files in runs:
            rows.fails(f"the {part}'s file is told of {files}", f"check {files}", part)


def alive(rows):
    """`--alive`: whether the run of a witness keeps all constraints, whatever the properties are."""
    for circuit, frames, witness, verdict in ALIVE:
        texts = {"circuit": circuit.replace("/", "\n"), "witness": witness.replace("/", "\n")}
        words = f"check --alive --frames {frames} circuit witness" if frames else "check --alive circuit witness"
        rows.gives(f"{circuit} {frames} {witness}", words, verdict + "\n", 0 if verdict == "alive" else 1, **texts)
    for witness, text in REFUSALS:
        if text == "text":
            texts = {"circuit": TOGGLED.replace("/", "\n"), "witness": witness.replace("/", "\n")}
            rows.refuses(f"--alive {TOGGLED} {witness}", "check --alive circuit witness", "witness: text", **texts)
    words = "check --alive bad_input witness"
    rows.gives("the greatest run that may be alive", words, "alive\n", witness=frames_of(0, 65536) + ".\n")
    rows.refuses("a run that is too long to be alive", words, "witness: limit", witness=frames_of(1, 65537) + ".\n")
    rows.refuses("a circuit wins over a run", "check --alive cycle witness", "circuit: cycle 2")
    rows.fails("no file of a run", "check --alive bad_input nowhere", "witness")
    for words in ("--alive --trace", "--alive --properties", "--alive --trace --properties", "--alive --property 0",
                  "--properties --frames 1", "--frames 1", "--frames 1 --trace", "--alive --frames -1",
                  "--alive --frames 01", "--alive --frames 4294967296", "--alive --frames"):
        got = rows.run("check", *words.split(" "), "bad_input", "witness")
        rows.tally.check(f"check: {words}", got.status == 2 and not got.out, got)


def examples(rows):
    files = [f"{EXAMPLES}/wraps.aag", f"{EXAMPLES}/wraps.wit"]
    rows.gives("an example", ["check", *files], "confirmed\n")
    short = b"".join(contents(files[1]).splitlines(keepends=True)[:-2]) + b".\n"
    rows.gives("an example that is a frame short", ["check", files[0], "witness"], "not bad\n", 1, witness=short)
    rows.gives("a binary circuit", "check source witness", "confirmed\n", source="aig 1 1 0 0 0 1\n2\n",
               witness="1\nb0\n\n1\n.\n")
    rows.refuses("a circuit wins over a witness", "check cycle bad_input", "circuit: cycle 2")


def frames_of(of, count):
    """The beginning of a witness of a property, with so many frames."""
    return f"1\nb{of}\n\n" + "1\n" * count


def limits(rows):
    words = "check bad_input witness"
    rows.gives("as many frames as a witness may have", words, "confirmed\n", witness=frames_of(0, 65536) + ".\n")
    rows.refuses("more frames than a witness may have", words, "witness: limit", witness=frames_of(0, 65537) + ".\n")
    rows.refuses("a property wins over the frames", words, "witness: property", witness=frames_of(1, 65537) + ".\n")
    rows.refuses("a text wins over a property", words, "witness: text", witness=frames_of(1, 65537))


def properties(rows):
    """`--property P`: of a witness of P the same as without it, and any other witness is refused."""
    files = {"named": NAMED}
    for of, asked in FOR_THE_PROPERTY:
        wanted = ("not bad\n", 1) if of == 1 else ("confirmed\n", 0)
        for words, run in (("", ""), ("--trace ", " 10  \n")):
            rows.gives(f"a witness of b{of} for {asked} {words}", f"check {words}--property {asked} named witness",
                       run + wanted[0], wanted[1], witness=HELD.format(of), **files)
    for of, asked, position in FOR_ANOTHER:
        for words in ("", "--trace "):
            rows.refuses(f"a witness of b{of} for {asked} {words}", f"check {words}--property {asked} named witness",
                         f"witness: of b{of}, not b{position}", witness=HELD.format(of), **files)
    rows.refuses("a name that no property has", "check --property b named nowhere", "property: name", **files)
    rows.refuses("a number that is none", "check --property 4294967296 named witness", "property: name", **files)
    rows.refuses("a name that two have", "check --property left twice witness", "property: twice 0 2",
                 twice=NAMED_TWICE)
    rows.gives("one of two with a name, by its number", "check --property 2 twice witness", "confirmed\n",
               witness=HELD.format(2))
    for text, witness in (("text", "1\nb0b1\n\n10\n.\n"), ("text", "1\nb1b0\n\n10\n.\n"), ("text", HELD.format("00")),
                          ("property", HELD.format(3)), ("property", HELD.format(4294967297))):
        for asked in ("0", "1", "3"):
            rows.refuses(f"no witness of the circuit, {witness[2:6]!r}, for {asked}",
                         f"check --property {asked} named witness", f"witness: {text}", witness=witness)
    rows.refuses("a circuit wins over the property", "check --property 1 cycle witness", "circuit: cycle 2",
                 witness=HELD.format(0))
    rows.refuses("the frames win over the property", "check --property 1 bad_input witness", "witness: limit",
                 witness=frames_of(0, 65537) + ".\n")
    rows.refuses("the property wins over the run", "check --property 1 named witness", "witness: of b0, not b1",
                 witness="1\nb0\n\n0x\n.\n")
    explained(rows)


def explained(rows):
    """The refusal names both properties, and the explanation what each is called and how to check the witness."""
    ended = rows.explained.run("check", "--property", "right", "named", write("witness", HELD.format(0)))
    rows.tally.compare("check: a witness of another property is explained", ended, Ended(1, b"", (
        b"aig: witness: of b0, not b1\n"
        b"  file: witness\n"
        b"  line 2 names the bad state property b0 left\n"
        b"  --property names b1 right\n"
        b"  aig check --property b0 checks this witness\n")))


def many_properties(rows):
    """Property 12 of 13, each an input of its own: whatever the witness's property is, no other is confirmed."""
    circuit = "aag 13 13 0 0 0 13\n" + 2 * "".join(f"{2 + 2 * at}\n" for at in range(13))
    for of in range(13):
        witness = f"1\nb{of}\n\n" + 13 * "1" + "\n.\n"
        for asked in ("12", "b12"):
            name, words = f"a witness of b{of} of 13 for {asked}", f"check --property {asked} many witness"
            if of == 12:
                rows.gives(name, words, "confirmed\n", witness=witness, many=circuit)
            else:
                rows.refuses(name, words, f"witness: of b{of}, not b12", witness=witness, many=circuit)
        rows.gives(f"a witness of b{of} of 13 for any", "check many witness", "confirmed\n", witness=witness)


def recipes(rows):
    """The lines of docs/FORMATS.md that bring files of model checkers into form, as they stand there."""
    document = contents(REPOSITORY + "/docs/FORMATS.md").decode()
    one_witness, outputs_as_bad = (re.search(rf"```sh\n((?:(?!```)[^\0])*> {file})\n```", document)[1]
                                   for file in ("w.wit", "bad.aag"))
    write("w.txt", FOUND)
    shell(rows.program, one_witness)
    words = ["check", f"{EXAMPLES}/wraps.aag", "w.wit"]
    rows.gives("a witness of a model checker, brought into form", words, "confirmed\n")
    write("old.aig", contents(f"{EXAMPLES}/counter.aig"))
    shell(rows.program, outputs_as_bad)
    rows.gives("outputs that are taken for bad states", "check bad.aag witness", "confirmed\n",
               witness="1\nb1\n0000\n10\n10\n00\n.\n")
