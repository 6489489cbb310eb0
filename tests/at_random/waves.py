"""Small random circuits with names of any bytes, and stimuli, some with a faulty last line. The header is that of
library/wave_names.py, byte for byte. The dump is read back by library/dump_reader.py: each entry has the names of its
symbol, and the values are those of the trace that `aig sim` writes, and of library/reference.py for bad states and
constraints."""

from at_random.cases import Wrong, each
from library import wave_names
from library.broken import circuit, stimulus
from library.dump_reader import Dump, NotADump
from library.plain_reader import Reader, spelled
from library.reference import Parts, literal, rows_of, values
from library.runs import write

# Words that follow each other with the next number in place of `#`: most make runs, some only look like it.
VECTORS = (b"a[#]", b"a[#]", b"b[#]", b"u1.a[#]", b"u1.u2.a[#]", b"u2.a[#]", b"a[1][#]", b"a[#][1]", b"a[0#]",
           b"[#]", b"a[#]]", b"a[[#]", b"a[#].b", b"a#", b"$a[#]", b"u1.$a[#]", b"a.[#]", b".a[#]", b"a[#].",
           b"u1..a[#]", b"\xe9[#]", b"a[ #]", b"a[-#]")
NUMBERS = (0, 0, 0, 1, 2, 8, 9, 98, 999, 4294967294, 10 ** 19 - 2, 2 ** 64 - 2)
BLANKS = (b" ", b" ", b" ", b"  ", b"   ", b"\t", b"")


def any_bytes(rng):
    """Some bytes, none of them LF; many are rare in names."""
    pool = b"  $\t\r\0\x7f\x80\xff!~#end[]01_..." + bytes(range(33, 127))
    return bytes(rng.choice(pool) for _ in range(rng.randrange(1, 7)))


def path(rng):
    """Pieces with dots between them, some of them empty or with a `$` at the front."""
    pieces = (b"u1", b"u2", b"a", b"b", b"$end", b"$", b"", b"a[1]", b"0")
    return b".".join(rng.choice(pieces) for _ in range(rng.randrange(1, 4))) or b"."


def names(rng):
    """Symbols, without end; None for an entry that has none. Their runs go across the ends of sections."""
    while True:
        vectors = [(rng.choice(VECTORS), rng.choice(NUMBERS)) for _ in range(rng.choice((1, 1, 2, 3)))]
        step, blank = rng.choice((1, 1, 1, 1, -1, 0)), rng.choice(BLANKS)
        front, end = (rng.choice((b"", b"", b" ")) for _ in range(2))
        for at in range(rng.randrange(1, 6)):
            words = [shape.replace(b"#", b"%d" % max(0, first + step * at)) for shape, first in vectors]
            yield front + blank.join(words) + end
        if rng.randrange(2):
            yield rng.choice((None, any_bytes(rng), path(rng), path(rng) + b" " + path(rng), b" "))


def wider(rng, literals):
    """A section with more entries, where it has any."""
    return literals * rng.choice((1, 1, 2, 5))


def renamed(rng, design):
    """The circuit with other names, and with more outputs, bad states and constraints; and its symbols."""
    parts = Reader(design).parts()
    parts = parts._replace(outputs=wider(rng, parts.outputs), bad=wider(rng, parts.bad),
                           constraints=wider(rng, parts.constraints))
    places = [(letter, place) for letter, entries in zip("ilobcjf", parts[1:8]) for place in range(len(entries))]
    symbols = {entry: name for entry, name in zip(places, names(rng)) if name is not None}
    lines = [(letter.encode(), place, name) for (letter, place), name in symbols.items()]
    rng.shuffle(lines)
    return spelled(parts._replace(names=lines), "aag"), symbols


def first_other_line(got, wanted):
    """The first line in which a header differs, as it is and as it should be."""
    pairs = zip(got.split(b"\n") + [b""], wanted.split(b"\n") + [b""])
    return next((f"{line!r}, wanted {other!r}" for line, other in pairs if line != other), "its end")


def case(program, rng):
    """Compares the dump, and returns how many frames it has, and how many names follow the next one of their run."""
    design, symbols = renamed(rng, circuit(rng))
    parts = Parts(design.decode("latin-1"))
    rows = stimulus(rng, len(parts.inputs))
    write("circuit", design)
    write("stimulus", rows + rng.choice((b"", b"", b"", b"2\n", b"0")))
    simulated = program.run("sim", "circuit", "stimulus")
    ended = program.run("wave", "circuit", "stimulus")
    if (ended.status, ended.err) != (simulated.status, simulated.err):
        raise Wrong(f"status {ended.status}, {ended.err[:200]!r}, otherwise than the trace")
    counts = [len(each) for each in (parts.inputs, parts.latches, parts.outputs, parts.bad, parts.constraints)]
    declared, header = wave_names.header(counts, symbols)
    if not ended.out.startswith(header):
        raise Wrong(f"another header: {first_other_line(ended.out, header)}")
    # What is refused has no line that ends its last frame.
    lines = simulated.out.decode().splitlines()
    closing = b"#%d\n" % len(lines) if ended.status else b""
    try:
        dump = Dump(ended.out + closing)
    except NotADump as why:
        raise Wrong(f"{why}") from None
    wanted = [(section, shape, [tuple(name) for name in wave_names.names_of(symbols.get((letter, place)),
                                                                           f"{letter}{place}".encode())])
              for (section, letter, shape), count in zip(wave_names.SECTIONS, counts) for place in range(count)]
    if [(signal.section, signal.shape, signal.names) for signal in dump.signals] != wanted:
        raise Wrong("other names")
    frames = len(lines)
    if dump.times not in ([], list(range(frames + 1))) or len(dump.frames) != frames:
        raise Wrong(f"{len(dump.frames)} frames of {frames}")
    trace = [" ".join(fields) for fields in zip(dump.of("latches"), dump.of("inputs"), dump.of("outputs"))]
    if trace != [line.rsplit(" ", 1)[0] for line in lines]:
        raise Wrong("other values than in the trace")
    known = values(parts, rows_of(rows.decode())[:frames])
    for scope, literals in (("bad", parts.bad), ("constraints", parts.constraints)):
        if dump.of(scope) != ["".join(literal(now, l) for l in literals) for now in known]:
            raise Wrong(f"other values of {scope}")
    runs = sum(before.section == after.section and wave_names.follows(after, before)
               for before, after in zip(declared, declared[1:]))
    return frames, runs


def waves(program, tally, chosen):
    found = []
    each("waves", tally, chosen, lambda rng: found.append(case(program, rng)))
    frames, runs = (sum(counts) for counts in zip(*found)) if found else (0, 0)
    return f"cases of seed {chosen.seed}, {frames} frames, {runs} names in runs: "
