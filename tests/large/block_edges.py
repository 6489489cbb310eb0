"""Circuit files in which a token, whole or broken, is across the edge of a block. The program reads 32,768 bytes at
once, and each token is put at every place where it has one of the bytes 32,767 to 32,769. The same files come through a
pipe that gives the bytes of the token one at a time, so that there is an edge at each of them; so do headers. Lines
that are buffered whole are read in one loop, and the one at the edge token by token: so the two meet at every kind.

The plain reader, which knows no blocks, says what is to come out: the circuit's normal text and its binary file, each
of which is read again; or the message of the first fault, with its place.

Last, files come from a terminal, which reports the end once: a program that has seen it is not to read on."""

import concurrent.futures
import fcntl
import functools
import itertools
import os
import pty
import subprocess

from library import supervised
from library.plain_reader import Fault, Reader, delta, in_order, spelled, test_parts
from library.runs import Ended, leave_out, refused, write

BLOCK = 32768
EDGES = (BLOCK - 1, BLOCK + 1)
SECONDS = 20

# What stands in a file in place of a token of each kind: other ones that are right, and broken ones.
NUMBERS = (b"", b"x", b"01", b"8388607", b"8388608", b"9999999", b"10000000")
OTHERS = {
    "number": NUMBERS,
    "count": (*NUMBERS, b"4194303", b"4194304", b"99999999"),
    "size": (*NUMBERS, b"4194303", b"4194304"),
    "delta": (b"\0", b"\x7f", b"\x80\x01", b"\x82\0", b"\x80\x80\0", b"\xff\xff\x7f", b"\xff\xff\xff\x03",
              b"\xff\xff\xff\xff\x0f", b"\x80" * 9 + b"\0"),
    "space": (b"", b"\n", b"  ", b"\t"),
    "end": (b"", b" ", b" \n", b"\r\n", b"\n\n"),
    "letter": (b"", b"x", b"I", b"0", b"\n", b" ", b"\xff", b"c"),
    "position": (*NUMBERS, b"1", b"0", b"9" * 40),
    "name": (b"", b"n", b"\xff\0 c\r", b"c\nc"),
    "comment": (b"", b"c", b"cx", b"c \n", b"c\r\n", b"c0\n", b"c0 n\n"),
    "remark": (b"", b"\n", b"\xff\0\nc\n\n"),
    "word": (b"", b"aag\t", b"Aag ", b"abg ", b"a", b"ai", b"aig", b"aig  ", b"aag2 ", b"aaag"),
}


def line(kind, *words):
    """The tokens of a line: words of a kind with spaces between them."""
    tokens = []
    for word in words:
        tokens += [(kind, str(word).encode()), ("space", b" ")]
    return [*tokens[:-1], ("end", b"\n")]


def header(word, *counts):
    return [("word", word + b" "), *line("count", *counts)]


def join(tokens):
    return b"".join(token for _, token in tokens)


def names(*chosen):
    tokens = []
    for letter, position, name in chosen:
        tokens += [("letter", letter), ("position", b"%d" % position), ("space", b" "), ("name", name), ("end", b"\n")]
    return [*tokens, ("comment", b"c\n"), ("remark", b"made\n")]


# A base gives so many bytes of a file, before the tokens that are tried, or None where it cannot. It has lines of one
# length, of which as many as are wanted are longer by a byte.

def behind_outputs(word, most, inputs, counts):
    """Inputs, a latch and outputs; one output more is to follow, and then the other sections of these counts."""
    lines = 6800 if word == b"aag" else 7240
    first = join(header(word, most, inputs, 1, lines + 1, *counts))
    latch = 2 * (inputs + 1)
    if word == b"aag":
        first += b"".join(b"%d\n" % (2 * at) for at in range(1, inputs + 1)) + b"%d " % latch
    first += b"3 %d\n" % latch

    def base(length):
        longer = length - len(first) - 4 * lines
        return first + b"1000\n" * longer + b"999\n" * (lines - longer) if 0 <= longer <= lines else None

    return base


def sections(output, bad, constraint, live, fair):
    return [*line("number", output), *line("number", bad), *line("number", constraint), *line("size", 2),
            *line("number", live), *line("number", fair), *line("number", live)]


def gates(word, *numbers):
    tokens = []
    for left, first, second in numbers:
        if word == b"aag":
            tokens += line("number", left, first, second)
        else:
            tokens += [("delta", delta(left - first)), ("delta", delta(first - second))]
    return tokens


def behind_latches(word):
    """Latches, after others."""
    lines = 4400 if word == b"aag" else 13080
    first = join(header(word, lines + 8, 6, lines + 2, 0, 0)) + (b"2\n4\n6\n8\n10\n12\n" if word == b"aag" else b"")
    lefts = [b"%d " % (2 * at) if word == b"aag" else b"" for at in range(7, lines + 9)]
    tried = []
    for left, words in zip(lefts[-2:], ((3, 1), (12,))):
        tried += line("number", *([left[:-1].decode()] if left else []), *words)

    def base(length):
        longer = length - len(first) - sum(map(len, lefts[:-2])) - 2 * lines
        if not 0 <= longer <= lines:
            return None
        return first + b"".join(left + (b"10\n" if at < longer else b"0\n") for at, left in enumerate(lefts[:-2]))

    return base, [*tried, *names((b"l", 0, b"n"))]


def behind_inputs():
    """Files with an input and a name after other inputs, in text; zeros at the end of the header say nothing, and one
    variable, of one digit or of two, is no input."""
    found = {}
    for lines, zeros, other in itertools.product(range(6370, 6396), range(5), (4, 40)):
        first = join(header(b"aag", lines + 2, lines + 1, 0, 0, 0, *[0] * zeros))
        first += b"".join(b"%d\n" % (2 * at) for at in range(1, lines + 2) if at != other)
        found.setdefault(len(first), (first, [*line("number", 2 * lines + 4), *names((b"i", 0, b"n"))]))
    for length, (first, tried) in found.items():
        base = {length: first}.get
        yield from with_others(base, tried, [0, 1])


def behind_a_name(word, length):
    """Names and the comment, after a long name."""
    first = header(word, 3, 3, 0, 0, 0)
    start = join(first) + (b"2\n4\n6\n" if word == b"aag" else b"") + b"i0 "
    return start + b"n" * (length - len(start))


def places(token):
    """Where a token begins that has one of the bytes at the edge. Of long tokens the first and the last."""
    found = range(EDGES[0] - max(len(token), 1) + 1, EDGES[1] + 1)
    return found if len(found) < 14 else [*found[:3], *found[-3:]]


def with_others(base, tried, chosen=()):
    """A file for each token that is tried, and for each beginning of these; of those that are chosen, one for each
    other token in its place too."""
    for at, (kind, token) in enumerate(tried):
        before, behind = join(tried[:at]), join(tried[at + 1:])
        for other in (token, *OTHERS[kind]) if at in chosen else (token,):
            for place in places(other):
                padding = base(place - len(before))
                if padding is not None:
                    data = padding + before + other + behind
                    yield data, place
                    if other == token:
                        yield from ((data[:place + size], place) for size in range(len(token)))


def headers():
    for word, most in ((b"aag", 12), (b"aig", 9)):
        tokens = header(word, most, 5, 2, 1, 2, 1, 1, 0, 0)
        rest = b"2\n4\n6\n8\n10\n12 3\n14 2 1\n7\n3\n2\n16 14 12\n18 16 5\n"
        if word == b"aig":
            rest = b"3\n2 1\n7\n3\n2\n" + delta(2) + delta(2) + delta(2) + delta(11)
        for at, (kind, token) in enumerate(tokens):
            before, behind = join(tokens[:at]), join(tokens[at + 1:]) + rest
            for other in (token, *OTHERS[kind]):
                yield before + other + behind, len(before)
            for size in range(len(token)):
                yield (before + token)[:len(before) + size], len(before)
        for zeros in range(6):
            yield join(header(word, 0, 0, 0, 0, 0, *[0] * zeros)), 0


def files():
    """All files, each with the place of its token."""
    ends = names((b"i", 1, b"in"), (b"c", 0, b"held"), (b"j", 0, b"c"), (b"i", 0, b"name"))
    for word in (b"aag", b"aig"):
        ands = gates(word, (1004, 1002, 3), (1006, 1004, 5), (1008, 1006, 13))
        tried = [*sections(1007, 14, 13, 3, 10), *ands, *ends]
        base = behind_outputs(word, 504, 500, (3, 1, 1, 1, 1))
        names_at = len(tried) - len(ends)
        others = [0, 1, 6, 7, 14, 15, 18, 19] if word == b"aag" else [0, 1, 6, 14, 15]
        yield from with_others(base, tried, [*others, *range(names_at, names_at + 7), len(tried) - 2, len(tried) - 1])
        yield from with_others(*behind_latches(word), range(6))
        tried = [("end", b"\n"), *names((b"i", 2, b"last"))]
        yield from with_others(lambda length, word=word: behind_a_name(word, length), tried, [0, 4, 6, 7])
    yield from behind_inputs()
    # Numbers of six digits in text, and deltas of up to four bytes.
    tried = [*line("number", 199999), *gates(b"aag", (199990, 12, 3), (199998, 199990, 5), (199994, 199999, 199991))]
    yield from with_others(behind_outputs(b"aag", 99999, 500, (3, )), tried)
    tried = [*line("number", 18009), *gates(b"aig", (18004, 18000, 5), (18006, 17700, 700), (18008, 1000, 1000))]
    yield from with_others(behind_outputs(b"aig", 9004, 9000, (3, )), tried, [2, 3])
    most = 1050000
    tried = [*line("number", 2 * most), *gates(b"aig", (2 * most, 2, 1))]
    whole = with_others(behind_outputs(b"aig", most, most - 2, (1, )), tried)
    yield from ((data, place) for data, place in whole if place == BLOCK - 2 and data.endswith(tried[-1][1]))
    yield from headers()


# ---- runs

def packets(data, place):
    """A pipe that gives the bytes around a place one at a time."""
    source, sink = os.pipe2(os.O_DIRECT | os.O_CLOEXEC)
    fcntl.fcntl(sink, fcntl.F_SETPIPE_SZ, 64 * 4096)
    start = max(place - 1, 0)
    edges = [0, *range(start, min(start + 40, len(data))), len(data)]
    for begin, end in zip(edges, edges[1:]):
        for at in range(begin, end, 4096):
            os.write(sink, data[at:min(at + 4096, end)])
    os.close(sink)
    return source


def has_packets():
    try:
        source = packets(b"ab", 0)
    except OSError:
        return False
    first = os.read(source, 10)
    os.close(source)
    return first == b"a"


def from_packets(program, data, place):
    source = packets(data, place)
    ended = program.run("toaig", "--to", "aag", "/dev/stdin", stdin=source, timeout=SECONDS)
    os.close(source)
    return ended


def wanted_of(data):
    """How the conversion to text ends, and the binary file or None."""
    try:
        parts = Reader(data).parts()
        test_parts(parts)
    except Fault as fault:
        return refused(f"circuit: {fault}"), None
    return Ended(0, spelled(parts, "aag"), b""), spelled(in_order(parts), "aig")


def tested(program, number, data, place, by_packets):
    """What is wrong with the runs on a file, or None."""
    def converted(to):
        return program.run("toaig", "--to", to, name, timeout=SECONDS)

    wanted, binary = wanted_of(data)
    name = write(f"file{number}", data)
    runs = [("aag", wanted, converted("aag"))]
    if by_packets:
        runs.append(("aag, a byte at a time", wanted, from_packets(program, data, place)))
    if binary is not None:
        runs.append(("aig", Ended(0, binary, b""), converted("aig")))
        write(name, binary)
        runs.append(("aig and back", Ended(0, spelled(Reader(binary).parts(), "aag"), b""), converted("aag")))
    os.remove(name)
    for way, want, got in runs:
        if got != want:
            shown = (f"status {each.status}, {each.err!r}, {len(each.out)} bytes" for each in (got, want))
            return f"to {way}: {'; wanted '.join(shown)}"
    return None


def on_a_terminal(program, data):
    """How the conversion of a file ends that comes from a terminal, which reports the end once. If a program reads
    on after it, the test says what is wrong."""
    master, terminal = pty.openpty()
    words = [program.path, "toaig", "--to", "aag", "/dev/stdin"]
    with supervised.Popen(words, stdin=terminal, stdout=subprocess.PIPE, stderr=subprocess.PIPE) as child:
        os.write(master, data + b"\4\4")
        try:
            out, err = child.communicate(timeout=SECONDS)
        except subprocess.TimeoutExpired:
            child.kill()
            return "it reads on after the end"
    os.close(terminal)
    os.close(master)
    return Ended(child.returncode, out, err)


def block_edges(program, tally, _):
    found = list(dict(files()).items())
    by_packets = has_packets()
    if not by_packets:
        leave_out("block edges: bytes one at a time", "there are no pipes that keep writes apart")
    one = functools.partial(tested, program)
    with concurrent.futures.ProcessPoolExecutor() as pool:
        answers = pool.map(one, range(len(found)), *zip(*found), itertools.repeat(by_packets), chunksize=20)
        for (data, place), wrong in zip(found, answers):
            shown = f"{data[max(place - 12, 0):place]!r} before {data[place:place + 24]!r}, of {len(data)} bytes"
            tally.check(f"block edges, a token at {place}, {shown}", wrong is None, wrong)
    # None of these ends with a newline.
    for data in (b"aag 1 2 0 0 0", b"aag 1 1 0 0 0\n2\ni0 a", b"aag 1 1 0 0 0\n2\nc\nmade", b"aag 1 1 0 0 0\n2"):
        try:
            tally.compare(f"block edges, {data!r} on a terminal", on_a_terminal(program, data), wanted_of(data)[0])
        except OSError:
            leave_out("block edges: terminals", "there are none")
