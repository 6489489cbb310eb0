"""A session of `aig shell` about 1,500 signals, beside the plain workbench: each has a symbol of three words, of which
some have 300 bytes, and there are 13 properties."""

import random

from at_random.sessions import Session, are_answers
from library.reference import Parts, rows_of, trace
from library.runs import Ended, contents, shortened, write

# Properties are inputs, from input 1 on; input 0 is the constraint.
INPUTS, LATCHES, OUTPUTS, BAD, GATES, FRAMES = 500, 500, 486, 13, 600, 3
COUNTS = {"i": INPUTS, "l": LATCHES, "o": OUTPUTS, "b": BAD, "c": 1}
LONG = 300


def words_of(letter, place):
    """The three words of an entry. Of some one is long."""
    words = [f"{letter}_{place}.first", f"{place}.{letter}.second", f"third.{letter}.{place}"]
    at = {9: 0, 30: 1, 12: 2}.get(place % 50)
    return [word if number != at else word.ljust(LONG, "~") for number, word in enumerate(words)]


def circuit(rng):
    """The text of a circuit with these numbers of entries."""
    most = INPUTS + LATCHES + GATES
    lines = [f"aag {most} {INPUTS} {LATCHES} {OUTPUTS} {GATES} {BAD} 1"]
    lines += [f"{2 * at + 2}" for at in range(INPUTS)]
    for at in range(LATCHES):
        latch = 2 * (INPUTS + at) + 2
        lines.append(f"{latch} {rng.randrange(2, 2 * most)} {(0, 1, latch)[at % 3]}")
    lines += [f"{rng.randrange(2 * most)}" for _ in range(OUTPUTS)]
    lines += [f"{2 * at + 4}" for at in range(BAD)] + ["2"]
    for at in range(GATES):
        gate = 2 * (INPUTS + LATCHES + at) + 2
        lines.append(f"{gate} {rng.randrange(2, gate)} {rng.randrange(2, gate)}")
    lines += [f"{letter}{place} {' '.join(words_of(letter, place))}" for letter, count in COUNTS.items()
              for place in range(count)]
    return "".join(f"{line}\n" for line in lines)


def stimulus(rng):
    """Rows in which the constraint holds and no property is reached."""
    rest = INPUTS - BAD - 1
    return "".join(f"1{'0' * BAD}{''.join(rng.choice('01x') for _ in range(rest))}\n" for _ in range(FRAMES))


def questions(rng):
    """Lines that ask for entries by each of their words, for gates, and for names."""
    for letter in "ilob":
        places = range(COUNTS[letter])
        for place in sorted({*places[:20], *places[20::4]}):
            yield f"gate {rng.choice(('', '!'))}{words_of(letter, place)[place % 3]}"
    for at in range(INPUTS + LATCHES + 1, INPUTS + LATCHES + GATES + 1, 3):
        yield f"gate {2 * at + rng.randrange(2)}"
    for place in (0, 9, 12, 59, 62, 109, 112, 330, 480, 499):
        some = rng.choice("ilob")
        yield f"show {words_of('l', place)[2]} !{words_of(some, place % COUNTS[some])[place % 3]}"
    yield from ("names", "names third", "names second~", "names first~", "names third.l.12", "names .o.", "names nix")


def starts():
    """Lines after each of which another latch is the first that starts otherwise, or none is."""
    yield "check"
    for place, value in ((498, "1"), (300, "x"), (109, "0"), (13, "0"), (12, "1"), (9, "x"), (0, "1")):
        yield f"start {words_of('l', place)[place % 3]} {value}"
        yield "check"
    for place in (0, 9, 12, 13, 109, 300, 498):
        yield f"start l{place} {place % 3}"
        yield "check"


def edits(rng):
    """Lines that change each kind of entry, by its words, and ask for it."""
    for place, gate in enumerate(rng.sample(range(GATES), 20)):
        left, right = (words_of(letter, place)[rng.randrange(3)] for letter in "il")
        yield f"gate {2 * (INPUTS + LATCHES + gate) + 2} !{left} {right}"
        yield f"new {right} !{left}"
    for place in (9, 12, 109, 112, 485):
        yield f"out {words_of('o', place)[place % 3]} {rng.randrange(2, 2000)}"
        yield f"gate o{place}"
    for place in (30, 59, 62, 109, 112, 499):
        yield f"set 0-1 {words_of('i', place)[place % 3]} {place % 2}"
        yield f"show {words_of('i', place)[0]}"


def reaches():
    """Lines after which the run reaches one more property, from the last to the first, at one frame or another."""
    for place in reversed(range(BAD)):
        yield f"set {place % FRAMES} {words_of('i', place + 1)[place % 3]} 1"


def later():
    """Lines after which the constraint is broken at a frame with two digits, or a property is reached at one."""
    yield "add 12"
    yield f"set {FRAMES}-14 {words_of('i', 0)[1]} 1"
    for line in ("set 12 i0 0", "set 12 i0 x", "set 11 i12 1", "set 13 i12 1", "set 12 i0 1", "set 11 i12 0"):
        yield from (line, "check")


class Talks:
    """Sessions about the design, each beside a plain one."""

    def __init__(self, program, tally):
        rng = random.Random(81)
        self.program, self.tally = program, tally
        self.design, self.rows = circuit(rng), stimulus(rng)
        write("design", self.design)
        write("rows", self.rows)

    def answers(self, name, lines):
        """The answers are those of the plain session, which is returned; the program saves its own in two files."""
        session = Session(self.design, rows_of(self.rows))
        wanted = [session.answer(line) for line in lines]
        text = "".join(f"{line}\n" for line in [*lines, "save saved saved_rows"])
        ended = self.program.run("shell", "design", "rows", input=text.encode())
        is_right = (ended.status, ended.err) == (0, b"") and are_answers(ended.out.decode(), wanted)
        self.tally.check(f"large_session: {name}", is_right, f"{shortened(ended)}, wanted {shortened(wanted)}")
        return session

    def witnesses(self, lines, names):
        """The files of witnesses are those of the plain session, and each is confirmed."""
        asked = [[name] if name else [] for name in names]
        for place in range(len(names)):
            write(f"found{place}", "")
        session = self.answers(f"witnesses of {len(lines)} properties",
                               [*lines, *(" ".join(["witness", f"found{place}", *words]) for place,
                                          words in enumerate(asked))])
        for place, words in enumerate(asked):
            self.tally.compare(f"large_session: a witness of {words}, one of {len(lines)} properties",
                               contents(f"found{place}"), session.witness_text(*words).encode())
            self.tally.compare(f"large_session: a witness of {words}, one of {len(lines)} properties, is confirmed",
                               self.program.run("check", "design", f"found{place}"), Ended(0, b"confirmed\n", b""))


def large_session(program, tally, _):
    rng = random.Random(18)
    talks = Talks(program, tally)
    talks.answers("questions", [*questions(rng)])
    talks.answers("starts", [*starts()])
    session = talks.answers("edits", [*edits(rng)])
    tally.compare("large_session: a trace of what was saved", program.run("sim", "saved", "saved_rows"),
                  Ended(0, trace(session.parts, session.bench.rows).encode(), b""))
    talks.answers("later frames", [*later()])
    lines = [*reaches()]
    talks.answers("properties", [each for line in lines for each in (line, "check")])
    talks.witnesses(lines[:1], [None, "b12"])
    talks.witnesses(lines, [None, words_of("b", 12)[0], words_of("b", 9)[2], words_of("b", 11)[1]])
