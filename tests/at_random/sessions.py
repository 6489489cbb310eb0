"""Random sessions of `aig shell`, beside the plain workbench of library/reference.py: tables of values, edits, what
`check` says, and what is saved. A line that is refused changes nothing. The tables are laid out as BEHAVIOUR says."""

import collections
import re

from at_random.cases import Wrong, each
from library.broken import circuit, stimulus
from library.causes import Names
from library.reference import Parts, Workbench, literal, rows_of, trace, values
from library.runs import Ended, write

SECTIONS = {"i": "inputs", "l": "latches", "o": "outputs", "b": "bad"}
# Stands for the answer to a line that is refused.
REFUSED = "no: "
# How many frames are shown where none are named, how many columns a line has, and of which the names of a table.
SHOWN, COLUMNS, NAME = 64, 80, 30


def named(design, rng):
    """The circuit with names of our own, or with none."""
    lines = design.decode().split("\n")
    end = lines.index("c") if "c" in lines else len(lines) - 1
    body = [line for line in lines[:end] if not re.match("[il][0-9]+ ", line)]
    parts = Parts("\n".join(body) + "\n")
    if rng.randrange(2):
        body += [f"{letter}{place} {letter}{letter}{place}" for letter, section in SECTIONS.items()
                 for place in range(len(getattr(parts, section)))]
    return "\n".join(body) + "\n"


def table(first, rows):
    """Rows of texts, a column for each frame, in lines of 80 columns. A name that is cut ends in two dots."""
    count = len(rows[0][1])
    rows = [(name if len(name) <= NAME else f"{name[:NAME - 2]}..", texts) for name, texts in rows]
    name = max(5, *(len(row[0]) for row in rows))
    cell = max(len(str(first + count - 1)), *(len(text) for _, texts in rows for text in texts))
    most = max(1, (COLUMNS - name) // (cell + 1))
    blocks = []
    for begin in range(0, count, most):
        part = range(begin, min(begin + most, count))
        lines = [("frame", [str(first + place) for place in part])]
        lines += [(row, [texts[place] for place in part]) for row, texts in rows]
        blocks.append("".join(f"{head:{name}}{''.join(f' {text:>{cell}}' for text in texts)}\n" for head,
                              texts in lines))
    return "\n".join(blocks)


def folded(words):
    """Words in lines of 80 columns at most, or of one word."""
    text, column = "", 0
    for word in words:
        is_over = column + 1 + len(word) > COLUMNS
        text += ("\n" if is_over else " ") * (text != "") + word
        column = len(word) + (0 if is_over or column == 0 else column + 1)
    return f"{text}\n"


def are_answers(said, answers):
    """Whether a text is these answers one after the other."""
    at = 0
    for answer in answers:
        if not said.startswith(answer, at):
            return False
        at = said.find("\n", at) + 1 if answer == REFUSED else at + len(answer)
    return at == len(said)


class Session:
    """A session beside which the program's is compared: each line gives its answer."""

    def __init__(self, design, rows):
        self.parts = Parts(design)
        self.resets = [latch[2] for latch in self.parts.latches]
        self.bench = Workbench(self.parts, rows)
        self.names_of = Names(design, self.parts)

    def literal_of(self, word):
        """The literal that a word means; none where it means none."""
        found = self.names_of.literals(word, self.parts)
        return found[0] if found else None

    def side(self, l):
        """A side: an input or a latch by its name, any other by its number."""
        for letter in "il":
            section = self.names_of.sections[letter]
            if l & ~1 in section:
                return "!" * (l & 1) + self.names_of.first((letter, section.index(l & ~1)))
        return str(l)

    def frames_of(self, word):
        first, _, last = word.partition("-")
        frames = range(int(first), int(last or first) + 1)
        return frames if len(frames) and frames[-1] < len(self.bench.rows) else None

    def show(self, *words):
        names = [word for word in words if word[0] != "@"]
        count = len(self.bench.rows)
        least = max(0, count - SHOWN)
        frames = self.frames_of(words[-1][1:]) if words[-1][0] == "@" else range(least, count)
        literals = [self.literal_of(name) for name in names]
        if not frames or None in literals:
            return REFUSED
        known = values(self.parts, self.bench.rows)
        note = f"frames 0 to {least - 1} are left out; @A-B names frames\n" if least and words[-1][0] != "@" else ""
        rows = [(name, [literal(known[t], l) for t in frames]) for name, l in zip(names, literals)]
        return note + table(frames[0], rows)

    def set(self, frames, name, value):
        frames, l = self.frames_of(frames), self.literal_of(name)
        if not frames or l not in self.parts.inputs:
            return REFUSED
        for t in frames:
            self.bench.set_bit(t, self.parts.inputs.index(l), value)
        return ""

    def start(self, name, value):
        l = self.literal_of(name)
        return REFUSED if l is None or self.bench.set_reset(l, value) else ""

    def add(self, count="1"):
        if count == "0":
            return REFUSED
        for _ in range(int(count)):
            self.bench.add_frame("x" * len(self.parts.inputs))
        return ""

    def drop(self, count="1"):
        if not 0 < int(count) <= len(self.bench.rows):
            return REFUSED
        for _ in range(int(count)):
            self.bench.drop_frame()
        return ""

    def gate(self, *words):
        literals = [self.literal_of(word) for word in words]
        if None in literals or (len(words) == 3 and self.bench.rewire(*literals)):
            return REFUSED
        return f"{self.defined(words[0], literals[0])}\n"

    def defined(self, word, l):
        """What a literal is, by the word that names it."""
        even = l & ~1
        head = [f"{word} = {l}"] * (word != str(l) or l == even) + [f"{l} = !{even}"] * (l & 1)
        if even in self.parts.gates:
            a, b = map(self.side, self.parts.gates[even])
            return ", ".join([*(head if word != str(even) else []), f"{even} = {a} and {b}"])
        for latch, reset in zip(self.parts.latches, self.resets):
            if latch[0] == even:
                return f"{', '.join(head)}: latch, next {self.side(latch[1])}, reset {reset if reset in (0, 1) else 'x'}"
        return f"{', '.join(head)}: {'input' if even else 'constant'}"

    def new(self, *words):
        literals = [self.literal_of(word) for word in words]
        if None in literals or self.bench.append_gate(*literals):
            return REFUSED
        return f"{2 * self.parts.maximum}\n"

    def out(self, name, word):
        (letter, place), *others = self.names_of.known.get(name, [("none", 0)])
        l = self.literal_of(word)
        return REFUSED if letter != "o" or others or l is None or self.bench.set_output(place, l) else ""

    def reached(self, name=None):
        """The first frame at which the run reaches a property, and of those that it reaches then the first."""
        if self.other_start():
            return None
        asked = [self.names_of.known[name][0][1]] if name else range(len(self.parts.bad))
        for t, row in enumerate(values(self.parts, self.bench.rows)):
            if any(literal(row, l) != "1" for l in self.parts.constraints):
                return None
            for place in asked:
                if literal(row, self.parts.bad[place]) == "1":
                    return t, place
        return None

    def witness(self, file, name=None):
        found = self.reached(name)
        return f"b{found[1]} at {found[0]}: {file}\n" if found else REFUSED

    def witness_text(self, name=None):
        """The text of that witness."""
        frame, place = self.reached(name)
        start = "".join(a for a, _ in self.starts())
        return "".join(f"{line}\n" for line in ["1", f"b{place}", start, *map("".join, self.bench.rows[:frame + 1]),
                                                "."])

    def starts(self):
        """How each latch starts, and how its reset says, as letters."""
        return [tuple(str(each) if each in (0, 1) else "x" for each in (latch[2], reset))
                for latch, reset in zip(self.parts.latches, self.resets)]

    def other_start(self):
        """The first latch that starts as its reset does not allow, and how; none where there is none."""
        return next(((place, a) for place, (a, b) in enumerate(self.starts()) if b not in ("x", a)), None)

    def called(self, letter, place):
        """An entry by letter and position, and then by its name where that is another one."""
        plain, name = f"{letter}{place}", self.names_of.first((letter, place))
        return plain if plain == name else f"{plain} {name}"

    def check(self):
        known = values(self.parts, self.bench.rows)
        broken = next(((t, place, literal(row, l)) for t, row in enumerate(known)
                       for place, l in enumerate(self.parts.constraints) if literal(row, l) != "1"), None)
        other = self.other_start()
        said = "" if self.parts.bad else "the circuit has no bad state property\n"
        for place, l in enumerate(self.parts.bad):
            column = [literal(row, l) for row in known]
            said += f"{self.called('b', place)}: "
            if "1" in column:
                t = column.index("1")
                is_run = not other and (not broken or t < broken[0])
                said += f"reached at {t}\n" if is_run else f"1 at {t}, not a run\n"
            else:
                said += f"not reached, x at {column.index('x')}\n" if "x" in column else "not reached\n"
        if broken:
            said += f"{self.names_of.first(('c', broken[1]))} is {broken[2]} at {broken[0]}\n"
        if other:
            said += f"{self.names_of.first(('l', other[0]))} starts at {other[1]}, not at its reset\n"
        return said

    def names(self, part=""):
        """The signals, and the further words of those that are one entry, each once."""
        listed = {}
        for signal in self.names_of.signals:
            entry = signal.letter, signal.positions[0]
            further = self.names_of.words.get(entry, [])[1:] if len(signal.positions) == 1 else []
            listed.update(dict.fromkeys([signal.name, *further]))
        found = [name for name in listed if part in name]
        nothing = REFUSED if part else "the circuit has no names\n"
        return folded(found) if found else nothing

    def answer(self, line):
        command, *words = line.split()
        return getattr(self, command)(*words)


def lines_of(rng, parts, frames):
    """Lines, most of which are taken."""
    def name(letters):
        letter = rng.choice(letters)
        place = rng.randrange(len(getattr(parts, SECTIONS[letter])) + (rng.randrange(9) == 0) or 1)
        return f"{letter}{place}"

    def word():
        sign = rng.choice(("", "", "!"))
        return sign + (name("ilob") if rng.randrange(2) else str(rng.randrange(2 * parts.maximum + 6)))

    def span():
        first = rng.randrange(frames + 1)
        return rng.choice((f"{first}", f"{first}-{first + rng.randrange(4)}", f"0-{frames}", "0"))

    made = {"show": lambda: " ".join(word() for _ in range(rng.randrange(1, 4))) + rng.choice(("", f" @{span()}")),
            "set": lambda: f"{span()} {name('iiiil')} {rng.choice('01x')}",
            "start": lambda: f"{name('lllli')} {rng.choice('01x')}",
            "add": lambda: rng.choice(("", "2", "0", "40")), "drop": lambda: rng.choice(("", "1", "3", "99")),
            "gate": lambda: rng.choice((word(), f"{word()} {word()} {word()}")), "new": lambda: f"{word()} {word()}",
            "out": lambda: f"{name('o')} {word()}", "check": lambda: "",
            "names": lambda: rng.choice(("", "i", "l", "b1", "oo", "nix"))}
    for _ in range(rng.randrange(30)):
        command = rng.choice(("show", "show", "set", "set", "start", "add", "drop", "gate", "new", "out", "check",
                              "names"))
        yield f"{command} {made[command]()}"


def case(program, rng, counts):
    design = named(circuit(rng), rng)
    rows = stimulus(rng, len(Parts(design).inputs)).decode()
    write("circuit", design)
    write("rows", rows)
    session = Session(design, rows_of(rows))
    lines = list(lines_of(rng, Parts(design), rows.count("\n")))
    wanted = [session.answer(line) for line in lines]
    is_whole = all(a == b for a, b in session.starts())
    wanted += [] if is_whole else ["saved.stim has no start of latches; witness FILE has\n"]
    text = "\n".join([*lines, "save saved.aag saved.stim", "quit", "quit"]) + "\n"
    write("lines", text)
    ended = program.run("shell", "circuit", "rows", input=text.encode())
    said = re.sub("unsaved: run; quit again to leave\n\\Z", "", ended.out.decode())
    if ended.status or ended.err or not are_answers(said, wanted):
        raise Wrong(f"status {ended.status}, {ended.err[:200]!r}, other answers than wanted")
    for latch, reset in zip(session.parts.latches, session.resets):
        latch[2] = reset
    traced = program.run("sim", "saved.aag", "saved.stim")
    if traced != Ended(0, trace(session.parts, session.bench.rows).encode(), b""):
        raise Wrong(f"another trace of what was saved: {traced.status}, {traced.err[:200]!r}")
    counts.update(line.split()[0] for line in lines)
    counts["refused"] += said.count("no: ")


def sessions(program, tally, chosen):
    counts = collections.Counter()
    each("sessions", tally, chosen, lambda rng: case(program, rng, counts))
    refused = counts.pop("refused", 0)
    return f"cases of seed {chosen.seed}, {sum(counts.values())} lines, {refused} refused: "
