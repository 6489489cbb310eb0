"""A plain reader of circuit files, which has the whole file and knows no blocks; the faults of what it read; and the
bytes that are written for it. It shares nothing with the toolkit."""

import collections
import itertools
import re

HEAD, BODY = 4194303, 8388607
LETTERS = "ilobcjf"
SHORT = rb"(?:0|[1-9][0-9]{0,5})"
DIGITS = re.compile(rb"[0-9]*")
GROUPS = re.compile(rb"[\x80-\xff]{0,3}[\x00-\x7f]")

Parts = collections.namedtuple(
    "Parts", "most inputs latches outputs bad constraints justice fairness gates names comment")


class Fault(Exception):
    """The message of a refusal."""


class Reader:
    """Takes a file token by token. A fault is raised at the first token that is refused."""

    def __init__(self, data):
        self.data, self.at = data, 0

    def text(self, at=None):
        return Fault(f"text at {self.at if at is None else at}")

    def front(self):
        return self.data[self.at:self.at + 1]

    def number(self, most):
        digits = DIGITS.match(self.data, self.at)[0]
        if digits != b"0" and (not digits or digits.startswith(b"0")):
            raise self.text()
        if int(digits) > most:
            raise Fault("limit")
        self.at += len(digits)
        return int(digits)

    def separator(self, *allowed):
        """The one byte that is to stand here, of those that may."""
        found = self.front()
        if found not in allowed:
            raise self.text()
        self.at += 1
        return found

    def field(self, end, most=BODY):
        number = self.number(most)
        self.separator(end)
        return number

    def header(self):
        if self.data[:4] not in (b"aag ", b"aig "):
            is_cut = b"aag ".startswith(self.data) or b"aig ".startswith(self.data)
            raise self.text(len(self.data) if is_cut else 0)
        self.at = 4
        counts = [self.field(b" ", HEAD) for _ in range(4)] + [self.number(HEAD)]
        while len(counts) < 9 and self.separator(b" ", b"\n") == b" ":
            counts.append(self.number(HEAD))
        if self.data[self.at - 1:self.at] != b"\n":
            self.separator(b"\n")
        return counts + [0] * (9 - len(counts))

    def short_lines(self, most, words):
        """Takes lines of so many short numbers at once, as far as there are, and gives the numbers of each."""
        line = rb"(?:%s\n){0,%d}" % (b" ".join([SHORT] * words), min(most, 65535))
        found = re.compile(line).match(self.data, self.at)[0]
        self.at += len(found)
        return list(zip(*[map(int, found.split())] * words))

    def reset(self):
        return self.field(b"\n") if self.separator(b" ", b"\n") == b" " else 0

    def literals(self, number):
        found = [literal for literal, in self.short_lines(number, 1)]
        return found + [self.field(b"\n") for _ in range(number - len(found))]

    def delta(self, least, most):
        groups = GROUPS.match(self.data, self.at)
        if not groups or (len(groups[0]) > 1 and groups[0].endswith(b"\0")):
            raise self.text()
        number = sum((byte & 127) << 7 * place for place, byte in enumerate(groups[0]))
        if not least <= number <= most:
            raise self.text()
        self.at += len(groups[0])
        return number

    def gate(self, left):
        first = left - self.delta(1, left)
        return left, first, first - self.delta(0, first)

    def sizes(self, number):
        sizes = []
        for _ in range(number):
            sizes.append(self.number(BODY))
            if sum(sizes) > HEAD:
                raise Fault("limit")
            self.separator(b"\n")
        return sizes

    def names(self, lengths):
        """The symbols and the comment."""
        names = []
        while self.at < len(self.data):
            letter = self.front()
            if letter not in [each.encode() for each in LETTERS]:
                raise self.text()
            self.at += 1
            if letter == b"c":
                if self.front() == b"\n":
                    return names, self.data[self.at + 1:]
                if not self.front().isdigit():
                    raise self.text()
            start = self.at
            position = self.number(BODY)
            if position >= lengths[letter.decode()] or (letter, position) in [name[:2] for name in names]:
                raise self.text(start)
            self.separator(b" ")
            end = self.data.find(b"\n", self.at)
            if end in (-1, self.at):
                raise self.text(len(self.data) if end < 0 else end)
            names.append((letter, position, self.data[self.at:end]))
            self.at = end + 1
        return names, None

    def parts(self):
        most, inputs, latches, outputs, gates, bad, constraints, justice, fairness = self.header()
        is_text = self.data.startswith(b"aag")
        if most < inputs + latches + gates or (not is_text and most > inputs + latches + gates):
            raise Fault("counts")
        if is_text:
            listed = self.literals(inputs)
            states = [(lit, after, 0) for lit, after in self.short_lines(latches, 2)]
            states += [(self.field(b" "), self.number(BODY), self.reset()) for _ in range(latches - len(states))]
        else:
            listed = range(2, 2 * inputs + 2, 2)
            short = self.short_lines(latches, 1)
            states = [(2 * at, after, 0) for at, (after,) in enumerate(short, inputs + 1)]
            states += [(2 * (inputs + at + 1), self.number(BODY), self.reset()) for at in range(len(states), latches)]
        lists = [self.literals(number) for number in (outputs, bad, constraints)]
        sizes = self.sizes(justice)
        live = [self.literals(size) for size in sizes]
        fair = self.literals(fairness)
        if is_text:
            ands = self.short_lines(gates, 3)
            ands += [(self.field(b" "), self.field(b" "), self.field(b"\n")) for _ in range(gates - len(ands))]
        else:
            ands = [self.gate(2 * (inputs + latches + at + 1)) for at in range(gates)]
        numbers = (inputs, latches, outputs, bad, constraints, justice, fairness)
        return Parts(most, listed, states, *lists, live, fair, ands, *self.names(dict(zip(LETTERS, numbers))))


def test_parts(parts):
    """Raises the first fault of the parts."""
    lefts = [*parts.inputs, *(latch[0] for latch in parts.latches), *(gate[0] for gate in parts.gates)]
    uses = [latch[1] for latch in parts.latches]
    uses += itertools.chain(parts.outputs, parts.bad, parts.constraints, *parts.justice, parts.fairness)
    uses += itertools.chain(*(gate[1:] for gate in parts.gates))
    if max([0, *lefts, *uses]) > 2 * parts.most + 1:
        raise Fault("range")
    if any(left % 2 or left == 0 for left in lefts):
        raise Fault("definition")
    twice = [left for left, number in collections.Counter(lefts).items() if number > 1]
    undefined = {use & ~1 for use in uses} - {0, *lefts}
    resets = [lit for lit, _, reset in parts.latches if reset not in (0, 1, lit)]
    for word, found in (("redefined", twice), ("undefined", undefined), ("reset", resets)):
        if found:
            raise Fault(f"{word} {min(found) >> 1}")
    waiting = {gate[0]: gate[1:] for gate in parts.gates}
    while waiting:
        ready = [left for left, sides in waiting.items() if not any(side & ~1 in waiting for side in sides)]
        if not ready:
            raise Fault(f"cycle {min(waiting) >> 1}")
        for left in ready:
            del waiting[left]


def spelled(parts, word):
    """The normal text of parts, or the binary file of parts that are in order."""
    counts = [parts.most, *map(len, parts[1:4]), len(parts.gates), *map(len, parts[4:8])]
    while len(counts) > 5 and counts[-1] == 0:
        counts.pop()
    is_text = word == "aag"
    lines = [" ".join([word, *map(str, counts)])]
    if is_text:
        lines += map(str, parts.inputs)
    for lit, after, reset in parts.latches:
        lines.append((f"{lit} " if is_text else "") + str(after) + (f" {reset}" if reset else ""))
    lines += map(str, [*parts.outputs, *parts.bad, *parts.constraints, *map(len, parts.justice)])
    lines += map(str, [*itertools.chain(*parts.justice), *parts.fairness])
    if is_text:
        lines += [" ".join(map(str, gate)) for gate in parts.gates]
    data = "".join(line + "\n" for line in lines).encode()
    if not is_text:
        data += b"".join(delta(left - first) + delta(first - second) for left, first, second in parts.gates)
    data += b"".join(letter + b"%d " % position + name + b"\n" for letter, position, name in parts.names)
    return data + (b"" if parts.comment is None else b"c\n" + parts.comment)


def delta(number):
    groups = [number >> 7 * place & 127 for place in range(max(1, -(-number.bit_length() // 7)))]
    return bytes([*(group | 128 for group in groups[:-1]), groups[-1]])


def levels_of(parts):
    """The level of each left side: one over the greatest of its right sides."""
    sides = {left: (first & ~1, second & ~1) for left, first, second in parts.gates}
    levels = {0: 0, **dict.fromkeys(parts.inputs, 0), **{latch[0]: 0 for latch in parts.latches}}
    for start in sides:
        waiting = [start]
        while waiting:
            left = waiting[-1]
            more = [side for side in sides[left] if side not in levels]
            waiting += more
            if not more:
                levels[left] = 1 + max(levels[side] for side in sides[left])
                waiting.pop()
    return levels


def in_order(parts):
    """The parts with the variables in order, as the binary format wants them."""
    gates = parts.gates
    lefts = [*parts.inputs, *(latch[0] for latch in parts.latches), *(gate[0] for gate in gates)]
    are_ready = parts.most == len(lefts) and all(left == 2 * at for at, left in enumerate(lefts, 1))
    if are_ready and all(left > first >= second for left, first, second in gates):
        return parts
    levels = levels_of(parts)
    gates = sorted(gates, key=lambda gate: (levels[gate[0]], gate[0]))
    numbers = {left: 2 * at for at, left in enumerate([0, *lefts[:len(lefts) - len(gates)], *(g[0] for g in gates)])}

    def to(literal):
        return numbers[literal & ~1] + literal % 2

    def each(literals):
        return [to(literal) for literal in literals]

    return parts._replace(
        most=len(lefts), inputs=each(parts.inputs),
        latches=[(to(state), to(after), reset if reset < 2 else to(reset)) for state, after, reset in parts.latches],
        outputs=each(parts.outputs), bad=each(parts.bad), constraints=each(parts.constraints),
        justice=[each(literals) for literals in parts.justice], fairness=each(parts.fairness),
        gates=[(to(left), *sorted((to(first), to(second)), reverse=True)) for left, first, second in gates])
