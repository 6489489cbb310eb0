"""A plain reader of proofs in DRAT, by FORMATS.md, which shares nothing with the toolkit. A proof is read whole."""

import re

BLOCK = 32768
MOST = 2_147_483_647
MOST_GROUPS = 5
LITERAL = re.compile(rb"-?[1-9][0-9]*")
WORD = re.compile(rb"[^ \t\n]+")


class NoStep(Exception):
    """No step is spelled at a place."""

    def __init__(self, place):
        super().__init__(place)
        self.place = place


def steps_of(data):
    """Yields the steps of a proof: whether the clause is deleted, and the clause. Where no step follows, it raises the
    place of the word that is wrong, or that of the end."""
    return binary_steps(data) if is_binary(data) else text_steps(data)


def is_binary(data):
    if data[:1] != b"d":
        return data[:1] == b"a"
    return data[1:2] not in (b" ", b"\t") or 0 in data[:BLOCK]


def words_of(data):
    """The words of a text: each with its place and the number of its line."""
    begin = 0
    for number, line in enumerate(data.split(b"\n")):
        if line[:1] != b"c":
            for word in WORD.finditer(line):
                yield word[0], begin + word.start(), number
        begin += len(line) + 1


def text_steps(data):
    is_deleted, clause, is_in_step, is_first = False, [], False, True
    words = [*words_of(data), (b"", len(data), -1)]
    for (word, place, line), (_, after, next_line) in zip(words, words[1:]):
        if word == b"d" and not is_in_step:
            is_deleted = is_in_step = True
        elif word == b"0":
            if is_first and line == next_line:
                raise NoStep(after)  # the first step ends its line
            yield is_deleted, clause
            is_deleted, clause, is_in_step, is_first = False, [], False, False
        elif LITERAL.fullmatch(word) and abs(int(word)) <= MOST:
            clause.append(int(word))
            is_in_step = True
        else:
            # A minus that ends the file is a literal that is cut off.
            raise NoStep(len(data) if data[place:] == b"-" else place)
    if is_in_step:
        raise NoStep(len(data))


def binary_steps(data):
    at = 0
    while at < len(data):
        if data[at] not in b"ad":
            raise NoStep(at)
        is_deleted, clause, at = data[at] == ord("d"), [], at + 1
        while True:
            number, end = binary_number(data, at)
            if number == 0:
                break
            if not 1 < number < 2 * MOST + 2:
                raise NoStep(at)
            clause.append(-(number // 2) if number % 2 else number // 2)
            at = end
        yield is_deleted, clause
        at = end


def binary_number(data, at):
    number = 0
    for group in range(MOST_GROUPS):
        if at + group == len(data):
            raise NoStep(len(data))
        byte = data[at + group]
        number += byte % 128 << 7 * group
        if byte < 128:
            if byte == 0 and group > 0:
                raise NoStep(at)  # not the shortest spelling
            return number, at + group + 1
    raise NoStep(at)
