"""A bench that the library keeps open, by ctypes."""

import ctypes

OK, OUT_OF_ROOM, NOT_OPEN = 0, 2, 255
# a length that no call writes
UNWRITTEN = 2**64 - 1
CALLS = {"s": "set", "w": "rewire", "r": "reset", "o": "output", "-": "drop_frame"}


class Struct(ctypes.Structure):
    _fields_ = [("inside", ctypes.c_void_p), ("present", ctypes.c_bool)]


class Report(ctypes.Structure):
    _fields_ = [("evaluated", ctypes.c_uint64), ("changed", ctypes.c_uint64)]


class Sizes(ctypes.Structure):
    _fields_ = [(name, ctypes.c_uint32) for name in ("frames", "inputs", "latches", "outputs", "gates", "max_var")]


class Edit(ctypes.Structure):
    _fields_ = [(name, ctypes.c_uint32) for name in ("kind", "a", "b", "c")]


class Cell(ctypes.Structure):
    _fields_ = [(name, ctypes.c_uint32) for name in ("frame", "literal")]


class Live:
    """A bench that is open. The report of the last edit that was done is kept."""

    def __init__(self, library, circuit, rows):
        self.library, self.struct, self.report = library, Struct(), Report()
        self.status, self.reason = self.text("open", *given(circuit), *given(rows), last=())

    def call(self, name, *words):
        """The status of a call on the bench."""
        return getattr(self.library, f"aig_live_{name}")(ctypes.byref(self.struct), *words) & 255

    def text(self, name, *words, room=1 << 20, last=None):
        """The status of a call that writes a text, and the text."""
        text, length = ctypes.create_string_buffer(max(room, 1)), ctypes.c_size_t(UNWRITTEN)
        at = [ctypes.byref(self.struct)]
        arguments = [*words, *at] if last is not None else [*at, *words]
        status = getattr(self.library, f"aig_live_{name}")(*arguments, text, ctypes.c_size_t(room),
                                                           ctypes.byref(length)) & 255
        return status, text.raw[: length.value] if status < OUT_OF_ROOM and length.value != UNWRITTEN else b""

    def edit(self, letter, *numbers):
        """The status of one edit."""
        words = map(ctypes.c_uint32, numbers)
        if letter == "g":
            literal = ctypes.c_uint32(0)
            status = self.call("append_gate", *words, ctypes.byref(literal), ctypes.byref(self.report))
            if status == OK and literal.value != 2 * self.sizes().max_var:
                raise AssertionError(f"the literal of the new gate is {literal.value}")
            return status
        return self.call(CALLS[letter], *words, ctypes.byref(self.report))

    def edits(self, entries):
        """The status of edits of an array, and how many were done. The report is their sum."""
        array, done = (Edit * max(len(entries), 1))(*entries), ctypes.c_size_t(77)
        status = self.call("edits", array, ctypes.c_size_t(len(entries)), ctypes.byref(done), ctypes.byref(self.report))
        return status, done.value

    def add_frame(self, row):
        array = bytes("01x".index(value) for value in row)
        return self.call("add_frame", *given(array), ctypes.byref(self.report))

    def replace_rows(self, rows):
        return self.call("replace_rows", *given(bytes("01x".index(value) for row in rows for value in row)))

    def value(self, frame, literal):
        """The status of a question, and the value."""
        value = ctypes.c_uint8(77)
        return self.call("value", ctypes.c_uint32(frame), ctypes.c_uint32(literal), ctypes.byref(value)), value.value

    def values(self, cells):
        array, room = (Cell * max(len(cells), 1))(*cells), ctypes.create_string_buffer(len(cells) + 1)
        status = self.call("values", array, ctypes.c_size_t(len(cells)), room, ctypes.c_size_t(len(cells)))
        return status, room.raw[: len(cells)]

    def row(self, frame, literals):
        array = (ctypes.c_uint32 * max(len(literals), 1))(*literals)
        room = ctypes.create_string_buffer(len(literals) + 1)
        status = self.call("row", ctypes.c_uint32(frame), array, ctypes.c_size_t(len(literals)), room,
                           ctypes.c_size_t(len(literals)))
        return status, room.raw[: len(literals)]

    def sizes(self):
        found = Sizes()
        self.call("sizes", ctypes.byref(found))
        return found

    def close(self):
        return self.call("close")


def given(data):
    """The two arguments of an array of bytes."""
    return data, ctypes.c_size_t(len(data))
