"""The lines of an explanation, and the pieces of files in them."""

from __future__ import annotations

import os
from typing import List, Optional, Union

SHOWN = 60  # how many bytes of a file's text are shown


def text_of(data: Union[bytes, str]) -> str:
    """Bytes as text, one character each; a name as the bytes that the system has for it."""
    return (os.fsencode(data) if isinstance(data, str) else data).decode("latin-1")


def first(data: bytes) -> str:
    """The first bytes of a file's text."""
    return text_of(data[:SHOWN]) + ".." * (len(data) > SHOWN)


def found(data: bytes, at: int) -> str:
    """What is there."""
    if at >= len(data):
        return "the file ends here"
    byte = data[at]
    known = {10: "found a newline", 13: "found \\x0d (CR)", 9: "found \\x09 (a tab)"}.get(byte)
    return known or (f"found '{chr(byte)}'" if 32 <= byte < 127 else f"found {chr(byte)}")


def place(data: bytes, at: int) -> str:
    """The line and the column of a byte, both counted from 1."""
    return f"line {data.count(10, 0, at) + 1}, column {at - data.rfind(10, 0, at)}"


def line_of(data: bytes, number: int) -> bytes:
    """A line by its number, which counts from 1, without its newline; nothing if there is none."""
    begin = 0
    for _ in range(number - 1):
        begin = data.find(b"\n", begin) + 1
        if begin == 0:
            return b""
    end = data.find(b"\n", begin)
    return data[begin:] if end < 0 else data[begin:end]


def first_other(line: bytes) -> Optional[int]:
    """Where the first byte is that is no value."""
    return next((at for at, byte in enumerate(line) if byte not in b"01x"), None)


def _shown(character: str) -> str:
    """A character that a terminal shows as it is, or the bytes that stand for it as hexadecimal digits."""
    if " " <= character <= "~":
        return character
    data = bytes([ord(character)]) if ord(character) < 256 else character.encode("utf-8", "surrogatepass")
    return "".join(f"\\x{byte:02x}" for byte in data)


class Lines:
    """Lines that have only printable bytes, whatever is added."""

    def __init__(self) -> None:
        self.all: List[str] = []

    def add(self, *lines: str) -> None:
        for line in lines:
            self.all.append(f"  {''.join(map(_shown, line))}\n")

    def name(self, file: str) -> None:
        """Adds the name of a file."""
        self.add(f"file: {text_of(file)}")
