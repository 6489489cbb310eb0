"""An open bench that is a process `aig bench` behind pipes."""

from __future__ import annotations

import subprocess
import tempfile
from pathlib import Path
from typing import Iterable, List, NoReturn, Tuple

from ._engine import FAULT, LETTERS, Edit
from .program import failed, held, program
from .errors import EditError

# So many lines go to the program before their replies are read: their replies fit into a pipe.
MOST_LINES = 1000


class ByProgram:
    """A running program `aig bench`, to which lines go, and which replies."""

    def __init__(self, file: bytes, rows: bytes):
        self._begin(file, rows)

    def _begin(self, file: bytes, rows: bytes) -> None:
        self._folder = tempfile.TemporaryDirectory(prefix="aig-")
        self._kept = [Path(self._folder.name, name) for name in ("circuit", "rows")]
        options = ["--circuit-out", str(self._kept[0]), "--stimulus-out", str(self._kept[1])]
        self._errors = tempfile.TemporaryFile()
        with held(file, rows) as (paths, descriptors):
            self._words = ["bench", *options, *paths, "/dev/stdin"]
            self.process = subprocess.Popen(
                [program(), *self._words], stdin=subprocess.PIPE, stdout=subprocess.PIPE, stderr=self._errors,
                pass_fds=descriptors, bufsize=1 << 16,
            )
            assert self.process.stdin is not None and self.process.stdout is not None
            self._lines, self._replies = self.process.stdin, self.process.stdout
            try:
                self._ask("")  # Once the reply `bad` to an empty line is here, the program has read both files.
            except BaseException:
                self.close()
                raise
        # The program has read these files, and their descriptors will be those of other ones.
        self._words[-3:-1] = ["", ""]
        # the program accepted this header, and these rows
        self._variables, self._frames = int(file.split(None, 2)[1]), rows.count(b"\n")

    # -- lines and replies

    def _send(self, lines: str) -> None:
        try:
            self._lines.write(lines.encode())
            self._lines.flush()
        except (BrokenPipeError, ValueError):
            self._fail()

    def _reply(self) -> str:
        line = self._replies.readline()
        if not line.endswith(b"\n"):
            self._fail()
        return line[:-1].decode()

    def _fail(self) -> NoReturn:
        """Raises the error of a program that ended."""
        status = self.process.wait()
        self._errors.seek(0)
        raise failed(self._words, status, self._errors.read())

    def _ask(self, line: str) -> str:
        self._send(line + "\n")
        return self._reply()

    def _status(self, line: str) -> int:
        reply = self._ask(line)
        number = _fault(reply)
        if not number and reply != "ok":
            raise ValueError(f"the bench does not know the line {line!r}")
        if not number:
            self._note(line)
        return number

    def _text(self, line: str) -> bytes:
        """The reply of several lines, up to the one with a dot."""
        self._send(line + "\n")
        lines: List[str] = []
        while True:
            reply = self._reply()
            if _fault(reply):
                raise EditError(_fault(reply), line)
            if reply == ".":
                return "".join(lines).encode()
            lines.append(reply + "\n")

    def script(self, lines: List[str]) -> List[str]:
        """The replies to lines whose replies have one line each."""
        replies: List[str] = []
        for begin in range(0, len(lines), MOST_LINES):
            part = lines[begin : begin + MOST_LINES]
            self._send("".join(line + "\n" for line in part))
            replies += [self._reply() for _ in part]
        for line, reply in zip(lines, replies):
            if reply == "ok":
                self._note(line)
        return replies

    def _note(self, line: str) -> None:
        """Counts what an edit adds or removes."""
        self._variables += line[:1] == "g"
        self._frames += {"+": 1, "-": -1}.get(line[:1], 0)

    # -- an engine

    def edit(self, edit: Edit) -> int:
        return self._status(edit.line)

    def edits(self, edits: memoryview) -> Tuple[int, int]:
        for done, at in enumerate(range(0, len(edits), 4)):
            edit = Edit(*edits[at : at + 4])
            # One by one: the program would go on after an edit that it refuses.
            status = edit.is_none or self.edit(edit)
            if status:
                return done, status
        return len(edits) // 4, 0

    def append(self, row: bytes) -> int:
        return self._status("+ " + row.decode())

    def value(self, frame: int, literal: int) -> int:
        return _value(self._ask(f"v {frame} {literal}"))

    def values(self, cells: memoryview, room: memoryview) -> None:
        self._ask_all((f"v {cells[at]} {cells[at + 1]}" for at in range(0, len(cells), 2)), room)

    def row(self, frame: int, literals: memoryview, room: memoryview) -> None:
        self._ask_all((f"v {frame} {literal}" for literal in literals), room)

    def _ask_all(self, lines: Iterable[str], room: memoryview) -> None:
        room[:] = bytes(map(_value, self.script([*lines])))

    def replace(self, rows: bytes) -> int:
        file, _ = self._ended()
        self._begin(file, rows)
        return 0

    def variables(self) -> int:
        return self._variables

    def frames(self) -> int:
        return self._frames

    def trace(self) -> bytes:
        return self._text("t")

    def unrolled(self) -> bytes:
        return self._text("u")

    def saved(self) -> Tuple[bytes, bytes]:
        file, rows = self._ended()
        self._begin(file, rows)
        return file, rows

    def _ended(self) -> Tuple[bytes, bytes]:
        """The circuit and the rows that the program writes as it ends."""
        self._lines.close()
        self._replies.read()
        if self.process.wait() != 0:
            self._fail()
        file, rows = (path.read_bytes() for path in self._kept)
        self.close()
        return file, rows

    def close(self) -> None:
        try:
            self._lines.close()
        except BrokenPipeError:
            pass
        self._replies.close()
        self.process.wait()
        self._folder.cleanup()
        self._errors.close()

    def __del__(self) -> None:
        if hasattr(self, "process") and self.process.returncode is None:
            self.close()


def _fault(reply: str) -> int:
    """The number of a reply `no`, or 0."""
    return int(reply[len("no "):]) if reply.startswith("no ") else 0


def _value(reply: str) -> int:
    """The value that is the reply to a question."""
    return FAULT + _fault(reply) if _fault(reply) else LETTERS.index(reply)
