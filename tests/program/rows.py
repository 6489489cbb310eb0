"""Rows: runs on small files, and what each of them writes and says."""

import re

from library.explained import Explained
from library.runs import Ended, contents, input_or_output, refused, write


def data(text):
    return text.encode() if isinstance(text, str) else text


class Rows:
    """The rows of a part, in a folder that has the small circuits."""

    def __init__(self, name, program, tally):
        self.name, self.program, self.tally = name, program, tally
        self.explained = Explained(program)

    def run(self, *words, **settings):
        return self.program.run(*words, **settings)

    def ends(self, name, words, wanted, **files):
        """A row: the run of these arguments, with these files."""
        for file, content in files.items():
            write(file, content)
        words = words.split(" ") if isinstance(words, str) else words
        ended = self.run(*words)
        self.tally.compare(f"{self.name}: {name}", ended, wanted)
        if ended.err:
            again = self.explained.run(*words)
            self.tally.check(f"{self.name}: {name}, explained", explains(again, ended), again)

    def gives(self, name, words, out, status=0, **files):
        self.ends(name, words, Ended(status, data(out), b""), **files)

    def copies(self, name, words, file, **files):
        """The run writes the bytes of this file."""
        self.gives(name, words, contents(file), **files)

    def refuses(self, name, words, text, out="", **files):
        """The run is refused with this text, after what it has written."""
        self.ends(name, words, refused(text, data(out)), **files)

    def fails(self, name, words, part):
        """A file of this part is not there, or cannot be read."""
        self.ends(name, words, input_or_output(part))


def explains(again, ended):
    """Whether a run ends like another one, and lines of an explanation follow its message: each begins with two spaces,
    and a terminal shows each of their bytes as it is."""
    return ((again.status, again.out) == (ended.status, ended.out) and again.err.startswith(ended.err)
            and re.fullmatch(rb"(?:  [ -~]+\n)+", again.err[len(ended.err):]) is not None)
