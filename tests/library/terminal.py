"""A pseudo-terminal."""

import os
import pty
import threading
import tty

from library.runs import Unended
from library.supervised import SECONDS


class Terminal:
    """A terminal that gets and gives each byte as it is. `end` is the end for a program."""

    def __enter__(self):
        self.user, self.end = pty.openpty()
        tty.setraw(self.end)
        self.name, self.seen = os.ttyname(self.end), b""
        self.watcher = threading.Thread(target=self.watch, daemon=True)
        self.watcher.start()
        return self

    def watch(self):
        while True:
            try:
                piece = os.read(self.user, 65536)
            except OSError:  # no program has the terminal any more
                return
            if not piece:
                return
            self.seen += piece

    def close(self):
        """Returns all that programs wrote, once none has the terminal any more."""
        if self.end is not None:
            os.close(self.end)
            self.end = None
            self.watcher.join(SECONDS)
            if self.watcher.is_alive():
                raise Unended(f"a program has the terminal still, after {SECONDS} seconds")
            os.close(self.user)
        return self.seen

    def __exit__(self, *_):
        self.close()
