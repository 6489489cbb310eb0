"""Libraries that stand before the C library's calls and let some of them fail."""

import os
import subprocess
import tempfile

from library import supervised
from library.runs import TESTS, LeftOut, contents, write

# The libraries, and the calls that each stands before.
CALLS = {
    "refuse_allocation": ("malloc", ),
    "refuse_call": ("open", "read", "write", "file", "fsync", "fchmod", "fchown", "statx", "realpath", "rename",
                    "unlink",
                    "close"),
}


class Refusing:
    """The program beneath such a library (refuse_allocation.c or refuse_call.c, which say what the settings mean)."""

    def __init__(self, program, name):
        self.program = program
        self.library = os.path.abspath(f"{name}.so")
        if not compiles("-shared", "-fPIC", "-O1", "-o", self.library, f"{TESTS}/faults/{name}.c", "-ldl"):
            raise LeftOut("no C compiler for the runs whose calls fail")
        self.ask(name)

    def ask(self, name):
        """Asks a program of its own whether the library stands before each of its calls: the program that is tested may
        hide that a call failed."""
        with tempfile.TemporaryDirectory() as room:
            is_built = compiles("-O0", "-o", f"{room}/one", f"{TESTS}/faults/calls_one.c")
            for call in CALLS[name]:
                environment = self.environment(CALL=call, REFUSE=1, AFTER=1)
                if not is_built or supervised.run([f"{room}/one"], cwd=room, env=environment, check=False,
                                                  stdout=subprocess.DEVNULL).returncode != 0:
                    raise LeftOut(f"no library can stand before {call} here")

    def environment(self, **settings):
        """The environment of a run where the library has these settings."""
        settings = {name: str(value) for name, value in settings.items()}
        return {**os.environ, "LD_PRELOAD": self.library, **settings}

    def run(self, *words, input=None, **settings):
        """How the run ended where the library has these settings."""
        given = {} if input is None else {"input": input}
        return self.program.run(*words, env=self.environment(**settings), **given)

    def counted(self, *words, **settings):
        """The same, and how many calls there were that could have failed."""
        write("calls", "0")
        ended = self.run(*words, COUNTED=os.path.abspath("calls"), **settings)
        return ended, int(contents("calls"))


def compiles(*words):
    """Whether there is a C compiler that compiles this."""
    try:
        return supervised.run(["cc", *words], capture_output=True, check=False).returncode == 0
    except FileNotFoundError:
        return False
