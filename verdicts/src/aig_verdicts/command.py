"""The command `aig-verdicts`: each verb is read when it is asked for, so a re-check begins with few files."""

from __future__ import annotations

import argparse
import io
import signal
import sys
from importlib import import_module
from typing import Callable, List, Optional

from aig.program import program
from aig.errors import AigError, Crashed
from .arguments import parser, with_verb
from .audit.checked import Wrong
from .audit.decisions import INTERRUPTED, OPEN, REJECTED, UNREADABLE
from .audit.recheck import Unanswered
from .audit.table import plain
from .notes import tell
from aig.tools import Stop, Stopped, ToolFailed, version

# What is said where the time of the whole run is over.
TOTAL = "the time of --total is over"
# What ends a run.
SIGNALS = (signal.SIGINT, signal.SIGTERM)
# The verbs: the module and the function of each.
VERBS = {"run": (".running", "run"), "demo": (".running", "demo"), "recheck": (".rechecking", "again"),
         "cores": (".running", "cores"), "compare": (".compare.command", "compare"), "replay": (".replay.command", "replay")}


def _ended(call: Callable[[argparse.Namespace, Stop], int], words: argparse.Namespace, stop: Stop) -> int:
    """The exit status of a call, whatever it raises. An `aig` that ended without an answer leaves things open; ^C at a
    terminal ends it, too."""
    try:
        return call(words, stop)
    except (Stopped, KeyboardInterrupt):
        tell(TOTAL if stop.is_late else "stopped")
        return OPEN if stop.is_late else INTERRUPTED
    except BrokenPipeError:
        sys.stdout = open("/dev/null", "w")  # Python would flush the old one, and complain
        return UNREADABLE
    except OSError as error:
        tell(str(error))
        return UNREADABLE
    except (Crashed, Unanswered) as error:
        tell("stopped" if stop.stopped else str(error))
        return INTERRUPTED if stop.stopped else OPEN
    except (ToolFailed, Wrong, AigError) as error:
        first, *others = str(error).split("\n")
        tell(first)
        for line in others:  # it may be the sender's: it does not look as a line of this program
            print(f"    {plain(line)}", file=sys.stderr)
        return REJECTED


def main(arguments: Optional[List[str]] = None) -> int:
    for stream in (sys.stdout, sys.stderr):
        if isinstance(stream, io.TextIOWrapper):  # a name may have letters that the terminal has not
            stream.reconfigure(errors="backslashreplace")
    reader = parser()
    words = reader.parse_args(with_verb(sys.argv[1:] if arguments is None else arguments))
    stop = Stop()
    if words.version:
        print(version(program(), stop))
        return 0
    if words.verb is None:
        reader.error("run, demo, recheck, cores, compare or replay?")
    if words.verb == "run" and not words.files and not words.lists:
        reader.error("run: which design? Name its files, or lists of them with -f")
    # A signal that was ignored at the start, as in the background of a shell, stays so.
    before = {number: signal.getsignal(number) for number in SIGNALS}
    taken = [number for number, handler in before.items() if handler is not signal.SIG_IGN]
    for number in taken:
        signal.signal(number, stop)
    try:
        module, name = VERBS[words.verb]
        return _ended(getattr(import_module(module, __package__), name), words, stop)
    finally:
        for number in taken:
            signal.signal(number, signal.SIG_IGN if stop.stopped else before[number])
