"""From a task to a verdict that `aig` printed. `decide` is a function of its task alone, so any executor may run it, in
this process or on another machine."""

from __future__ import annotations

import tempfile
import zlib
from contextlib import contextmanager
from dataclasses import replace
from pathlib import Path
from typing import Iterator, Optional, Union

from aig.errors import AigError, Crashed
from aig.tools import Clock, Stop, Stopped, ToolFailed
from ..audit.checked import Wrong
from .search import Search
from .sent import Sent
from .task import Found, Task


def decide(task: Task, stop: Optional[Stop] = None) -> Found:
    """Finds the verdict of a task. A crash of a tool or of `aig`, a full disk or a rejected file makes a note, and no
    exception.
    What is known when the search ends stays, also where the user stops it."""
    from .narrowing import Narrowing  # it decides again what is left of a circuit

    clock = Clock()
    found = Found(task.position)
    with noted(found):
        if task.circuit is None:
            raise ToolFailed("the task came without its circuit")
        circuit = task.circuit.circuit()
        with tempfile.TemporaryDirectory(prefix="aig-verdicts-") as folder:
            about = (circuit, Path(folder), stop or Stop(), found)
            search: Union[Narrowing, Search] = Narrowing(task, *about) if task.narrow else Search(task, *about)
            with noted(found):
                search.search()
            search.keep()
    found.seconds = clock()
    return found


@contextmanager
def noted(found: Found) -> Iterator[None]:
    """Makes a note of what ends a search."""
    try:
        yield
    except Stopped:
        found.stopped = True
    except (AigError, Crashed, ToolFailed, Wrong, OSError, zlib.error, MemoryError) as error:
        note = f"{type(error).__name__}: {(str(error).splitlines() or [''])[0]}"
        if note not in found.notes:
            found.notes.append(note)


def decide_about(circuit: Sent, task: Task) -> Found:
    """The same, where the circuit came by another way than its tasks."""
    return decide(replace(task, circuit=circuit))
