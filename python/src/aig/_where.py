"""Where the program `aig` is, and the library for C."""

from __future__ import annotations

import os
from typing import Optional


def is_program(name: str) -> bool:
    """Whether a path is that of a program, or a name is that of one on the path."""
    if os.path.dirname(name):
        return os.path.isfile(name) and os.access(name, os.X_OK)
    import shutil

    return shutil.which(name) is not None


def program() -> str:
    """The path of the program: `$AIG_PROGRAM`, else the one that pip installed with this package, else the first `aig`
    on the path."""
    named = os.environ.get("AIG_PROGRAM")
    if named:
        if not is_program(named):
            raise FileNotFoundError(f"there is no program {named}, which AIG_PROGRAM names")
        return named
    import shutil  # these are slow to read
    import sysconfig

    installed = os.path.join(sysconfig.get_path("scripts"), "aig")
    found = installed if os.path.exists(installed) else shutil.which("aig")
    if not found:
        raise FileNotFoundError("there is no program aig: set AIG_PROGRAM, or put aig on the path")
    return found


def library() -> Optional[str]:
    """The path of the library: `$AIG_LIBRARY`; else the one that pip installed with this package, unless AIG_PROGRAM
    names another program; else the one beside the program, as `make install` or `make lib` put it there. None if there
    is none, or if AIG_LIBRARY is empty."""
    named = os.environ.get("AIG_LIBRARY")
    if named is not None:
        if named and not os.path.isfile(named):
            raise FileNotFoundError(f"there is no library {named}, which AIG_LIBRARY names")
        return os.path.abspath(named) if named else None
    import shutil

    folder = os.path.dirname(os.path.realpath(shutil.which(program()) or ""))
    places = [os.path.join(folder, *names) for names in (("..", "lib", "libaig.so.0"), ("lib", "libaig.so"))]
    if not os.environ.get("AIG_PROGRAM"):
        places.insert(0, os.path.join(os.path.dirname(os.path.abspath(__file__)), "libaig.so"))
    return next((place for place in places if os.path.isfile(place)), None)
