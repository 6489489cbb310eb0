"""The functions between the proved clauses and the system: `main`, and those that ask the system for what a clause
speaks of. That is the arguments, a file, standard input or output, or whether one of these is a terminal. A file whose
name is in the program is none that a command gets.

Beside them, the words by which generic code could tell two types apart (docs/PROVED.md, "Trusted")."""

from __future__ import annotations

import re
from typing import Iterator, List, Tuple

from sources.clauses import parts
from sources.exports import FUNCTION, crates, modules

PROGRAM = "aig"
ASKS = re.compile(r"\benv::args\(|\bfs::open\(rt, (?!\")|\bio::writer\(|\brt\.(?:reader|stdin|stdout)\(")

# Their arguments are types, or values of any type.
TELLS = re.compile(r"\b(?:(?:size|align)_of(?:_val)?|type_name(?:_of_val)?|type_id|needs_drop)(?:::<|\()|\bTypeId\b|"
                   r"\bdefault fn\b")


def sources() -> Iterator[Tuple[str, str]]:
    """Yields the files of the program and of its libraries, with their texts without comments."""
    for crate in (PROGRAM, *crates()):
        for module, text in modules(crate).items():
            yield f"{crate}/src/{module.replace('::', '/')}.rt", re.sub(r"(?m)//.*$", lambda at: " " * len(at[0]), text)


def telling() -> List[str]:
    """Returns the lines of files by which code could tell types apart."""
    return [f"{file}: {line.strip()}" for file, text in sources() for line in text.split("\n") if TELLS.search(line)]


def bodies(text: str) -> Iterator[Tuple[str, List[str]]]:
    """Yields the functions of a text without comments, each with the lines of its body."""
    for at in re.finditer(r"(?m)^.*$", text):
        found = FUNCTION.match(at[0])
        if found:
            body = parts(text, at.start() + len(found[1]))[2]
            yield found[3], [line.rstrip() for line in body[1:-1].split("\n") if line.strip()]


def code() -> List[Tuple[str, str, List[str]]]:
    """Returns these functions, each with its file and the lines of its body."""
    return [(file, name, lines) for file, text in sources() if not file.startswith("aig_c/")
            for name, lines in bodies(text)
            if file.startswith(f"{PROGRAM}/") and name == "main" or ASKS.search("\n".join(lines))]
