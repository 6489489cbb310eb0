"""Named properties and sequences with the arguments of their uses."""

from __future__ import annotations

from dataclasses import replace
from typing import Dict, List

from .model import Named
from .words import Kind, Rejected, Word, split


def with_arguments(named: Named, use: List[Word]) -> Named:
    """A property or a sequence with the arguments of a use in place of its parameters. It has the place of the use."""
    here, given = use[0], _given(named, use)
    values: Dict[str, List[Word]] = {}
    for name, default in named.parameters:
        value = given.pop(name, default)
        if value is None:
            raise Rejected(here, f"the argument {name} is missing")
        values[name] = value
    if given:
        raise Rejected(here, f"has no argument {next(iter(given))}")
    body: List[Word] = []
    for k, word in enumerate(named.body):
        if word.text in values and not (k and named.body[k - 1].text == "."):
            value = [replace(it, line=here.line, file=here.file) for it in values[word.text]]
            brackets = [replace(here, kind=Kind.SIGN, text=it) for it in "()"] if len(value) > 1 else []
            body += [*brackets[:1], *value, *brackets[1:]]
        else:
            body.append(word)
    return Named(here, [], body)


def _given(named: Named, use: List[Word]) -> Dict[str, List[Word]]:
    """The arguments of a use, by their names."""
    found: Dict[str, List[Word]] = {}
    for k, part in enumerate(split(use[2:-1]) if len(use) > 2 else []):
        if part and part[0].text == "." and len(part) > 1:
            found[part[1].text] = part[3:-1] if len(part) > 2 else part[1:2]
        elif part:
            if k >= len(named.parameters):
                raise Rejected(use[0], "has fewer arguments")
            found[named.parameters[k][0]] = part
    return found
