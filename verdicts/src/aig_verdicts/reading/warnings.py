"""What Yosys warns of. Some warnings say no more than the source does: they are notes. Each other one says that the
netlist may not be that of the source, and stops the run."""

from __future__ import annotations

import re
from typing import Collection, Iterator, List, NamedTuple, Pattern, Sequence

_PLACE = re.compile(r"(?:sources/)?(?P<place>[^\s:]+:\d+): (?P<text>.*)", re.DOTALL)
_COPIES = re.compile(r"\bsources/")


class Known(NamedTuple):
    """A warning, and why the netlist is that of the source all the same."""

    text: Pattern[str]
    why: str


def _known(text: str, why: str) -> Known:
    return Known(re.compile(text, re.DOTALL), why)


# The netlist is that of the source. Such a warning is a note.
HARMLESS: Sequence[Known] = (
    # what the parser says
    _known(r"Literal has a width of \d+ bit, but value requires \d+ bit.*", "the standard cuts the value off, too"),
    _known(r"Yosys has only limited support for tri-state logic.*", "a gate reads z as x; two drivers are rejected"),
    _known(r"Encountered `translate_off' comment!.*", "the comment says that what follows is for simulations alone"),
    _known(r"Encountered `(full|parallel)_case' comment!.*", "it is the attribute of that name"),
    _known(r"SystemVerilog does not allow \"restrict\" without \"property\".*", "it is read as `restrict property`"),
    _known(r"Path delay expressions beyond rise/fall not currently supported.*", "no delay is in the netlist"),
    # what becomes of expressions
    _known(r"Identifier `\\[A-Za-z_]\w*' is implicitly declared", "it is a wire of one bit, as the standard says"),
    _known(r"Range (\[-?\d+:-?\d+\] )?(select )?(\[-?\d+:-?\d+\] )?(select )?out of bounds on signal.*",
           "a bit that is not there is x when it is read, and nothing when it is written"),
    _known(r"Ignoring assignment to constant bits.*", "these are bits out of range, and a write of them does nothing"),
    _known(r"converting real value \S+ to binary .*", "it is rounded as the standard says"),
    _known(r"wire '\S+' is assigned in a block at .*", "it is read as the register that it has to be"),
    _known(r"reg '\S+' is assigned in a continuous assignment at .*", "a variable may have one continuous assignment"),
    _known(r"Ignoring call to system task .*", "it writes to a file or a terminal"),
    _known(r"System task `\$(display|write)\w*' outside initial.* block is unsupported", "it writes to a terminal"),
    _known(r"Replacing memory \S+ with list of registers\..*", "each word is a register, and an address chooses one"),
    _known(r"Deep recursion in AST simplifier.*", "it says why Yosys may crash, and a crash stops the run"),
    # what passes do
    _known(r"Resizing cell port .*", "the value is made wider with its sign, or cut off, as the standard says"),
    _known(r"Wire \S+ .*is used but has no driver", "it is any value; wiring.py looks at wires of Yosys' own"),
    _known(r"Wire \S+ is used but has no driver", "the same, for a whole wire"),
    _known(r"Treating (undriven bit|a total of) .* like \$anyseq", "a wire without a driver is any value"),
    _known(r"Selection \".*\" did not match any (module|object)", "a pass of the script had nothing to do"),
)

# Others look at these, and stop the run or mend the netlist: they are no notes.
LOOKED_AT: Sequence[Known] = (
    _known(r"Complex async reset for dff .*", "processes.py keeps the order of the source"),
    _known(r"Async reset value .* is not constant!?", "processes.py rejects a register that is loaded so"),
    _known(r"found logic loop in module .*", "wiring.py finds the loops that are left among gates"),
)


class Said(NamedTuple):
    """A warning as the user reads it: the place in the source, or nothing, and the text."""

    place: str
    text: str

    @property
    def line(self) -> str:
        return f"{self.place}: Yosys: {self.text}" if self.place else f"Yosys: {self.text}"


def said(warning: str) -> Said:
    match = _PLACE.fullmatch(warning)
    place, text = (match["place"], match["text"]) if match else ("", warning)
    return Said(place, _COPIES.sub("", text.split("\n")[0]).rstrip(":"))


def is_one_of(known: Sequence[Known], warning: str) -> bool:
    match = _PLACE.fullmatch(warning)
    text = match["text"] if match else warning
    return any(it.text.fullmatch(text) for it in known)


def differing(warnings: Sequence[str], own: Collection[str] = ()) -> Iterator[str]:
    """The warnings that say that the netlist may not be that of the source. `own` has the places where the source
    itself warns."""
    for warning in warnings:
        if not is_one_of(HARMLESS, warning) and not is_one_of(LOOKED_AT, warning) and said(warning).place not in own:
            yield said(warning).line


def shown(warnings: Sequence[str]) -> List[str]:
    """The warnings that are notes, each once."""
    return list(dict.fromkeys(said(it).line for it in warnings if not is_one_of(LOOKED_AT, it)))
