"""What the reader changes in the preprocessed text before Verilator reads it.

- Names of Verilog that are words of SystemVerilog are escaped.
- `$initstate` becomes a call that the reader knows.
- `assert (x); else` gets `begin` and `end`. A null statement is no action (A.6.10 of IEEE 1800-2017: an action is
  `statement_or_null`, or `[statement] else statement`), so the `else` belongs to an `if` before the assertion. Verilator
  and Icarus Verilog give it to the assertion.
- A cast in brackets, `v[3'(x)]`, becomes `v[(3'(x) | 3'(0))]`. Verilator cuts each index to the bits that it needs, so
  its tree of `v[3'(x)]` is that of `v[x]` if v has 8 bits. But the first index wraps, and the second one is out of range."""

from __future__ import annotations

import re
from typing import List, NamedTuple, Tuple

from .tokens import DIRECTIVE, Token, bracket_of, cast, has_width, null_action, tokens_of

ASSERTIONS = ("assert", "assume", "cover", "restrict")
PACKAGE = "package_of_the_reader"
INITSTATE = "$initstate"


class Changed(NamedTuple):
    """A text, and what to say of its changes."""

    text: str
    notes: List[str]


def changed(text: str) -> Changed:
    """The text, with all changes but escaped names."""
    tokens = tokens_of(text)
    inserted: List[Tuple[int, str]] = []
    notes: List[str] = []
    for k, it in enumerate(tokens):
        if it.text in ASSERTIONS:
            end = null_action(tokens, k + 1)
            if end is not None and end + 1 < len(tokens) and tokens[end + 1].text == "else":
                inserted += [(tokens[_label(tokens, k)].start, "begin "), (tokens[end].end, " end")]
                notes.append(f"{place(text, it.start)}: `else` after `{it.text} (..);` belongs to the `if`, as IEEE 1800"
                             " says; Verilator and Icarus Verilog give it to the assertion")
        elif it.text.endswith("'") and k + 1 < len(tokens) and tokens[k + 1].text == "(":
            inserted += _cast(text, tokens, k)
        elif it.text == INITSTATE:
            inserted.append((it.start, "$isunknown(1'b1) "))
    for at, new in sorted(inserted, reverse=True):
        text = text[:at] + new + text[at + (len(INITSTATE) if new.startswith("$") else 0):]
    if any(PACKAGE in new for _, new in inserted):
        text = f"package {PACKAGE}; logic signed zero = 1'sb0; endpackage\n" + text
    return Changed(text, notes)


def _label(tokens: List[Token], k: int) -> int:
    """The label of an assertion at token k, or the assertion."""
    return k - 2 if k > 1 and tokens[k - 1].text == ":" and re.match(r"[A-Za-z_\\]", tokens[k - 2].text) else k


def _cast(text: str, tokens: List[Token], k: int) -> List[Tuple[int, str]]:
    """What to insert around a cast in brackets."""
    bracket = bracket_of(tokens, k)
    if bracket is None:
        return []
    first, end = cast(tokens, k)
    zero = f"{PACKAGE}::zero" if has_width(tokens, bracket) else "0"
    return [(tokens[first].start, "("), (tokens[end].end, f" | {text[tokens[first].start:tokens[k].end]}({zero}))")]


def place(text: str, at: int) -> str:
    """The file and the line of a position of a text."""
    file, number = "", 1
    for line in text[:at].split("\n"):
        found = DIRECTIVE.fullmatch(line.strip())
        file, number = (found[2], int(found[1])) if found else (file, number + 1)
    return f"{file}:{number - 1}"


def escaped(text: str, name: str) -> str:
    """The text, with a name escaped that is a word of SystemVerilog. Only files of Verilog change."""
    made, is_verilog = [], False
    for line in text.split("\n"):
        found = DIRECTIVE.fullmatch(line.strip())
        is_verilog = found[2].endswith(".v") if found else is_verilog
        pattern = r"(?<![\w\\$'])%s\b(?!\s*')" % re.escape(name)
        made.append(line if found or not is_verilog else re.sub(pattern, lambda it: "\\" + str(it[0]) + " ", line))
    return "\n".join(made)
