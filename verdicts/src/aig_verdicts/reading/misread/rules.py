"""What Yosys reads in another way than the standard of Verilog has it, without a word. The tree of the sources shows
each place, and the message says how to write it instead."""

from __future__ import annotations

from typing import Callable, Collection, Iterator, List, NamedTuple, Optional, Sequence, Set, Tuple

from . import counted, evaluated, given, loops, memories, named_types, order, overridden, written
from .scope import Scope
from ..text.tree import modules, nodes


class Rule(NamedTuple):
    """What to look for in a module, and what to say of it."""

    finds: Callable[[Scope], Iterator[str]]
    said: str


def numbered_upwards(scope: Scope) -> Iterator[str]:
    """Arrays of instances such as `u[0:3]`: Yosys gives the last instance the name of the first."""
    for node in scope.module.all():
        if node.kind == "CELLARRAY" and node.parts[0].kind == "RANGE" and len(node.parts[0].parts) == 2:
            first, last = (scope.value(it) for it in node.parts[0].parts)
            if first is not None and last is not None and first < last:
                yield node.line


_REJECTED = (
    Rule(given.lost_results,
         "a task has an `inout` argument, and Yosys leaves out what it gives back: make it an input and an output"),
    Rule(given.narrow_arguments,
         "a function or task gets a constant expression that is narrower than 32 bits, and Yosys leaves out the width"
         " of its input: name the value, as with a `wire`"),
    Rule(given.narrow_items,
         "an item of a `case` is a constant expression that is narrower than the selector or another item, and Yosys "
         "leaves out their width: write the value, or name it"),
    Rule(order.late_before_blocking,
         "a block writes a variable with <= and then with =. The value of <= counts in the end, and Yosys takes the "
         "last one: use one of the two for each variable"),
    Rule(loops.changed_counters,
         "the body of a loop changes the variable of the loop, and Yosys leaves that out: count with another variable"),
    Rule(loops.odd_counters,
         "the width or the sign of a loop's variable matters here, and Yosys takes those of its first value and step: "
         "declare it as `integer`, or give it a value and a step of its width"),
    Rule(written.below,
         "a part `[i -: n]` may begin below bit 0, and Yosys then writes none of it: use an index that is signed, or "
         "never below n - 1"),
    Rule(written.of_words,
         "the index of a part of a memory's word is signed, or may be below the word, and Yosys then writes other "
         "bits: read the word, change it, and write it whole"),
    Rule(written.of_ascending_words,
         "a part of a memory's word is written that counts its bits upwards, as `[0:7]`, and Yosys writes other bits:"
         " declare the words as `[7:0]`"),
    Rule(written.narrow,
         "a value is narrower than the part that it is written to, or a shift or a division in it needs a width, and "
         "Yosys computes it in another one than the standard: give the value a `wire` of its width"),
    Rule(written.of_latches,
         "a latch is written in part, and Yosys then writes other bits: declare it as `[n:0]`, and write it below an "
         "index without sign"),
    Rule(written.in_braces,
         "braces are written with a part at a variable index, and Yosys writes something else: write that part alone"),
    Rule(written.also_in_braces,
         "braces are written with <= that have a variable of which the block also writes a part at a variable index, and "
         "Yosys stops there: write that variable alone"),
    Rule(evaluated.endless,
         "a function calls itself, and gets no constant: Yosys would unfold it without end"),
    Rule(memories.filled_before,
         "a file is read into a memory after its words got values, and Yosys keeps these: read the file first"),
    Rule(evaluated.wildcards,
         "a function with a `casez` or `casex` gets constants, and Yosys compares its wildcards as if they were "
         "values: write it with `if`"),
    Rule(evaluated.signed_parts,
         "a function that gets constants takes a bit or a part of a signed variable, and Yosys takes it for a signed "
         "value: write it in braces, as `{v[0]}`"),
    Rule(evaluated.ascending_parts,
         "a function that gets constants reads or writes a part of a variable that counts its bits upwards, as `reg "
         "[0:7] v`, and Yosys takes other bits: declare it as `reg [7:0] v`"),
    Rule(evaluated.uneven_cases,
         "a function that gets constants has a `case` whose selector and items have several widths, and Yosys compares "
         "each item alone: give them one width and sign"),
    Rule(evaluated.narrow_calls,
         "a function that gets constants gives another one an expression that is narrower than its input, and Yosys "
         "leaves out the width of the input: give the expression a variable of its width"),
    Rule(evaluated.read_first,
         "a variable or the result of a function that gets constants is read before it is written: it keeps its value "
         "from one call to the next, and Yosys makes it x: write it first"),
    Rule(named_types.packed,
         "a packed array of a named type, and Yosys takes single bits of it: write the range after the name"),
    Rule(named_types.arrays_of_structs,
         "an array of a struct or a union, and Yosys takes its elements for bits: declare it as an array of vectors"),
    Rule(named_types.odd_members,
         "a part of a member of a struct that does not end with bit 0, or counts its bits upwards, and Yosys takes other "
         "bits: declare the member as `[n:0]`"),
    Rule(named_types.signed_enums,
         "an `enum` without a type is signed, and Yosys takes it for one without sign, where that matters: write `enum "
         "logic [n:0]`"),
    Rule(named_types.negative_enums,
         "an `enum` without a type has a negative value, and Yosys reads it as one without sign: write `enum logic "
         "signed [n:0]`"),
    Rule(memories.negative_addresses,
         "a memory has negative addresses, and Yosys reads other words: let the addresses begin with 0"),
    Rule(memories.inner_addresses,
         "an address of a memory of several dimensions may be out of its range, and Yosys then takes a word of "
         "another row: use an index whose width fits, as `i[1:0]`"),
)
_LOST = Rule(
    overridden.lost,
    "inside of an `if` or a `case`, a variable is written with <= after another `if` or `case` that writes it, too, and "
    "this version of Yosys lets the first one count: write it before them, or in an `else`")
_UNTYPED = ("a parameter that is `signed` without a range gets a value without sign, which becomes signed, and Yosys "
            "does not make it so: declare the range of the parameter")
_CONNECTED = ("an expression is narrower than the input port that gets it, and Yosys leaves out the width of the port: "
              "give the port a `wire` of its width")
_COUNTED = ("a loop's variable may get a value that its width or sign cannot hold, and Yosys counts on without them: declare "
            "it as `integer`, or give it a first value and a step of its width")
_NARROW = ("a parameter gets a constant expression that is narrower than the parameter, and Yosys leaves out its "
           "width: give the value a name with that width, as with a `localparam`")
_NOTED = (
    Rule(order.races,
         "a clocked block writes a variable with = that another block reads at the same edge. Verilog does not say "
         "which of them comes first, and the circuit reads the old value"),
    Rule(numbered_upwards,
         "Yosys numbers the instances of an array such as `u[0:3]` from the other end: the names of its signals are "
         "exchanged"),
)


class SourceTree:
    """The modules of a design in the tree of its sources."""

    def __init__(self, lines: Sequence[str], used: Collection[str]):
        self._scopes = [Scope(it) for it in modules(nodes(lines)) if it.kind != "MODULE" or it.name in used]

    def misread(self) -> Iterator[Tuple[List[str], str]]:
        """The places of what is read in another way, and a message."""
        yield from self._found(_REJECTED)
        for finds, said in ((given.untyped_parameters, _UNTYPED), (given.narrow_parameters, _NARROW),
                            (given.narrow_connections, _CONNECTED), (counted.other_values, _COUNTED)):
            found = list(finds(self._scopes))
            if found:
                yield found, said

    def lost(self) -> Iterator[Tuple[List[str], str]]:
        """The places of what some versions of Yosys read in another way, and a message."""
        yield from self._found([_LOST])

    def noted(self) -> Iterator[Tuple[List[str], str]]:
        """The places of what is read in one of several ways, and a note."""
        yield from self._found(_NOTED)

    def _found(self, rules: Sequence[Rule]) -> Iterator[Tuple[List[str], str]]:
        for rule in rules:
            found = [place for scope in self._scopes for place in rule.finds(scope)]
            if found:
                yield found, rule.said


def own_warnings(lines: Sequence[str]) -> Set[str]:
    """The places where the source itself warns, by `$warning`."""
    return {node.line for node in nodes(lines) if node.kind == "TECALL" and node.name == "$warning"}


def first_misread(lines: Sequence[str]) -> Optional[Tuple[List[str], str]]:
    """What Yosys may have stopped at, in any module of a tree."""
    return next(SourceTree(lines, {it.name for it in modules(nodes(lines))}).misread(), None)


def used_modules(design: str) -> Set[str]:
    """The names in the source of the modules of a design in RTLIL. That of a module with other parameters has them too:
    `$paramod\\name\\P=4'0011`, `$paramod$HASH\\name`."""
    names = {line.split(" ", 1)[1] for line in design.split("\n") if line.startswith("module ")}
    return {part for name in names for part in ([name[1:]] if name.startswith("\\") else name.split("\\")[1:])}
