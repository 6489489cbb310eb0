"""An assertion as Verilog: an immediate one in a block at its clock, and a register with a bit for each state that
some attempt may be in."""

from __future__ import annotations

import re
from dataclasses import dataclass, field
from typing import Callable, Dict, List, Set

from .defaults import Defaults
from .history import History
from .known import Known
from .machine import Leaf, Machine, Tree, of_cover, of_property
from .model import Item
from .properties import Spec
from .terms import TooMany
from .truth import both, either
from .words import Rejected, text_of

# So many parts the text of one assertion may have.
MOST_PARTS = 100_000


@dataclass
class Names:
    """The names that are taken: those of the sources, and those that were added."""

    taken: Set[str] = field(default_factory=set)

    def fresh(self, name: str) -> str:
        found, count = name, 1
        while found in self.taken:
            count += 1
            found = f"{name}_{count}"
        self.taken.add(found)
        return found


@dataclass(frozen=True)
class Place:
    """Where an assertion is.

    lines         how many line ends it has
    is_statement  whether it is all of a branch of a `generate`
    """

    lines: int
    is_statement: bool


class Immediate:
    """The text of an assertion. If the design has several clocks, `disable iff` is looked at between edges, too."""

    def __init__(self, item: Item, spec: Spec, known: Known, defaults: Defaults, names: Names):
        self._item, self._spec, self._known, self._names = item, spec, known, names
        self._machine = self._made()
        self._parts = 0
        self._count = len(self._machine.states) - 1
        self._texts: Dict[str, str] = {}
        label = re.sub(r"\W", "_", item.label.lstrip("\\"))
        self._stem = label or f"line_{item.body[0].line}"
        self._pending = names.fresh(f"{self._stem}_pending") if self._count else ""
        self._begun = names.fresh(f"{self._stem}_begun")
        self._history = History(known.module, defaults, spec.clock.text, self._begun, known.need)
        self._bits: List[str] = []

    @property
    def is_reset(self) -> bool:
        """Whether its `disable iff` drops what is pending."""
        return bool(self._count and self._spec.disable)

    def _made(self) -> Machine:
        value, here = self._spec.value, self._item.body[0]
        terms = self._known.terms
        if self._item.kind != "cover":
            return of_property(self._spec.reader.property_of(value), terms)
        if not value.is_sequence:
            raise Rejected(here, "a cover of a property, not of a sequence")
        if terms.nullable(value.term):
            raise Rejected(here, "a cover of a sequence that can be empty")
        if not self._spec.reader.derivatives.can_match(value.term):
            raise Rejected(here, "a cover of a sequence that nothing can match")
        return of_cover(value.term, terms)

    def text(self, place: Place, is_one_clock: bool) -> str:
        """The Verilog of it, on as many lines."""
        off = f"|({text_of(self._spec.disable)})" if self._spec.disable else ""
        between = self._names.fresh(f"{self._stem}_off") if off and self._count and not is_one_clock else ""
        self._bits = ["1'b1", *(both(f"{self._pending}[{k}]", *([f"!{between}"] if between else []))
                                for k in range(self._count))]
        following = [self._any(lambda leaf, it=state: it in leaf.states)  # type: ignore[misc]
                     for state in self._machine.states[1:]]
        check = self._check(place.lines)
        clock = f"always @({self._spec.clock.text})"
        if self._pending:
            check = f"begin {self._pending} <= {{{', '.join(reversed(following))}}}; {check} end"
        if off:
            check = f"if ({off}) {f'{self._pending} <= 0' if self._pending else ''}; else {check}"
        parts = [*self._guards(), *self._registers(), *self._between(between, off), f"{clock} {check}"]
        made = " ".join(parts)
        return f"begin {made} end" if place.is_statement and len(parts) > 1 else made

    def _guards(self) -> List[str]:
        """What stops Yosys where a constant has another value than the one that was taken."""
        needed = dict.fromkeys(self._known.needed)
        return [f"if ({{{text}}} != {value}) constant_of_an_assertion_is_not_{value} {name} ();"
                for (text, value), name in ((it, self._names.fresh("differs")) for it in needed)]

    def _registers(self) -> List[str]:
        found, depth = [], self._history.depth
        if self._pending:
            found.append(f"reg [{self._count - 1}:0] {self._pending} = 0;")
        if depth:
            found.append(f"reg [{depth - 1}:0] {self._begun} = 0;")
            found.append(f"always @({self._spec.clock.text}) {self._begun} <= {{{self._begun}, 1'b1}};")
        return found

    def _between(self, name: str, off: str) -> List[str]:
        """A register that keeps between edges that the assertion was off."""
        if not name:
            return []
        wire = self._names.fresh(f"{name}_now")
        edges = f"{self._spec.clock.text} or posedge {wire}"
        return [f"wire {wire} = {off}; reg {name} = 0;",
                f"always @({edges}) if ({wire}) {name} <= 1; else {name} <= 0;"]

    def _check(self, lines: int) -> str:
        """The immediate assertion."""
        kind, label = self._item.kind, self._item.label
        hit = self._any(lambda leaf: leaf.is_hit)
        heading = f"{label}{' ' if label.startswith(chr(92)) else ''}: " if label else ""
        if kind == "cover":
            return f"{heading}cover ({hit}{chr(10) * lines});"
        right = "1'b1" if hit == "1'b0" else f"!{hit}" if hit.startswith("(") else f"!({hit})"
        kind = "assume" if kind == "restrict" else kind
        check = f"{heading}{kind} ({right}{chr(10) * lines});"
        asked = self._any(lambda leaf: leaf.is_asked)
        if asked == "1'b0":
            raise Rejected(self._item.body[0], "begins a property that nothing can ask")
        return check if kind != "assert" or asked == "1'b1" else f"if ({asked}) {check}"

    # -- trees as text

    def _any(self, chosen: Callable[[Leaf], bool]) -> str:
        """That some state that is on comes to a leaf of these."""
        pairs = zip(self._bits, self._machine.trees)
        return either(*[both(bit, self._of_tree(tree, chosen)) for bit, tree in pairs])

    def _of_tree(self, tree: Tree, chosen: Callable[[Leaf], bool]) -> str:
        self._parts += 1
        if self._parts > MOST_PARTS:
            raise TooMany
        if isinstance(tree, Leaf):
            return "1'b1" if chosen(tree) else "1'b0"
        true, false = self._of_tree(tree.true, chosen), self._of_tree(tree.false, chosen)
        if true == false:
            return true
        atom = self._atom(tree.atom)
        if true == "1'b1":
            return either(atom, false)
        if false == "1'b0":
            return both(atom, true)
        if true == "1'b0":
            return both(f"!{atom}", false)
        return either(f"!{atom}", true) if false == "1'b1" else f"({atom} ? {true} : {false})"

    def _atom(self, name: str) -> str:
        if name not in self._texts:
            self._texts[name] = self._history.truth(self._known.atoms[name]).true
        return self._texts[name]


def said_too_many(item: Item) -> Rejected:
    return Rejected(item.body[0], "begins a property with too many states: bound its ranges")

