"""Finds modules, and in them the clocks, properties and assertions."""

from __future__ import annotations

from typing import Dict, List, Optional, Tuple

from .constants import constant
from .edits import Edit
from .model import KINDS, Clock, Item, Module, Named, clock_of
from .parameters import Given
from .procedures import procedural
from .statements import after_action, after_statement, after_word, semicolon
from .words import CLOSE, OPEN, Rejected, Word, closing, split, text_of

_MODULES = ("module", "macromodule", "interface", "program")
_ENDS = ("endmodule", "endinterface", "endprogram")
_PROCEDURES = ("always", "always_ff", "always_comb", "always_latch", "initial", "final")
_MESSAGES = frozenset({"$error", "$display", "$fatal", "$info", "$warning", "$write", "$stop", "$finish"})
_DIRECTIONS = frozenset({"local", "input", "output", "inout"})
_FORMALS = frozenset({"untyped", "sequence", "property"})


class Scanned:
    """What is in the words of all files.

    modules   by their names
    binds     the target of each `bind`, the instance as text, and its word
    edits     what becomes of words that need no translation
    rejected  what is not understood
    """

    def __init__(self, words: List[Word], given: Optional[Given] = None):
        self._words, self._given = words, given
        self.modules: Dict[str, Module] = {}
        self.binds: List[Tuple[str, str, Word]] = []
        self.edits: List[Edit] = []
        self.rejected: List[Rejected] = []
        self._module: Optional[Module] = None
        self._all()

    def _all(self) -> None:
        at = 0
        while at < len(self._words):
            try:
                at = self._next(at)
            except Rejected as error:
                self.rejected.append(error)
                at += 1
            except (IndexError, StopIteration):
                self.rejected.append(Rejected(self._words[min(at, len(self._words) - 1)], "the file ends too early"))
                return

    def _next(self, at: int) -> int:
        """What comes after the words that begin here."""
        words, text, module = self._words, self._words[at].text, self._module
        if module is None:
            if text in _MODULES and words[at + 1].is_name:
                return self._begin(at)
        elif text in _ENDS:
            return self._end(module, at)
        if text == "bind":
            return self._bind(at)
        if text in ("function", "task"):
            return self._function(at)
        if text in ("checker", "package", "class"):
            return self._without_assertions(at)
        if text in _PROCEDURES:
            after = after_statement(words, at + 1)
            self.edits += procedural(words, at, after, module)
            return after
        return at + 1 if module is None else self._item(module, at)

    def _begin(self, at: int) -> int:
        words = self._words
        name = words[at + 2] if words[at + 1].text in ("automatic", "static") else words[at + 1]
        if name.text in self.modules:
            raise Rejected(name, "a module of this name was read before")
        self._module = Module(name.text, at)
        end = semicolon(words, at)
        for k in range(at, end):
            if words[k].text in ("parameter", "localparam"):
                self._constants(self._module, k, end)
        return end + 1

    def _end(self, module: Module, at: int) -> int:
        module.end = at
        self.modules[module.name], self._module = module, None
        return at + 1

    def _function(self, at: int) -> int:
        before = [it.text for it in self._words[max(at - 3, 0):at]]
        is_outside = any(it in ("import", "export", "extern") for it in before)
        if is_outside:
            return semicolon(self._words, at) + 1
        return after_word(self._words, at, "end" + self._words[at].text)

    def _without_assertions(self, at: int) -> int:
        words = self._words
        end = after_word(words, at, "end" + words[at].text)
        for k in range(at, end):
            if words[k].text == "property" and words[k - 1].text in KINDS:
                raise Rejected(words[k - 1], f"an assertion in a {words[at].text}")
        return end

    def _item(self, module: Module, at: int) -> int:
        words, text, after = self._words, self._words[at].text, self._words[at + 1].text
        if text in ("property", "sequence") and words[at - 1].text not in KINDS:
            return self._declared(module, at)
        if text == "default" and after == "clocking":
            return self._default_clocking(module, at)
        if text == "default" and after == "disable":
            end = semicolon(words, at)
            if words[at + 2].text != "iff" or module.disable is not None:
                raise Rejected(words[at], "a second one, or without iff")
            module.disable = words[at + 3:end]
            return self._blank(at, end)
        if text in ("clocking", "global") and words[at - 1].text != ".":
            return self._clocking(module, at, False)
        if text in KINDS and after in ("property", "sequence"):
            return self._assertion(module, at)
        if text in ("localparam", "parameter"):
            self._constants(module, at, semicolon(words, at))
        return at + 1

    def _blank(self, first: int, last: int) -> int:
        self.edits.append(Edit(first, last, ""))
        return last + 1

    def _constants(self, module: Module, at: int, end: int) -> None:
        """Takes the constants of a declaration."""
        words, k = self._words, at + 1
        while k < end and words[k].text not in CLOSE and words[k].text not in ("parameter", "localparam"):
            if words[k].text == "=" and words[k - 1].is_name:
                last = k + 1
                while last < end and words[last].text != "," and words[last].text not in CLOSE:
                    last = closing(words, last) + 1 if words[last].text in OPEN else last + 1
                module.define(words[k - 1].text, self._value(module, words[k - 1].text, words[k + 1:last]))
                k = last
            elif words[k].text in OPEN:
                k = closing(words, k) + 1
            else:
                k += 1

    def _value(self, module: Module, name: str, own: List[Word]) -> Optional[int]:
        """The value of a constant: that of its declaration, if none is given."""
        is_given = self._given is not None and self._given.module == module.name and name in self._given.values
        return self._given.number(name) if self._given and is_given else constant(own, module.numbers)

    # -- bind

    def _bind(self, at: int) -> int:
        words, end = self._words, semicolon(self._words, at)
        if not (words[at + 1].is_name and words[at + 2].is_name):
            raise Rejected(words[at], "of an instance is not translated")
        instance = text_of(words[at + 2:end + 1]).replace("(", " (", 1)
        self.binds.append((words[at + 1].text, instance, words[at]))
        return self._blank(at, end)

    # -- properties, sequences, clocks

    def _declared(self, module: Module, at: int) -> int:
        words, kind, name = self._words, self._words[at].text, self._words[at + 1]
        end = after_word(words, at, "end" + kind)
        begin, parameters = at + 2, []
        if words[begin].text == "(":
            last = closing(words, begin)
            parameters = [_parameter(it) for it in split(words[begin + 1:last]) if it]
            begin = last + 1
        if words[begin].text != ";":
            raise Rejected(words[begin], "expected ;")
        body = words[begin + 1:end - 1]
        while body and body[-1].text == ";":
            body = body[:-1]
        if any(it.text == ";" for it in body):
            raise Rejected(name, "has local variables")
        if name.text in module.named:
            raise Rejected(name, "is declared before")
        module.named[name.text] = Named(name, parameters, body)
        is_named_again = end + 1 < len(words) and words[end].text == ":"
        return self._blank(at, end + 1 if is_named_again else end - 1)

    def _default_clocking(self, module: Module, at: int) -> int:
        words = self._words
        if module.clock is not None:
            raise Rejected(words[at], "a second default clock")
        if words[at + 2].is_name and words[at + 3].text == ";":
            if words[at + 2].text not in module.blocks:
                raise Rejected(words[at + 2], "is no clocking block that was read")
            module.clock = module.blocks[words[at + 2].text]
            return self._blank(at, at + 3)
        return self._clocking(module, at, True)

    def _clocking(self, module: Module, at: int, is_default: bool) -> int:
        words, k, name = self._words, at + 1 + is_default, ""
        if words[at].text == "global":
            raise Rejected(words[at], "is not translated")
        if words[k].is_name:
            name, k = words[k].text, k + 1
        if words[k].text != "@":
            raise Rejected(words[k], "expected a clock")
        last = closing(words, k + 1) if words[k + 1].text == "(" else k + 1
        event = words[k + 2:last] if words[k + 1].text == "(" else words[k + 1:k + 2]
        if words[last + 1].text != ";" or words[last + 2].text != "endclocking":
            raise Rejected(words[last + 2], "a clocking block with signals")
        clock: Clock = clock_of(event, words[at])
        if name:
            module.blocks[name] = clock
        if is_default:
            module.clock = clock
        return self._blank(at, last + 4 if words[last + 3].text == ":" else last + 2)

    # -- assertions

    def _assertion(self, module: Module, at: int) -> int:
        words, label, first = self._words, "", at
        if words[at - 1].text == ":" and words[at - 2].is_name:
            label, first = words[at - 2].text, at - 2
        close = closing(words, at + 2)
        end = after_action(words, close + 1)
        actions = [it for it in words[close + 1:end] if it.text not in (";", "else", "begin", "end")]
        if actions and not _is_message(actions):
            raise Rejected(actions[0], "an action that is no message")
        module.items.append(Item(first, end - 1, words[at].text, label, words[at + 3:close]))
        return end


def _is_message(words: List[Word]) -> bool:
    """Whether actions are calls of tasks that print or end, and nothing else."""
    at = 0
    while at < len(words):
        if words[at].text not in _MESSAGES:
            return False
        at = closing(words, at + 1) + 1 if at + 1 < len(words) and words[at + 1].text == "(" else at + 1
    return True


def _parameter(words: List[Word]) -> Tuple[str, Optional[List[Word]]]:
    """A parameter of a property, with its default."""
    head = split(words, "=")
    for it in head[0][:-1]:
        if it.text in _DIRECTIONS:
            raise Rejected(it, "an argument that is a local variable")
        if it.text not in _FORMALS:
            raise Rejected(it, "an argument with a type")
    if not head[0][-1].is_name:
        raise Rejected(head[0][-1], "an argument with a width")
    return head[0][-1].text, head[1] if len(head) > 1 else None
