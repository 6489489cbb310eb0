"""Translates the concurrent assertions of sources."""

from __future__ import annotations

import re
import sys
from dataclasses import dataclass, field
from typing import Dict, List, Mapping, Optional, Sequence, Set

from .declared import Signals
from .defaults import Defaults
from .edits import Edit, Edited
from .expressions import HISTORY
from .immediate import Immediate, Names, Place, said_too_many
from .known import Known
from .model import Item, Module
from .named_types import Types, types_of
from .parameters import Given
from .preprocessed import Preprocessed
from .properties import spec_of
from .scan import Scanned
from .terms import TooMany
from .words import EVENTUALLY, INFIX, PREFIX, Live, Rejected, Word, has_any

_QUIET = re.compile(r'//[^\n]*|/\*(?:[^*]|\*(?!/))*(?:\*/)?|"(?:\\.|[^"\\\n])*"', re.DOTALL)
# What Yosys does not read by itself.
_CONCURRENT = re.compile(
    r"\b(?:assert|assume|cover|restrict)\s+(?:property|sequence)\s*\(\s*(?:@|disable\b)|\|->|\|=>|#-#|#=#"
    r"|\bendproperty\b|\bendsequence\b|\bbind\s+[A-Za-z_\\]|\bdefault\s+(?:clocking|disable)\b")
_DEPTH = 10_000  # of Python's calls


class Untranslated(Exception):
    """What is rejected, all at once."""

    def __init__(self, rejected: Sequence[Rejected]):
        super().__init__("\n".join(dict.fromkeys(map(str, rejected))))


@dataclass
class Translation:
    """The copies of the files that differ, whether some `disable iff` drops attempts, which with several clocks has to be
    seen between edges, and the file and line of each assertion that is left out, as it asks for liveness."""

    texts: Dict[str, str] = field(default_factory=dict)
    has_resets: bool = False
    left: List[str] = field(default_factory=list)


def has_concurrent(texts: Mapping[str, str]) -> bool:
    """Whether sources have anything to translate."""
    return any(_CONCURRENT.search(_QUIET.sub(" ", text)) for text in texts.values())


def translated(texts: Mapping[str, str], read: Sequence[str], defines: Sequence[str],
               is_one_clock: bool = True, given: Optional[Given] = None) -> Translation:
    """The copies of sources in which each concurrent assertion is an immediate one.

    texts         the files, by the names that `include` has
    read          the names of those that are read by themselves, in order
    is_one_clock  whether the design has one clock
    given         the values of parameters that are not those of their declarations
    """
    if not has_concurrent(texts):
        return Translation()
    limit = sys.getrecursionlimit()
    sys.setrecursionlimit(max(limit, _DEPTH))
    try:
        words = Preprocessed(texts, read, defines).words
        return _Work(Scanned(words, given), words, is_one_clock).result(texts)
    except Rejected as error:
        raise Untranslated([error]) from None
    finally:
        sys.setrecursionlimit(limit)


class _Work:
    """The translation of all words."""

    def __init__(self, scanned: Scanned, words: List[Word], is_one_clock: bool):
        self._scanned, self._words, self._is_one_clock = scanned, words, is_one_clock
        self._edits = list(self._scanned.edits)
        self._rejected = list(self._scanned.rejected)
        self._names = Names({it.text for it in words})
        self._types: Types = types_of(words)
        self._instantiated: Set[str] = {it.text for before, it in zip(words, words[1:]) if before.text not in (
            "module", "macromodule", "automatic", "static", "bind", ":")}
        self._has_resets = False
        self._left: List[str] = []
        for module in self._scanned.modules.values():
            self._module(module)
        for target, instance, word in self._scanned.binds:
            self._bind(target, instance, word)

    def result(self, texts: Mapping[str, str]) -> Translation:
        if self._rejected:
            order = {id(it): k for k, it in enumerate(self._words)}
            self._rejected.sort(key=lambda it: order.get(id(it.word), -1))
            raise Untranslated(self._rejected)
        return Translation(Edited(texts, self._words, self._edits).texts, self._has_resets, self._left)

    def _bind(self, target: str, instance: str, word: Word) -> None:
        module = self._scanned.modules.get(target)
        if module is None:
            self._rejected.append(Rejected(word, f"{target} is no module of the sources"))
        else:
            self._edits.append(Edit(module.end, module.end - 1, instance + " "))

    def _module(self, module: Module) -> None:
        if not module.items:
            return
        is_top = module.name not in self._instantiated
        defaults = Defaults(Signals(self._words, module, self._types, is_top))
        for item in module.items:
            try:
                if not _is_plain(module, item):
                    self._item(module, item, defaults)
            except Live as error:
                self._leave_out(item, error)
            except Rejected as error:
                self._rejected.append(error if error.word else Rejected(item.body[0], error.why))
            except (TooMany, RecursionError):
                self._rejected.append(said_too_many(item))

    def _leave_out(self, item: Item, error: Live) -> None:
        """Leaves out an assertion or a cover that asks for liveness: the others go on. An assumption is not dropped."""
        if item.kind not in ("assert", "cover"):
            self._rejected.append(error)
            return
        self._edits.append(Edit(item.first, item.last, "begin end" if self._is_statement(item) else ""))
        word = next(it for it in self._words[item.first:] if it.text == item.kind)
        self._left.append(f"{word.file}:{word.line}")

    def _is_statement(self, item: Item) -> bool:
        """Whether an assertion is all of a branch of a `generate`."""
        return self._words[item.first - 1].text in (")", "else", ":")

    def _item(self, module: Module, item: Item, defaults: Defaults) -> None:
        known = Known(module)
        spec = spec_of(known, item.body, item.body[0])
        made = Immediate(item, spec, known, defaults, self._names)
        place = Place(self._lines(item), self._is_statement(item))
        self._edits.append(Edit(item.first, item.last, made.text(place, self._is_one_clock)))
        self._has_resets |= made.is_reset

    def _lines(self, item: Item) -> int:
        """How many line ends the words of an assertion have; those of a macro are where it is used."""
        first, last = self._words[item.first], self._words[item.last]
        return 0 if first.use or last.use or first.file != last.file else last.line - first.line


def _is_plain(module: Module, item: Item) -> bool:
    """Whether Yosys reads an assertion by itself: an expression without a clock."""
    is_clocked = module.clock is not None or module.disable is not None
    words = item.body
    if is_clocked or not words or words[0].text in ("@", "disable"):
        return False
    rest = words[1:] if words[0].text in EVENTUALLY else words
    is_temporal = has_any(rest, INFIX | PREFIX | HISTORY)
    return not is_temporal and not any(it.text in module.named for it in words)
