"""What an assertion says in the sources: its statement with the blocks around it, and the macros, parameters and
functions that these name. An assertion whose text is another one is another assertion. It reads words, and no grammar:
where it is wrong, a text is taken for an edited one too often."""

from __future__ import annotations

import re
from bisect import bisect_right
from collections import Counter
from typing import Dict, Iterable, Iterator, List, Mapping, NamedTuple, Sequence, Set, Tuple

Words = Tuple[str, ...]
_TOKEN = re.compile(
    r"(?P<comment>//[^\n]*|/\*.*?(?:\*/|\Z))|(?P<define>`define\b(?:\\\r?\n|[^\n])*)"
    r"|(?P<directive>`(?:ifdef|ifndef|elsif|undef)\s+\w+|`(?:else|endif|resetall|celldefine|endcelldefine)\b"
    r"|`(?:timescale|include|default_nettype|line)\b[^\n]*)"
    r'|(?P<word>"(?:\\.|[^"\\])*"|\\[^\s]+|[`$]?[A-Za-z_][\w$]*|[0-9][\w.]*|\'[sS]?[bodhBODH]?[\w?]+|[^\s])', re.DOTALL)
_UNITS = ("module", "endmodule", "interface", "endinterface", "package", "endpackage", "program", "endprogram")
_CASES = ("case", "casez", "casex")
_ENDS = ("end", "endcase", "join", "join_any", "join_none")
# Definitions that end with a word of their own.
_NAMED = {"function": "endfunction", "task": "endtask", "property": "endproperty", "sequence": "endsequence"}
_ASSUMING = frozenset(("assume", "restrict"))
_VERBS = _ASSUMING | {"assert", "cover"}
_CONSTANTS = ("parameter", "localparam")


_COMMENT = re.compile(r'//[^\n]*|/\*.*?(?:\*/|\Z)|("(?:\\.|[^"\\\n])*")', re.DOTALL)


def lines_of(text: str) -> List[str]:
    """The lines without comments and spaces."""
    without = _COMMENT.sub(lambda it: it[1] or "\n" * it[0].count("\n"), text)
    return ["".join(line.split()) for line in without.split("\n")]


class Token(NamedTuple):
    word: str
    line: int


class Statement(NamedTuple):
    """A statement with the headers of the blocks that it is in, and its lines."""

    words: Words
    first: int
    last: int


class Source(NamedTuple):
    """The words of a source, and its macros."""

    tokens: List[Token]
    macros: List[Tuple[str, Words]]


def read(text: str) -> Source:
    ends = [match.start() for match in re.finditer("\n", text)]
    found = Source([], [])
    for match in _TOKEN.finditer(text):
        if match["define"]:
            words = tuple(it["word"] for it in _TOKEN.finditer(match["define"], len("`define")) if it["word"])
            found.macros.append((f"`{words[0]}" if words else "", words))
        elif match["word"]:
            found.tokens.append(Token(match["word"], bisect_right(ends, match.start()) + 1))
    return found


class _Blocks:
    """The blocks that are open, by their headers, while the words of a source go by."""

    def __init__(self) -> None:
        self._begin()

    def _begin(self) -> None:
        """At a module all blocks are closed, whatever was wrong before it."""
        self._around: List[Words] = []
        self._current: List[Token] = []
        self._depth = 0
        self._last: Words = ()  # what an `else` goes on with
        self._is_case = False

    def take(self, token: Token) -> Iterator[Statement]:
        """Takes a word; a statement that it ends."""
        word = token.word
        if word in _UNITS:
            self._begin()
        elif word in _ENDS and self._depth == 0:
            self._last, self._current = self._around.pop() if self._around else (), []
            return
        elif word.startswith("end") and self._depth == 0 or word == "generate":
            self._current = []
            return
        elif word == "else" and self._depth == 0:
            self._current = [*(Token(it, token.line) for it in self._last), token]
            return
        self._current.append(token)
        self._depth = max(0, self._depth + (word in "([{") - (word in ")]}"))
        self._is_case |= word in _CASES
        if word == ";" and self._depth == 0:
            yield self.statement()
            self._last, self._current = self._words(), []
        elif self._depth == 0 and (word in ("begin", "fork") or word == ")" and self._is_case):
            self._around.append(self._words())
            self._current, self._is_case = [], False

    def _words(self) -> Words:
        return tuple(it.word for it in self._current)

    def statement(self) -> Statement:
        words = tuple(word for header in self._around for word in header) + self._words()
        return Statement(words, self._current[0].line, self._current[-1].line)


def statements(tokens: Iterable[Token]) -> List[Statement]:
    blocks = _Blocks()
    return [it for token in tokens for it in blocks.take(token)]


def definitions(source: Source) -> Iterator[Tuple[str, Words]]:
    """The names of macros, functions, properties and constants, each with its text."""
    yield from source.macros
    words = [it.word for it in source.tokens]
    for at, word in enumerate(words):
        if word in _NAMED and words[at - 1] not in _VERBS and _NAMED[word] in words[at:]:
            body = tuple(words[at : words.index(_NAMED[word], at)])
            ends = [it for it, part in enumerate(body) if part in "(;"]
            yield body[ends[0] - 1 if ends else -1], body
        elif word in _CONSTANTS:
            yield from ((it[it.index("=") - 1], it) for it in _constants(words, at + 1) if "=" in it[1:])


def _constants(words: Sequence[str], at: int) -> Iterator[Words]:
    """The constants after a `parameter`, up to the end of its statement, or of the list that it is in."""
    depth, begin = 0, at
    for end in range(at, len(words)):
        depth += (words[end] in "([{") - (words[end] in ")]}")
        is_last = depth < 0 or words[end] == ";"
        if is_last or depth == 0 and words[end] == ",":
            yield tuple(words[begin:end])
            begin = end + 1
        if is_last:
            return


class Texts:
    """The texts of a design: its sources by name, and its macros and parameters from outside, as `NAME=VALUE`."""

    def __init__(self, sources: Mapping[str, bytes], defines: Sequence[str] = (), parameters: Sequence[str] = ()):
        self._statements: Dict[str, List[Statement]] = {}
        self._definitions: Dict[str, List[Words]] = {}
        for given in [*(f"`{it}" for it in defines), *parameters]:
            name, _, value = given.partition("=")
            self._definitions.setdefault(name, []).append((value,))
        for name, text in sources.items():
            source = read(text.decode("latin-1"))
            self._statements[name] = statements(source.tokens)
            for defined, words in definitions(source):
                self._definitions.setdefault(defined, []).append(words)

    def of(self, file: str, line: int) -> Tuple[Words, ...]:
        """What the assertion that ends in this line says; nothing if it is not in the sources. Others in the same line
        are a part of it."""
        there = [it for it in self._statements.get(file, []) if it.first <= line <= it.last]
        asserting = [it for it in there if any(word in _VERBS or word[0] == "`" for word in it.words)]
        return tuple(self._with_definitions(it.words) for it in asserting or there)

    def assumptions(self) -> Dict[Words, int]:
        """The texts of all assumptions, and how often each is there."""
        texts = [it.words for each in self._statements.values() for it in each]
        possible = (it for it in texts if any(word in _ASSUMING or word[0] == "`" for word in it))
        return Counter(it for it in map(self._with_definitions, possible) if not _ASSUMING.isdisjoint(it))

    def _with_definitions(self, words: Words) -> Words:
        """The words, and the definitions of all that they name, in the order of the names."""
        named: Set[str] = set()
        waiting = set(words)
        while waiting:
            found = {it for it in waiting if it in self._definitions}
            named |= found
            waiting = {word for it in found for body in self._definitions[it] for word in body} - named
        return words + tuple(word for it in sorted(named) for body in self._definitions[it] for word in body)
