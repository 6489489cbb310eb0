"""A program as a tree of text. Any part of it can be dropped or replaced by one of its parts, so no parser is needed to
make a program smaller."""

from __future__ import annotations

import enum
from dataclasses import dataclass
from typing import Iterator, List, Union


class Kind(enum.Enum):
    """What a part is. Items and statements can be dropped, and an expression can be replaced by one of its operands."""

    TEXT = enum.auto()
    ITEM = enum.auto()
    STATEMENT = enum.auto()
    BODY = enum.auto()
    EXPRESSION = enum.auto()


@dataclass(eq=False)
class Tree:
    kind: Kind
    parts: List[Part]

    def __str__(self) -> str:
        return "".join(map(str, self.parts))

    def all(self) -> Iterator[Tree]:
        """This tree, and after it those inside, the outer ones first."""
        level = [self]
        while level:
            yield from level
            level = [part for tree in level for part in tree.parts if isinstance(part, Tree)]

    def nearest(self, kind: Kind) -> Iterator[Tree]:
        """The trees of a kind inside this one that are in no other one of this kind."""
        for part in self.parts:
            if isinstance(part, Tree):
                if part.kind is kind:
                    yield part
                else:
                    yield from part.nearest(kind)


Part = Union[str, Tree]


def text(*parts: Part) -> Tree:
    return Tree(Kind.TEXT, list(parts))


def item(*parts: Part) -> Tree:
    """A declaration, a block or an instance, which ends its line."""
    return Tree(Kind.ITEM, [*parts, "\n"])


def statement(*parts: Part) -> Tree:
    return Tree(Kind.STATEMENT, [*parts, "\n"])


def body(statements: List[Tree]) -> Tree:
    return Tree(Kind.BODY, list(statements))


def expression(*parts: Part) -> Tree:
    return Tree(Kind.EXPRESSION, list(parts))


def joined(trees: List[Tree], between: str = ", ") -> Tree:
    parts: List[Part] = []
    for tree in trees:
        parts += [between, tree] if parts else [tree]
    return text(*parts)
