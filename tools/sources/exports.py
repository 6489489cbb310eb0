"""What the crates export, with its contracts, read from their sources.

A crate exports what `pub use` in its lib.rt names, and the type that an exported alias names. A module of a folder may
export a name again in the same way. With a type come its public methods, and the implementations of traits for it,
where they have clauses or say what contracts see. What a public module shows beside these is marked: its `listed` is
false. A program exports nothing: of it, all functions with clauses count."""

from __future__ import annotations

import re
from typing import Dict, Iterator, List, NamedTuple, Optional, Set, Tuple

from sources.clauses import Clause, braces, signature, stripped
from sources.specs import ROOT, Known, imports


class Block(NamedTuple):
    """An `impl` or a `trait`, up to its brace."""

    head: str
    kind: str
    owner: Optional[str]
    trait: Optional[str]


class Export(NamedTuple):
    """A function, method or law with its clauses, or a type, a trait or an implementation with what contracts see of
    it. `bound` are the names of the parameters, `types` are all names in the signature, and `known` says what the
    imports of the file mean."""

    crate: str
    module: str
    name: str
    listed: bool
    doc: str
    block: Optional[Block]
    head: str
    clauses: List[Clause]
    bound: Set[str]
    types: Set[str]
    known: Known


BLOCK = re.compile(r"(?:unsafe )?(impl|pub trait)\b(?:<.*?>)?\s+(.*)$")
FUNCTION = re.compile(r"(\s*)(pub )?(?:const |unsafe |extern \"C\" )*fn (\w+)")
GHOST = re.compile(r"\n {4}((?:pub )?ghost (\w+)\s*[=:])\s*\{")
PLAIN = re.compile(r"pub (?:const|type) (\w+)")
NAMED = re.compile(r"(?m)^pub (?:struct|enum|trait|const|type|(?:extern \"C\" )?fn) (\w+)")
HELD = re.compile(r"(?m)^(?:pub(?:\(\w+\))? )?(?:struct|enum|trait|const|type|(?:extern \"C\" )?fn) (\w+)")
USED = re.compile(r"pub use (?:crate::)?((?:\w+::)*\w+)::(?:\{([\w\s,]*)\}|(\w+));")

# What a block says for its own proofs.
UNSEEN = ("invariant", "inverse_ok", "also_owns")


def crates() -> List[str]:
    """Returns the names of the libraries in the order of crates.txt, without the crates of tests and of examples."""
    lines = [line for line in (ROOT / "crates.txt").read_text(encoding="utf-8").split("\n") if line and line[0] != "#"]
    names = [line.partition(":")[0].split()[0] for line in lines]
    return [name for name in names
            if (ROOT / "crates" / name / "src" / "lib.rt").exists() and not name.endswith(("_tests", "_examples"))]


def sentence(lines: List[str]) -> str:
    """Returns the first sentence of a comment."""
    text = " ".join(lines)
    return re.split(r"(?<=[.?!])\s+(?=[^a-z])", text, maxsplit=1)[0]


def doc_above(lines: List[str], number: int) -> str:
    """Returns the first sentence of the comment above a line."""
    found = []
    for line in reversed(lines[:number]):
        line = line.strip()
        if line.startswith("///"):
            found.append(line[3:].strip())
        elif not line.startswith("#["):
            break
    found.reverse()
    return sentence(found[: found.index("")] if "" in found else found)


def seen(text: str, start: int) -> List[Clause]:
    """Returns what the block that begins at a place says that contracts see."""
    body = text[start : text.index("\n}", start)]
    return [(at[1], stripped(braces(body, at.end() - 1))) for at in GHOST.finditer(body) if at[2] not in UNSEEN]


def block_at(text: str, start: int) -> Optional[Block]:
    """Returns the block that begins at a place, or nothing."""
    head = " ".join(text[start : text.find("{", start)].split())
    found = BLOCK.match(head)
    if not found or text[start].isspace():
        return None
    kind, rest = found.groups()
    owner = re.search(r"\bfor\s+(\w+)", rest) or re.match(r"(\w+)", rest)
    trait = re.match(r"([\w:]+(?:<.*?>)?)\s+for\b", rest)
    return Block(head, kind, owner[1] if owner else None, trait[1] if trait else None)


def modules(crate: str) -> Dict[str, str]:
    """Returns the text of each module of a crate, by a path as `checker::refutation`."""
    folder = ROOT / "crates" / crate / "src"
    paths = {"::".join(it.relative_to(folder).with_suffix("").parts): it for it in sorted(folder.rglob("*.rt"))}
    return {module: path.read_text(encoding="utf-8") for module, path in paths.items()}


class Crate:
    """What the sources of a crate say: the text of each module."""

    shows_private = False

    def __init__(self, name: str):
        self.name = name
        self.texts = modules(name)
        self.doc = sentence([line[3:].strip() for line in self.texts["lib"].split("\n") if line.startswith("//!")])
        self.public_modules = set(self.public_below("lib"))
        self.passed_on = {}
        self.homes = set(self.named_by("lib"))
        for text in self.texts.values():
            for name_of_alias, target in re.findall(r"(?m)^pub type (\w+)\b[^=]*=\s*(\w+)", text):
                if name_of_alias in {it for _, it in self.homes}:
                    self.homes |= {(module, target) for module, it in self.texts.items() if target in NAMED.findall(it)}
        self.names = {it for _, it in self.homes}

    def public_below(self, module: str) -> Iterator[str]:
        """Yields the modules that a module declares as public, and those that these do."""
        for name in re.findall(r"(?m)^pub mod (\w+);", self.texts[module]):
            inner = name if module == "lib" else f"{module}::{name}"
            yield inner
            yield from self.public_below(inner)

    def named_by(self, module: str) -> Iterator[Tuple[str, str]]:
        """Yields what a module exports again, each with the module where it is defined."""
        text = self.texts[module]
        used = USED.findall(text)
        if len(used) != text.count("pub use "):
            raise ValueError(f"{self.name}: not all that the module {module} exports was understood")
        for source, names, one in used:
            here = {it.strip() for it in (names or one).split(",")} - {""}
            home = next((it for it in (f"{module}::{source}", source) if it in self.texts), None)
            if home is None:
                self.passed_on[source] = sorted(here)
                continue
            below = {name: place for place, name in self.named_by(home)}
            for name in here:
                if name not in below and name not in NAMED.findall(self.texts[home]):
                    raise ValueError(f"{self.name}: the module {home} does not show {name}")
                yield below.get(name, home), name

    def shown(self, module: str, text: str) -> Set[str]:
        """Returns the names that mean something exported in a module: its own, and those of other modules that it does
        not define anew."""
        held = set(HELD.findall(text))
        here = {name for place, name in self.homes if place == module or name not in held}
        return here | set(NAMED.findall(text) if module in self.public_modules else ())

    def exports(self) -> Iterator[Export]:
        """Yields what the crate exports, in the order of its files."""
        for module, text in self.texts.items():
            yield from self.of_module(module, text)

    def of_module(self, module: str, raw: str) -> Iterator[Export]:
        # a comment becomes blanks, which keeps the places
        text = re.sub(r"(?m)//.*$", lambda at: " " * len(at[0]), raw)
        lines, known, block = raw.split("\n"), imports(text), None
        shown = self.shown(module, text)

        def export(name, head, clauses, of=None, line=None):
            owner = of.owner if of else name
            types = set(re.findall(r"\w+", f"{of.head if of else ''} {head}"))
            bound = set(re.findall(r"(\w+):\s", head.partition("(")[2]))
            return Export(self.name, module, name, owner in self.names, doc_above(lines, line), of, head, clauses,
                          bound, types, known)

        for number, at in enumerate(re.finditer(r"(?m)^.*$", text)):
            line = at[0].rstrip()
            if line == "}":
                block = None
            began = block_at(text, at.start())
            if began and began.owner in shown:
                block = began
                members = seen(text, at.start())
                if block.trait == "Model":
                    # the entry of the type, with its comment and the fields that contracts alone see
                    declared = re.search(rf"(?m)^pub struct {block.owner}\b", text).start()
                    members = seen(text, declared) + members
                    yield export(block.owner, block.head, members, block, text.count("\n", 0, declared))
                elif members:
                    name = f"{block.owner} as {block.trait}" if block.trait else block.owner
                    yield export(name, block.head, members, block, number)
            found = PLAIN.match(line)
            if found and found[1] in shown:
                yield export(found[1], line.rstrip(";"), [], None, number)
            found = FUNCTION.match(line)
            if not found or (found[1] and not block) or (not found[1] and found[3] not in shown):
                continue
            inside, public, name = found.groups()
            by_trait = block is not None and (block.kind == "pub trait" or block.trait is not None)
            if not (public or by_trait or self.shows_private):
                continue
            head, clauses = signature(text, at.start() + len(inside))
            if clauses or not (block and block.trait):
                yield export(f"{block.owner}::{name}" if block else name, head, clauses, block, number)


class Program(Crate):
    """The same of a program: its own functions, none of which is public."""

    shows_private = True

    def __init__(self, name: str):
        self.name = name
        self.texts = modules(name)
        self.homes = {(module, it[3]) for module, text in self.texts.items() for line in text.split("\n")
                      for it in [FUNCTION.match(line)] if it and not it[1]}
        self.names = {it for _, it in self.homes}
        self.public_modules = set()
