#!/usr/bin/env python3
"""Lists the lemmas that nothing uses: those that no answer, invariant, definition, contract or example reaches.

A lemma is a name that a file of `proofs/` declares and defines. The script follows it by its name, in its own file and
in the files that import it. Records, types and sets of rules of `proofs/` count as used. The lemmas of ROOTS are there
for their own sake. The script reads text and proves nothing; it fails if there is an unused lemma."""

import collections
import re
import sys

from sources.specs import ROOT

CRATES = ROOT / "crates"
# Files that the toolchain reads by their names.
ANSWERS = ("Answers.antt", "Invariants.antt", "Proof.antt")
# Files of examples, and of lemmas that say that a law is false without a premise.
ROOTS = ("crates/aig_examples/", "Examples.antt", "Premises.antt")
HEAD = re.compile(r"(?m)^( *)(?:(?:abbrev|pub) )*(?:(?:record|data|ruleset) |([^\s:(){}]+) :(?: |$))")
IMPORTED = re.compile(r"\buse (Rattle\.\S+?)\.\{([^}]*)\}")
WORD = re.compile(r"[^\s(){}\[\],;@]+")

# A lemma: its file, its name, and the words of its statement and proof.
Lemma = collections.namedtuple("Lemma", "file name words")


def uncommented(text):
    """Returns a text without its comments."""
    return re.sub(r"(?m)(^|\s)(--|//)\s.*$", "", text)


def words_of(text):
    """Returns the words of a text, and the parts of those with dots or colons."""
    words = set(WORD.findall(text))
    return words | {part for word in words for part in re.split(r"\.|::", word)}


def module_of(file):
    """Returns the name by which others import a file."""
    parts = file.relative_to(CRATES).with_suffix("").parts
    return ".".join(("Rattle", *parts))


def imports_of(crate, text):
    """Returns the modules that a text of a crate imports, each with the names that it takes: None if the module has a
    new name. A tactic of a function names its lemmas in full."""
    found = collections.defaultdict(set)
    for module, name in re.findall(r"\bcrate::(proofs::[\w:]+)::([^\s:,)]+)", text):
        found[f"Rattle.{crate}.{module.replace('::', '.')}"].add(name)
    for module, names in IMPORTED.findall(text):
        found[module] |= words_of(names)
    for module in re.findall(r"\buse (Rattle\.\S+) as \S+", text):
        found[module] |= {None}
    return found


def lemmas_of(file):
    """Returns the words of a file that are in no lemma, and its lemmas."""
    text = IMPORTED.sub("", uncommented(file.read_text(encoding="utf-8")))
    heads = [head for head in HEAD.finditer(text) if head[2] is None or is_defined(text, head)]
    ends = [head.start() for head in heads] + [len(text)]
    rest, lemmas = words_of(text[:ends[0]]), []
    for head, end in zip(heads, ends[1:]):
        words = words_of(text[head.end():end])
        if head[2] is None:
            rest |= words
        else:
            lemmas.append(Lemma(file, head[2], words))
    return rest, lemmas


def is_defined(text, head):
    """Returns whether a line after a signature defines its name, at the same indentation."""
    return re.search(rf"(?m)^{head[1]}{re.escape(head[2])}( |$)(?!:)", text[head.end():]) is not None


def main():
    lemmas, waiting, imports, at = [], [], {}, collections.defaultdict(list)
    for file in sorted(it for part in ("src", "specs", "proofs") for it in CRATES.glob(f"*/{part}/**/*.*")):
        if file.suffix not in (".rt", ".antt"):
            continue
        text = file.read_text(encoding="utf-8")
        imports[file] = imports_of(file.relative_to(CRATES).parts[0], text)
        if "proofs" not in file.relative_to(CRATES).parts or file.name in ANSWERS:
            waiting.append((file, words_of(IMPORTED.sub("", uncommented(text)))))
            continue
        outside, own = lemmas_of(file)
        lemmas += own
        waiting.append((file, outside))
        for lemma in own:
            at[module_of(file), lemma.name].append(lemma)
            if any(root in str(file) for root in ROOTS):
                waiting.append((file, lemma.words | {lemma.name}))
    reached = set()
    while waiting:
        file, words = waiting.pop()
        for word in words:
            places = [it for it, names in imports[file].items() if word in names or None in names]
            places.append(module_of(file))
            for lemma in (it for place in places for it in at.get((place, word), ())):
                if id(lemma) not in reached:
                    reached.add(id(lemma))
                    waiting.append((lemma.file, lemma.words))
    unused = [it for it in lemmas if id(it) not in reached]
    for lemma in unused:
        print(f"{lemma.file.relative_to(ROOT)}: nothing uses {lemma.name}")
    print(f"{len(lemmas) - len(unused)} of {len(lemmas)} lemmas are used")
    return 1 if unused else 0


if __name__ == "__main__":
    sys.exit(main())
