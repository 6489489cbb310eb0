"""Which bits of a word are driven, and which still have their old value."""

from __future__ import annotations

from typing import List, Tuple

from .words import Words


def driven(w: Words, word: int, leaf: int) -> List[Tuple[int, int]]:
    """The ranges of bits (the lowest one and how many) where a word is not its own old value."""
    if w.kind[word] != "concat" and not (w.kind[word] == "ite" and leaf in w.support([word])):
        return [(0, w.width[word])]
    made: List[Tuple[int, int]] = []
    for k in range(w.width[word]):
        if is_bit_of(w, word, leaf, k, k):
            continue
        if made and sum(made[-1]) == k:
            made[-1] = (made[-1][0], made[-1][1] + 1)
        else:
            made.append((k, 1))
    return made


def is_bit_of(w: Words, word: int, leaf: int, bit: int, wanted: int) -> bool:
    """Whether bit `bit` of a word is bit `wanted` of a leaf, on each way through choices."""
    kind, parts = w.kind[word], w.parts[word]
    if word == leaf:
        return bit == wanted
    if kind == "slice":
        return parts[0] == leaf and bit + parts[2] == wanted
    if kind == "concat":
        cut = w.width[parts[1]]
        above = bit >= cut
        return is_bit_of(w, parts[0] if above else parts[1], leaf, bit - cut if above else bit, wanted)
    if kind == "ite":
        return all(is_bit_of(w, it, leaf, bit, wanted) for it in parts[1:])
    return False


def old_bits(w: Words, word: int, leaf: int) -> List[bool]:
    """Of each bit of a word, whether it is the same bit of a leaf."""
    return [is_bit_of(w, word, leaf, k, k) for k in range(w.width[word])]
