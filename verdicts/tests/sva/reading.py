"""A plain reading of properties by Annex F of IEEE 1800-2017: sequences as sets of matches over positions of a run. It
shares nothing with the translator."""

from __future__ import annotations

from typing import Dict, List, Optional, Sequence, Set, Tuple

# Which expressions are true at each edge.
Table = Sequence[Dict[str, bool]]
# So many letters after the known ones are looked at.
BEYOND = 26


class Reading:
    """A run of which `known` letters are known. Those after them satisfy each expression (weak), or none."""

    def __init__(self, table: Table, known: int):
        self._table, self._known, self._last = table, known, known + BEYOND
        self._ends: Dict[Tuple[int, int, bool], Set[int]] = {}

    def _is(self, form: Tuple, at: int, weak: bool, sign: bool = True) -> bool:
        return weak if at >= self._known else self._table[at][form[1]] == sign

    # -- sequences

    def ends(self, form: Tuple, at: int, weak: bool) -> Set[int]:
        """Where the matches end that begin here: at `at` itself for an empty one."""
        key = (id(form), at, weak)
        if key not in self._ends:
            self._ends[key] = self._matches(form, at, weak)
        return self._ends[key]

    def _matches(self, form: Tuple, at: int, weak: bool) -> Set[int]:
        kind = form[0]
        if at >= self._last:
            return {at} if kind == "repeat" and form[2] == 0 else set()
        if kind == "e":
            return {at + 1} if self._is(form, at, weak) else set()
        if kind == "delay":
            return self._delayed(self.ends(form[1], at, weak), form[2], form[3], form[4], (at, weak))
        if kind == "wait":
            begins = {at + 1} if weak or at < self._known else set()
            return self._delayed(begins, form[1], form[2], form[3], (at, weak))
        if kind == "repeat":
            return self._repeated(form[1], form[2], form[3], at, weak)
        if kind in ("goto", "nonconsecutive"):
            return self._goto(form, at, weak)
        if kind == "throughout":
            ends = self.ends(form[2], at, weak)
            return {end for end in ends if all(self._is(form[1], k, weak) for k in range(at, end))}
        if kind == "first":
            found = self.ends(form[1], at, weak)
            return {min(found)} if found else set()
        return self._of_two(kind, form, at, weak)

    def _of_two(self, kind: str, form: Tuple, at: int, weak: bool) -> Set[int]:
        left, right = self.ends(form[1], at, weak), self.ends(form[2], at, weak)
        if kind == "or":
            return left | right
        if kind == "intersect":
            return left & right
        if kind == "and":
            return {max(one, other) for one in left for other in right}
        return {end for end in right
                if any(inner <= end for k in range(at, end + 1) for inner in self.ends(form[1], k, weak))}

    def _delayed(self, begins: Set[int], least: int, most: Optional[int], right: Tuple, place: Tuple[int, bool]) -> Set[int]:
        at, weak = place
        found: Set[int] = set()
        for end in begins:
            for delay in range(least, (self._last - end if most is None else most) + 1):
                if delay == 0:
                    if end > at:
                        found |= {it for it in self.ends(right, end - 1, weak) if it > end - 1}
                elif weak or all(k < self._known for k in range(end, end + delay - 1)):
                    found |= self.ends(right, end + delay - 1, weak)
        return found

    def _repeated(self, part: Tuple, least: int, most: Optional[int], at: int, weak: bool) -> Set[int]:
        found: Set[int] = set()
        now, seen, count = {at}, set(), 0
        while now and (most is None or count <= most) and count <= self._last + least:
            if count >= least:
                found |= now
                if now <= seen:
                    break
                seen |= now
            now = {end for begin in now for end in self.ends(part, begin, weak)}
            count += 1
        return found

    def _goto(self, form: Tuple, at: int, weak: bool) -> Set[int]:
        found: Set[int] = set()
        now = {at}
        for count in range(1, (self._last if form[3] is None else form[3]) + 1):
            now = {end for begin in now for end in self._next_true(form[1], begin, weak)}
            if count >= form[2]:
                found |= now
            if not now:
                break
        if form[0] == "nonconsecutive":
            for end in list(found):
                while end < self._last and self._is(form[1], end, weak, False):
                    end += 1
                    found.add(end)
        return found

    def _next_true(self, form: Tuple, at: int, weak: bool) -> List[int]:
        """After the next letter that satisfies the expression, where those before it do not. A letter beyond the known
        ones may do both."""
        found = []
        while at < self._last:
            if self._is(form, at, weak):
                found.append(at + 1)
            if not self._is(form, at, weak, False):
                break
            at += 1
        return found

    # -- properties

    def holds(self, form: Tuple, at: int, weak: bool = True) -> bool:
        kind, at = form[0], min(at, self._known)
        if kind == "sequence":
            return bool(self.ends(form[1], at, weak))
        if kind == "not":
            return not self.holds(form[1], at, not weak)
        if kind == "pand":
            return self.holds(form[1], at, weak) and self.holds(form[2], at, weak)
        if kind == "por":
            return self.holds(form[1], at, weak) or self.holds(form[2], at, weak)
        if kind == "implication":
            return self._implication(form, at, weak)
        if kind == "if":
            if at >= self._known:
                return weak or self.holds(form[2], at, weak) and self.holds(form[3], at, weak)
            return self.holds(form[2] if self._is(form[1], at, weak) else form[3], at, weak)
        if kind == "next":
            return self.holds(form[2], at + form[1], weak)
        if kind in ("implies", "iff"):
            forward = not self.holds(form[1], at, not weak) or self.holds(form[2], at, weak)
            return forward and (kind == "implies" or not self.holds(form[2], at, not weak) or self.holds(form[1], at, weak))
        return self._for_long(form, at, weak)

    def _implication(self, form: Tuple, at: int, weak: bool) -> bool:
        """`r |=> p` is `r ##1 1 |-> p`."""
        _, left, is_later, right = form
        return all(self.holds(right, end if is_later else end - 1, weak) for end in self.ends(left, at, not weak)
                   if not is_later or end < self._known or not weak)

    def _for_long(self, form: Tuple, at: int, weak: bool) -> bool:
        if form[0] == "always":
            return all(self.holds(form[1], k, weak) for k in range(at, self._known + 1))
        for k in range(at, self._known + 1):
            if form[0] == "until" and self.holds(form[2], k, weak):
                return True
            if not self.holds(form[1], k, weak):
                return False
            if form[0] == "until_with" and self.holds(form[2], k, weak):
                return True
        return True


def demanded(form: Tuple, is_cover: bool, off: Sequence[bool], table: Table) -> Tuple[List[bool], List[bool]]:
    """At which edges something has to be said, and at which it may be: that an attempt fails, or that a cover is reached.
    An attempt ends where it is off."""
    must, may = [False] * len(table), [False] * len(table)
    for now in range(len(table)):
        before, after = Reading(table, now), Reading(table, now + 1)
        for begin in range(now, -1, -1):
            if off[begin]:
                break
            if is_cover:
                if now + 1 in after.ends(form, begin, False):
                    must[now] = may[now] = True
            elif not after.holds(form, begin):
                may[now] = True
                must[now] |= before.holds(form, begin)
    return must, may
