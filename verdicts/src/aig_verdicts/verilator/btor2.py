"""A circuit as BTOR2: words without arrays. Names are at the ends of lines, in the form of labels.py; comments have the
kinds and places of properties."""

from __future__ import annotations

from typing import Dict, List

from .circuit import Circuit

_SEVERAL, _ONE = "a frame is the time between changes of clocks", "a frame is a cycle"


def written(circuit: Circuit) -> str:
    """The text."""
    return _Writer(circuit).text()


def _name(label: str) -> str:
    return label.replace(" ", "_").replace(";", "_")


class _Writer:
    def __init__(self, circuit: Circuit) -> None:
        self._circuit, self._words = circuit, circuit.words
        frames = _SEVERAL if circuit.several else _ONE
        self._lines: List[str] = [f"; top {circuit.design.tree.top.name}; clock {circuit.clock}, {frames}"]
        self._sorts: Dict[int, int] = {}
        self._number: Dict[int, int] = {}
        self._count = 0

    def _line(self, text: str) -> int:
        self._count += 1
        self._lines.append(f"{self._count} {text}")
        return self._count

    def _sort(self, width: int) -> int:
        if width not in self._sorts:
            self._sorts[width] = self._line(f"sort bitvec {width}")
        return self._sorts[width]

    def _node(self, root: int) -> int:
        """The number of a word, after the lines of what it is made of."""
        todo = [root]
        while todo:
            x = todo[-1]
            missing = [it for it in self._words.below(x) if it not in self._number]
            if x not in self._number and missing:
                todo += missing
                continue
            todo.pop()
            if x not in self._number:
                self._number[x] = self._line(self._operator(x))
        return self._number[root]

    def _operator(self, x: int) -> str:
        w, kind, parts = self._words, self._words.kind[x], self._words.parts[x]
        start = f"{kind} {self._sort(w.width[x])}"
        if kind == "const":
            return f"{start} {parts[0]:0{w.width[x]}b}"
        if kind in ("input", "state"):
            return f"{start} {_name(w.label[x])}"
        if kind == "slice":
            return f"{start} {self._number[parts[0]]} {parts[1]} {parts[2]}"
        return " ".join([start, *(str(self._number[it]) for it in parts)])

    def text(self) -> str:
        """All lines: leaves, initial and next values, then outputs, assumptions and properties."""
        circuit, w = self._circuit, self._words
        for leaf in sorted(it for it in circuit.inputs.values() if not w.label[it].startswith("open:")):
            self._node(leaf)
        for state in circuit.states:
            self._node(state)
        for state, (first, _) in circuit.states.items():
            if first is not None:
                value = self._node(first)
                self._line(f"init {self._sort(w.width[state])} {self._number[state]} {value}")
        for state, (_, following) in circuit.states.items():
            value = self._node(following)
            self._line(f"next {self._sort(w.width[state])} {self._number[state]} {value}")
        for label, word in circuit.outputs:
            self._line(f"output {self._node(word)} {_name(label)}")
        for it, when in circuit.constraints:
            self._line(f"constraint {self._node(w.invert(when))} {_name(it.name)}")
        for it, when in circuit.bads:
            value = self._node(when)
            self._lines.append(f"; {it.kind} {it.node.place}")
            self._line(f"bad {value} {_name(it.name)}")
        return "\n".join(self._lines) + "\n"
