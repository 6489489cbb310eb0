"""What the modules say that Yosys' `json` wrote."""

from __future__ import annotations

from typing import Any, Dict, Iterator, List, Set, Tuple

from aig.tools import ToolFailed

# The cells that have rows.
CHECKS = ("$assert", "$cover")


def instances(modules: Dict[str, Any], top: str) -> Dict[str, int]:
    """How often each module is in the design."""
    uses: Dict[str, Dict[str, int]] = {name: {} for name in modules}
    parents = {name: 0 for name in modules}
    for name, module in modules.items():
        for cell in module["cells"].values():
            if cell["type"] in modules:
                parents[cell["type"]] += cell["type"] not in uses[name]
                uses[name][cell["type"]] = uses[name].get(cell["type"], 0) + 1
    counts = {name: int(name == top) for name in modules}
    ready = [name for name, count in parents.items() if count == 0]
    while ready:
        name = ready.pop()
        for inside, times in uses[name].items():
            counts[inside] += counts[name] * times
            parents[inside] -= 1
            if parents[inside] == 0:
                ready.append(inside)
    return counts


def checks(modules: Dict[str, Any], top: str) -> int:
    """How many assertions and covers the design has, those of a module once for each of its instances."""
    counts = instances(modules, top)
    return sum(counts[name] * sum(cell["type"] in CHECKS for cell in module["cells"].values()) for name, module in modules.items())


def top_of(modules: Dict[str, Any]) -> str:
    tops = [name for name, module in modules.items() if int(module["attributes"].get("top", "0"), 2)]
    if len(tops) != 1:
        raise ToolFailed(f"the design has {len(tops)} top modules")
    return tops[0]


def cells(modules: Dict[str, Any]) -> Iterator[Tuple[str, Dict[str, Any]]]:
    for module in modules.values():
        yield from module["cells"].items()


def inputs_of(cell: Dict[str, Any]) -> Iterator[Tuple[str, List[Any]]]:
    for port, bits in cell["connections"].items():
        if cell["port_directions"].get(port) != "output":
            yield port, bits


def one_clock(flat: Dict[str, Any]) -> bool:
    """Whether all registers and memories wait for one edge of one input of the top module, which nothing else reads."""
    module = next(iter(flat.values()))
    edges: Set[Tuple[Any, int]] = set()
    read: Set[Any] = set()
    has_steps = False  # registers of each frame, whatever the clock is
    for cell in module["cells"].values():
        has_steps |= cell["type"] == "$ff"
        clocks = clock_edges(cell)
        edges.update(edge for port in clocks.values() for edge in port)
        for port, bits in inputs_of(cell):
            if port not in clocks:
                read.update(bits)
    if not edges:
        return True
    inputs = {bit for port in module["ports"].values() if port["direction"] == "input" for bit in port["bits"]}
    (clock, _), *others = edges
    return not others and not has_steps and clock in inputs and clock not in read


def clock_edges(cell: Dict[str, Any]) -> Dict[str, List[Tuple[Any, int]]]:
    """The ports that read clocks, and each clock with its edge."""
    ports = {}
    for port in ("CLK", "RD_CLK", "WR_CLK"):
        if port in cell["connections"]:
            def parameter(name: str) -> str:
                return str(cell["parameters"].get(f"{port}_{name}", "1"))[::-1]

            bits = cell["connections"][port]
            enabled, edge = parameter("ENABLE").ljust(len(bits), "0"), parameter("POLARITY").ljust(len(bits), "0")
            ports[port] = [(bit, int(edge[k])) for k, bit in enumerate(bits) if enabled[k] == "1"]
    return ports
