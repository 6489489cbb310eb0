"""The dump of a stage that `--dump-tree-json` writes (Verilator 5.032 and later), as objects."""

from __future__ import annotations

import json
from typing import Any, Dict, List, Tuple

from .tree import NotRead


def _first(pairs: List[Tuple[str, Any]]) -> Dict[str, Any]:
    """Of keys that are there twice the first one: 5.032 writes `type` again for an assertion."""
    made: Dict[str, Any] = {}
    for key, value in pairs:
        made.setdefault(key, value)
    return made


def objects(text: str) -> Dict[str, Any]:
    """The netlist of a dump."""
    root = json.loads(text, object_pairs_hook=_first)
    if not isinstance(root, dict) or root.get("type") != "NETLIST":
        raise NotRead("Verilator's dump is no netlist")
    return root


def by_text(root: Dict[str, Any], text: Dict[str, Any], made: Dict[str, str]) -> Dict[str, str]:
    """The addresses that the dump as text has, by those of the JSON. Both dumps are of one tree."""
    if root["type"] != text["type"]:
        raise NotRead(f"Verilator's two dumps differ: {root['type']} and {text['type']}")
    made[root["addr"]] = text["addr"]
    mine, other = _below(root), _below(text)
    if len(mine) != len(other):
        raise NotRead(f"Verilator's two dumps differ below a node {root['type']} at {root['loc']}")
    for a, b in zip(mine, other):
        by_text(a, b, made)
    return made


def _below(it: Dict[str, Any]) -> List[Dict[str, Any]]:
    """All nodes right below one: both dumps have the operands in order, though not by the same names."""
    return [x for value in it.values() if isinstance(value, list) for x in value]
