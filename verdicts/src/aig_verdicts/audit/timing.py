"""What happens between two frames of a circuit: its clocks and asynchronous resets."""

from __future__ import annotations

from typing import Any, Dict, NamedTuple, Sequence

CYCLES, CHANGES = "cycles", "changes"


class Timing(NamedTuple):
    """The clocks and resets of a circuit.

    is_cycle  whether a frame is a cycle of the one clock; else it is the time between changes of clocks
    clock     the one clock with its edge, as in `posedge clk`; empty if there is none
    first     the inputs that change before all others, as several clocks or the enables of latches read them
    resets    the inputs that are asynchronous resets, with the edge that begins one, as in `negedge rst_n`
    """

    is_cycle: bool = True
    clock: str = ""
    first: Sequence[str] = ()
    resets: Sequence[str] = ()

    @property
    def edge(self) -> str:
        return self.clock.split(" ")[0] or "posedge"

    @property
    def clock_name(self) -> str:
        return self.clock.split(" ")[-1]

    def facts(self) -> Dict[str, Any]:
        """What MANIFEST.json has of it."""
        return {"frames": CYCLES if self.is_cycle else CHANGES, "clock": self.clock, "first": list(self.first),
                "resets": list(self.resets)}


def of_facts(facts: Dict[str, Any]) -> Timing:
    return Timing(facts["frames"] == CYCLES, facts["clock"], facts["first"], facts["resets"])


def are_facts(value: Any) -> bool:
    """Whether MANIFEST.json can have this."""
    return value == {} or (
        type(value) is dict and set(value) == set(Timing().facts()) and value["frames"] in (CYCLES, CHANGES)
        and type(value["clock"]) is str
        and all(type(value[it]) is list and all(type(word) is str for word in value[it]) for it in ("first", "resets")))
