"""What a simulator says of rows and of their circuit. It proves nothing: it is a second reader of the sources, and where it
disagrees, somebody has to look."""

from __future__ import annotations

from dataclasses import asdict, dataclass, replace
from textwrap import shorten
from typing import Any, Dict, List, NamedTuple, Optional, Sequence, Tuple

from .decisions import Judged
from .sentences import DISAGREES, NOT_SIMULATED, counted
from ..listing import places

AGREES = "agrees"
# How long the reason may be in a last line.
MOST_WHY = 300


class Said(NamedTuple):
    """What a simulator says of a row.

    word  `agrees`, `disagrees`, or `open`
    text  the same as a sentence
    """

    word: str
    text: str


@dataclass(frozen=True)
class AsIn:
    """That random runs are the same in a simulator: only replay/run.py makes one, of the runs that it compared.

    by            the simulator
    signals       how many signals were compared
    values        how many values of signals and assertions were the same
    unknown       how many were x in the simulation, and are not among them
    left_out      how many signals of the circuit were not compared
    unasked       how many assertions, covers and assumptions had no value
    without_row   where the sources have assertions that are perhaps in no row
    unplayed      how many runs of rows were not played
    translated    whether concurrent assertions were played as they were translated
    seed          what chose the runs; 0 if nobody did
    limits        what this simulator does not tell
    """

    by: str
    signals: int
    values: int
    unknown: int = 0
    left_out: int = 0
    unasked: int = 0
    without_row: Tuple[str, ...] = ()
    unplayed: int = 0
    translated: bool = False
    seed: int = 0
    limits: str = ""

    def __post_init__(self) -> None:
        if self.values <= 0:
            raise ValueError("nothing was compared")

    @property
    def said(self) -> str:
        """The same as a sentence."""
        unknown = f"{self.unknown:,} {'is' if self.unknown == 1 else 'are'} x there" if self.unknown else ""
        counts = {"signal": self.left_out, "assertion": self.unasked, "run": self.unplayed}
        left = ", ".join(counted(f"{count:,}" if count > 1 else count, name) for name, count in counts.items() if count)
        parts = [f"{self.signals:,} signals, {self.values:,} values: as in {self.by}", unknown,
                 f"not compared: {left}" if left else "",
                 f"no row is about {places(self.without_row)}" if self.without_row else "", self.limits,
                 "concurrent assertions as they were translated" if self.translated else ""]
        return "; ".join(filter(None, parts)) + (f" (seed {self.seed})" if self.seed else "")


class Simulated(NamedTuple):
    """What a simulator says.

    by       the simulator, as in `Icarus Verilog 11.0`; empty if none was asked
    circuit  what it says of the whole circuit, as a sentence, or that nobody says anything
    agrees   whether it says the same as the circuit; None if nothing could be compared, or no simulator was asked
    rows     what it says of rows, by position
    as_in    what was compared and is the same; None if something differs, if nothing could be compared, and of a sender
    why      why nothing was compared, if a simulator was asked
    """

    by: str = ""
    circuit: str = ""
    agrees: Optional[bool] = None
    rows: Dict[int, Said] = {}
    as_in: Optional[AsIn] = None
    why: str = ""

    @property
    def silence(self) -> str:
        """That nothing was compared, and why if a simulator was asked."""
        return NOT_SIMULATED + (f": {shorten(self.why, MOST_WHY)}" if self.why else "")

    def facts(self) -> Dict[str, Any]:
        """What MANIFEST.json has of it."""
        if not self.circuit:
            return {}
        rows = {str(at): list(said) for at, said in sorted(self.rows.items())}
        counts = {"compared": {**asdict(self.as_in), "without_row": [*self.as_in.without_row]}} if self.as_in else {}
        return {"by": self.by, "circuit": self.circuit, "agrees": self.agrees, "rows": rows, **counts}

    def beside(self, table: Sequence[Judged]) -> List[Judged]:
        """The table, without the rows that the simulator denies. If it denies the circuit, the others say so."""
        return [self._beside(it) for it in table]

    def _beside(self, it: Judged) -> Judged:
        said = self.rows.get(it.row.position)
        if said is not None and said.word == DISAGREES:
            return it.denied_by(said.text)
        is_denied = self.agrees is False and (said is None or said.word != AGREES)
        return replace(it, simulated=said.text if said else "",
                       denied=f"the circuit is not as in {self.by}" if is_denied else "")


def of_facts(facts: Dict[str, Any]) -> Simulated:
    """What a manifest says. Somebody may have written it, so it is no `AsIn`."""
    if not facts:
        return Simulated()
    rows = {int(at): Said(*said) for at, said in facts["rows"].items()}
    return Simulated(facts["by"], facts["circuit"], facts["agrees"], rows)


def are_facts(value: Any) -> bool:
    """Whether MANIFEST.json can have this."""
    return value == {} or (
        type(value) is dict and set(value) - {"compared"} == set(Simulated(circuit="any").facts())
        and type(value.get("compared", {})) is dict
        and type(value["by"]) is str and type(value["circuit"]) is str and type(value["agrees"]) in (bool, type(None))
        and type(value["rows"]) is dict and all(_is_row(at, said) for at, said in value["rows"].items()))


def _is_row(at: str, said: Any) -> bool:
    is_number = at.isascii() and at.isdigit() and len(at) < 10
    return is_number and type(said) is list and len(said) == 2 and all(type(it) is str for it in said)
