"""Copies of the sources: immediate assertions replace concurrent ones, which Yosys does not read, and parameters of the top
module have the values that they get."""

from __future__ import annotations

from typing import Any, Dict, Mapping, NamedTuple, Optional, Sequence

from ..sva.inserted import Inserted, with_inserted
from ..options import Unusable, values_of
from ..sva.parameters import Given, given_to, with_values
from ..sva.preprocessed import Preprocessed
from ..sva.translation import Untranslated, translated
from ..sva.words import Rejected
from aig.tools import ToolFailed


class Copies(NamedTuple):
    """The copies of the sources that differ from them, and whether they would be others with several clocks.

    texts   what Yosys reads
    played  what a simulator reads, which gives parameters their values by itself
    top     the top module, if a parameter of it gets a value
    left    the file and line of each assertion that is left out, as it asks for liveness
    """

    texts: Dict[str, bytes]
    played: Dict[str, bytes]
    depend_on_clocks: bool
    top: str = ""
    left: Sequence[str] = ()


def inserted_of(options: Mapping[str, Any]) -> Optional[Inserted]:
    """The files of assertions that are put into a module, by the options of MANIFEST.json."""
    return Inserted(options["module"], tuple(options["asserts"])) if options.get("asserts") else None


def copies(sources: Mapping[str, bytes], read: Sequence[str], options: Mapping[str, Any],
           is_one_clock: bool = True) -> Copies:
    """The copies that Yosys reads; none where it reads the sources themselves. The options are those of MANIFEST.json."""
    texts, inserted = {name: text.decode("latin-1") for name, text in sources.items()}, inserted_of(options)
    defines, changed = options["defines"], {}
    try:
        if inserted is not None:
            changed = with_inserted(texts, read, defines, inserted)
        given = _given({**texts, **changed}, read, options)
        found = translated({**texts, **changed}, read, defines, is_one_clock, given)
        played = {**changed, **found.texts}
        made = {**played, **with_values({**texts, **played}, read, defines, given)} if given else played
    except (Untranslated, Rejected, Unusable) as error:
        raise ToolFailed(str(error)) from None
    return Copies(_bytes(made), _bytes(played), found.has_resets, given.module if given else "", found.left)


def _given(texts: Mapping[str, str], read: Sequence[str], options: Mapping[str, Any]) -> Optional[Given]:
    """The values that parameters of the top module get, if there are any."""
    values = values_of(options.get("parameters", ()))
    return given_to(options["top"] or "", values, Preprocessed(texts, read, options["defines"]).words) if values else None


def given_values(options: Mapping[str, Any]) -> str:
    """What gives parameters their values at an instance of the top module."""
    values = values_of(options.get("parameters", ()))
    return f" #({', '.join(f'.{name}({value})' for name, value in values.items())})" if values else ""


def _bytes(texts: Mapping[str, str]) -> Dict[str, bytes]:
    return {name: text.encode("latin-1") for name, text in texts.items()}
