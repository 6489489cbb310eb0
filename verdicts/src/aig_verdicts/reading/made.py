"""Has Yosys make a circuit. Whatever Yosys does wrong is a ToolFailed, as are files that make no sense."""

from __future__ import annotations

from pathlib import Path
from typing import Any, Mapping, Sequence

from .design import Design, Reading, read_verilog
from aig.tools import Stop, ToolFailed


def reading_of(options: Mapping[str, Any], include: Sequence[Path] = (), asserts: Sequence[Path] = ()) -> Reading:
    """How sources are read, by the options of MANIFEST.json: top, defines, conditions, wires, free, parameters, module. The
    files `asserts` are put into the module."""
    return Reading(options["top"] or "", options["defines"], options["conditions"], options["wires"], include,
                   options.get("free", ()), options.get("parameters", ()), asserts, options.get("module", ""))


def made(files: Sequence[Path], how: Reading, stop: Stop) -> Design:
    """The circuit of these sources."""
    for file in [*files, *how.asserts]:
        file.open("rb").close()  # a source that is missing is an error of its own
    try:
        return read_verilog(files, how, stop)
    except FileNotFoundError as error:
        if error.filename is None:
            raise
        raise ToolFailed(f"Yosys did not write {Path(str(error.filename)).name}") from None
    except (LookupError, ValueError, TypeError, AttributeError) as error:
        raise ToolFailed(f"what Yosys wrote makes no sense: {type(error).__name__}: {error}") from None
