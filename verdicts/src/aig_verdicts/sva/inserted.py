"""Files of assertions that are put into a module of the sources: an `include` before its end."""

from __future__ import annotations

from dataclasses import dataclass
from typing import Dict, Mapping, Sequence, Tuple

from .preprocessed import Preprocessed
from .words import Rejected


@dataclass(frozen=True)
class Inserted:
    """The names of files, and the module that they are put into."""

    module: str
    files: Tuple[str, ...]


def with_inserted(texts: Mapping[str, str], read: Sequence[str], defines: Sequence[str],
                  inserted: Inserted) -> Dict[str, str]:
    """The text of the file of the module with its `include`, on the line of `endmodule`."""
    words = Preprocessed(texts, read, defines).words
    is_inside = False
    for before, word in zip(words, words[1:]):
        is_inside |= before.text in ("module", "macromodule") and word.text == inserted.module
        if is_inside and word.text == "endmodule":
            if word.use:
                raise Rejected(word, "the end of a module in a macro")
            included = "".join(f'`include "{name}" ' for name in inserted.files)
            text = texts[word.file]
            return {word.file: text[:word.start] + included + text[word.start:]}
    raise Rejected(None, f"{inserted.module} is no module of the sources")
