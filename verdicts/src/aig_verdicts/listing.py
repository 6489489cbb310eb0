"""Places of sources in a message."""

from __future__ import annotations

import re
from typing import Sequence


def places(found: Sequence[str]) -> str:
    """The places, the first ones of many."""
    each = sorted(set(found), key=lambda place: re.sub(r"\d+$", lambda it: it[0].zfill(9), place))
    return ", ".join(each[:5]) + (f" and {len(each) - 5} more" if len(each) > 5 else "")
