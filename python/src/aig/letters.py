"""Texts of others, as a page or a terminal may show them."""

from __future__ import annotations

import re


def escape(text: str) -> str:
    """Text for SVG and HTML. What no document may hold, and what would turn the direction of the text around, is shown
    as a number."""
    return quoted(visible(text))


def marked(sentence: str) -> str:
    """A sentence as HTML: `..` is code, and **..** is bold."""
    return re.sub(r"\*\*(.*?)\*\*", r"<b>\1</b>", re.sub("`(.*?)`", r"<code>\1</code>", escape(sentence)))


def visible(text: str) -> str:
    """Text in which each letter can be seen."""
    return _HIDDEN.sub(lambda found: _number(ord(found[0])), text)


# Controls, letters that nothing is drawn for, blanks but the usual one, marks that turn the direction, lone surrogates,
# and what is no letter.
_HIDDEN = re.compile(
    r"[\x00-\x1f\x7f-\xa0\xad\u034f\u061c\u115f\u1160\u1680\u17b4\u17b5\u180b-\u180f\u2000-\u200f\u2028-\u202f"
    r"\u205f-\u206f\u2800\u3000\u3164\ud800-\udfff\ufe00-\ufe0f\ufeff\uffa0\ufff9-\ufffb\U0001d173-\U0001d17a"
    r"\U000e0000-\U000e0fff" + "".join(rf"\U{plane:04x}fffe\U{plane:04x}ffff" for plane in range(17)) + "]")


def _number(code: int) -> str:
    return f"\\x{code:02x}" if code < 256 else f"\\u{code:04x}"


def quoted(text: str) -> str:
    return re.sub("[&<>\"']", lambda found: f"&#{ord(found[0])};", text)
