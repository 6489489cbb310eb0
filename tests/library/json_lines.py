"""A reader of the lines that `aig why --json` and `aig info --names --json` print, by Python's own reader of JSON. It
shares nothing with the toolkit."""

import json

from library.causes import number

# The members of each kind of line, in their order.
MEMBERS = {"asked": ["line", "frame", "name", "value", "by", "causes"],
           "latches": ["line", "frame", "signal", "by", "causes"],
           "not explained": ["line", "frame", "latches"], "reset": ["line", "frame", "latches"],
           "start": ["line", "frame", "latches"]}
SIGNAL = ["letter", "position", "name", "value"]
ENTRY = ["letter", "position", "literal", "name"]


def objects(text):
    """The objects of a text, one per line, each with its members in their order and each of them once."""
    assert text == b"" or text.endswith(b"\n"), text
    return [json.loads(line, object_pairs_hook=members) for line in text.decode().split("\n")[:-1]]


def members(pairs):
    assert len(dict(pairs)) == len(pairs), pairs
    return dict(pairs)


def word(signal):
    assert list(signal) == SIGNAL, signal
    return f"{signal['name']}={number(signal['value'][::-1])}"


def words(signals):
    return " ".join(map(word, signals)) or "always"


def as_text(it):
    """The line of text that says what an object of `why --json` says."""
    assert list(it) == MEMBERS[it["line"]], it
    if it["line"] == "asked":
        assert it["by"] == it["frame"], it
        return f"{it['name']}={number(it['value'][::-1])} at {it['frame']}: {words(it['causes'])}\n"
    if it["line"] == "latches":
        return f"{word(it['signal'])} at {it['frame']}, by {it['by']}: {words(it['causes'])}\n"
    how = "not explained" if it["line"] == "not explained" else f"by {it['line']}"
    return f"at {it['frame']}, {how}: {words(it['latches'])}\n"


def signals_of(it):
    """The signals that a line names."""
    return [it["signal"] for name in it if name == "signal"] + it.get("causes", []) + it.get("latches", [])


def entry_line(it):
    """The line of text, as bytes, that says what an object of `info --names --json` says."""
    assert list(it) == ENTRY, it
    name = it["name"]
    symbol = b"" if name is None else name.encode() if isinstance(name, str) else bytes(name)
    literal = "-" if it["literal"] is None else it["literal"]
    return f"{it['letter']} {it['position']} {literal} ".encode() + symbol + b"\n"
