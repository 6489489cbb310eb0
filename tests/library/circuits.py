"""Small circuits that tests share, by name."""

from . import runs

TEXTS = {
    "one_gate": "aag 3 2 0 1 1\n2\n4\n6\n6 2 4\n",
    "two_gates": "aag 4 2 0 1 2\n2\n4\n8\n8 6 2\n6 2 4\n",
    "toggle": "aag 1 0 1 2 0\n2 3\n2\n3\n",
    "uninitialised_toggle": "aag 1 0 1 2 0\n2 3 2\n2\n3\n",
    "a_and_not_a": "aag 2 1 0 1 1\n2\n4\n4 2 3\n",
    "negates": "aag 1 1 0 1 0\n2\n3\n",
    "feedback": "aag 3 1 1 1 1\n2\n4 6 4\n4\n6 4 2\n",
    "chain": "aag 3 1 2 1 0\n2\n4 2\n6 4\n6\n",
    "cycle": "aag 3 1 0 1 2\n2\n4\n4 6 2\n6 4 2\n",
    "reads_itself": "aag 2 1 0 1 1\n2\n4\n4 4 2\n",
    "gap": "aag 2 1 0 1 0\n2\n2\n",
    "unused": "aag 7 1 0 1 2\n14\n5\n4 10 14\n10 14 15\n",
    "two_words": "aag 65 1 0 1 2\n128\n130\n126 128 128\n130 127 129\n",
    "empty": "aag 0 0 0 0 0\n",
    "wide": "aag 1022 0 0 0 0\n",
    "many": "aag 4194303 0 0 0 0\n",
    "bad_input": "aag 1 1 0 0 0 1\n2\n2\n",
    "guarded": "aag 2 2 0 0 0 1 1\n2\n4\n2\n4\n",
    "live": "aag 1 1 0 0 0 0 0 1 1\n2\n2\n2\n3\n2\n",
    "inputs": "aag 64 64 0 0 0\n" + "".join(f"{2 * at}\n" for at in range(1, 65)),
    "sections": "aag 3 1 1 1 1 1 1 1 1\n2\n4 6 4\n6\n6\n4\n1\n6\n4\n6 4 2\ni0 in\nl0 state\nc\nhi\n",
    "guarded_latch": "aag 3 1 1 1 1 1 1\n2\n4 6 4\n6\n6\n4\n6 4 2\n",
}


def write_all():
    """Writes each of them into the file of its name."""
    for name, text in TEXTS.items():
        runs.write(name, text)
