"""Signals of many bits, and the order of signals of all kinds."""

import random

import aig
from aig.waves.signals import Names
from aig.waves.svg import hexadecimal

BITS = 300


def wide(_, tally, __):
    """A vector of 300 bits, with rising and with falling indices: its bits, and its digits as Python has them."""
    chance = random.Random(3)
    for name, indices in (("rising", range(BITS)), ("falling", range(BITS - 1, -1, -1))):
        symbols = "".join(f"i{at} d[{index}]\n" for at, index in enumerate(indices))
        lines = "".join(f"{2 * at + 2}\n" for at in range(BITS))
        circuit = aig.Circuit(f"aag {BITS} {BITS} 0 0 0\n{lines}{symbols}")
        signal, = Names(circuit.entries).all
        # The first bit is the least significant, as Yosys writes a vector [0:299] so.
        tally.compare(f"wide: {name}: places", signal.positions, tuple(range(BITS)))
        row = "".join(chance.choice("01") for _ in range(BITS))
        number = int(row[::-1], 2)
        bits = "".join(row[at] for at in reversed(signal.positions))
        tally.compare(f"wide: {name}: digits", hexadecimal(bits), f"{number:0{BITS // 4}x}")
        tally.compare(f"wide: {name}: a number", circuit.simulate([row]).vector("d")[0] if name == "rising" else number,
                      number)
    for count in (1, 63, 64, 65, 257):
        tally.compare(f"wide: {count} bits", hexadecimal("1" * count), f"{(1 << count) - 1:x}")
    mixed = aig.Circuit("aag 4 2 2 2 0\n2\n4\n6 2\n8 4\n2\n6\ni0 a\nl0 b\nl1 c\no0 d\no1 e\n")
    tally.compare("wide: inputs, registers, outputs", [it.name for it in Names(mixed.entries).all],
                  ["a", "i1", "b", "c", "d", "e"])
