"""Files whose names stand at positions that were chosen to crowd in a hash table: in one with the toolchain's own hash
and its fixed seed, and in one with this program's hash where no entry was mixed into its keys. A third file has other
positions in no order, as far apart. A name of a crowding file takes at most eight times as long as one of the third,
and each file is written back as it stands. The time of one file differs by up to three times between runs of this test;
in a crowded table each name is sought among many others, so its time is meant to grow with the number of names. (Names
that ascend, as in most files, need no table: their time is printed beside.)

All are binary files of one header, M inputs and as many names (`--names`; 147,000, and 1,000,000 by hand). What such a
file takes with one name is taken off, and the rest is shared among the names. Times are processor times; the files take
turns, and the least of each counts."""

from random import Random

from library.runs import Ended, contents, write
from library.times import processor_time

M = 4194303
NAMES = 147_000
BITS = 0xFFFF_FFFF_FFFF_FFFF
SEED = 0x243F_6A88_85A3_08D3
MOST = 8  # times as long
TURNS = 9


def folded(state, value, length):
    """The toolchain's hash after a number of 4 or 8 bytes: a product of 128 bits whose halves are joined."""
    word = value | value << 32 if length == 4 else value
    product = (state ^ word) * (0x9E37_79B9_7F4A_7C15 ^ 2 * length)
    return (product & BITS) ^ (product >> 64)


def rotated(word, by):
    return (word << by | word >> 64 - by) & BITS


def sip_round(a, b, c, d):
    a, c = (a + b) & BITS, (c + d) & BITS
    b, d = rotated(b, 13) ^ a, rotated(d, 16) ^ c
    a, c = (rotated(a, 32) + d) & BITS, (c + b) & BITS
    return a, rotated(b, 17) ^ c, rotated(c, 32), rotated(d, 21) ^ a


def sip(words):
    """SipHash-1-3 of words of 8 bytes, with both keys 0."""
    state = tuple(int.from_bytes(part, "big") for part in (b"somepseu", b"dorandom", b"lygenera", b"tedbytes"))
    for word in [*words, (8 * len(words) & 255) << 56]:
        a, b, c, d = sip_round(*state[:3], state[3] ^ word)
        state = (a ^ word, b, c, d)
    a, b, c, d = state
    state = (a, b, c ^ 255, d)
    for _ in range(3):
        state = sip_round(*state)
    a, b, c, d = state
    return a ^ b ^ c ^ d


def crowding_positions(count, first, last):
    """So many positions of inputs whose entries stand in as few groups of the table as can be, group after group. The
    hash takes in its last key, if it has one, after the entry."""
    groups = 1
    while 9 * groups < count:
        groups *= 2
    # An entry is its section, as 8 bytes, and its position, as 4.
    inputs = folded(first, 0, 8)
    # Positions of later groups are not wanted, so that less is sorted: a quarter more than even groups would have.
    end = groups * count * 5 // (M * 4) + 1
    crowd = []
    for position in range(M):
        state = folded(inputs, position, 4)
        if last is not None:
            state = folded(state, last, 8)
        group = (state ^ state >> 32) & (groups - 1)
        if group <= end:
            crowd.append((group, position))
    crowd.sort()
    return [position for _, position in crowd[:count]]


def crowded_names(program, tally, chosen):
    count = chosen.names
    first = folded(SEED, sip([]), 8)
    crowds = {
        "crowding": crowding_positions(count, SEED, None),
        "crowding by fixed keys": crowding_positions(count, first, sip([first])),
    }
    for name, crowd in crowds.items():
        tally.check(f"{name}: positions", len(crowd) == count, "fewer crowd than are wanted")
    mixed = Random(1).sample(range(M), count)
    files = {"one name": [0], "ascending": range(count), "mixed": mixed, **crowds}
    for name, positions in files.items():
        write(name, f"aig {M} {M} 0 0 0\n" + "".join(f"i{position} a\n" for position in positions))
    least = {}
    for _ in range(TURNS):
        for name in files:
            seconds, ended = processor_time(lambda: program.run("toaig", "--to", "aig", name))
            tally.check(name, ended == Ended(0, contents(name), b""), "it is not written as it stands")
            least[name] = min(seconds, least.get(name, seconds))
    each = {name: (seconds - least["one name"]) / count * 1e9 for name, seconds in least.items()}
    told = (
        f"{each['ascending']:.0f} ns a name that ascends, {each['mixed']:.0f} ns of others, "
        f"{each['crowding']:.0f} ns where positions crowd, {each['crowding by fixed keys']:.0f} ns by fixed keys; "
    )
    for name in crowds:
        is_quick = each[name] <= MOST * each["mixed"]
        tally.check(f"{name}: the time of a name", is_quick, told + f"more than {MOST} times as long")
    return told
