"""Rewires of gates away from a hub, a net that very many gates read, as a reset or an enable is, and back to it. In a
long list of fan-outs the place of each gate is kept, and so a rewire takes the same time away from a hub as away from a
net that one gate reads. First the values after a hub are compared with those that the lines of the script ask for.

The circuit has many gates that read the hub (`--readers`; 200,000), and as many that read a net of few readers in its
place; beside it each reads another such net. The same lines are asked for gates of either kind, chosen at random: away
to one more net of few readers, and back. A time is processor time of a whole run, on a stimulus of no frames, without
that of a run whose script is empty; runs of all kinds take turns, and of each kind the least counts."""

import random

from library.runs import Ended, write
from library.times import processor_time

REWIRED = 20_000
ROUNDS = 5
TURNS = 5
MOST = 2.0  # times as long
HUB = 2


def circuit(name, inputs, gates):
    """Writes a circuit of gates with these sides, the first of which has the literal that is answered."""
    first = 2 * (inputs + 1)
    lines = [f"aag {inputs + len(gates)} {inputs} 0 0 {len(gates)}\n"]
    lines += [f"{2 * at}\n" for at in range(1, inputs + 1)]
    lines += [f"{first + 2 * at} {left} {right}\n" for at, (left, right) in enumerate(gates)]
    write(name, "".join(lines))
    return first


def values_behind_a_hub(program, tally, readers):
    """Gates leave the hub and come back in any order, and one more is appended; then the hub changes its value."""
    chance = random.Random(readers)
    first = circuit("circuit", 2, [(HUB, 1)] * readers)
    gates = [first + 2 * at for at in range(readers)]
    other = 4
    value = {HUB: 0, other: 1}
    reads = {gate: HUB for gate in gates}
    lines, wanted = [], []
    for _ in range(20):
        for gate in chance.sample(gates, len(gates) // 2):
            reads[gate] = chance.choice((HUB, HUB, other))
            sides = [reads[gate], chance.choice((1, reads[gate]))]
            chance.shuffle(sides)
            lines.append(f"w {gate} {sides[0]} {sides[1]}")
            wanted.append("ok")
        gates.append(gates[-1] + 2)
        reads[gates[-1]] = HUB
        lines.append(f"g {HUB} 1")
        wanted.append("ok")
        value[HUB] ^= 1
        lines.append(f"s 0 0 {value[HUB]}")
        wanted.append("ok")
        for gate in gates:
            lines.append(f"v 0 {gate}")
            wanted.append(str(value[reads[gate]]))
    write("rows", "01\n")
    write("script", "\n".join(lines) + "\n")
    ended = program.run("bench", "circuit", "rows", "script")
    tally.compare(f"values behind {readers} readers", ended, Ended(0, ("\n".join(wanted) + "\n").encode(), b""))


def write_script(name, rewires):
    """Writes rewires of gates away from nets and back: each a gate, its net, another net, and the gate's other side."""
    lines = []
    for _ in range(ROUNDS):
        lines += [f"w {gate} {away} {side}\n" for gate, net, away, side in rewires]
        lines += [f"w {gate} {net} {side}\n" for gate, net, away, side in rewires]
    write(name, "".join(lines))


def hubs(program, tally, chosen):
    for readers in (3, 63, 64, 65, 66, 130, 500):
        values_behind_a_hub(program, tally, readers)
    readers = chosen.readers
    near = [HUB + 2 + 2 * at for at in range(readers)]
    far = [HUB + 2 + 2 * (readers + at) for at in range(readers)]
    first = circuit("circuit", 1 + 2 * readers, [(HUB, side) for side in near] + list(zip(far, near)))
    moved = random.Random(readers).sample(range(readers), min(REWIRED, readers))
    away = [far[(at + 1) % readers] for at in range(readers)]
    write_script("hub", [(first + 2 * at, HUB, away[at], near[at]) for at in moved])
    write_script("elsewhere", [(first + 2 * (readers + at), far[at], away[at], near[at]) for at in moved])
    write("rows", "")
    write("nothing", "")
    lines = 2 * ROUNDS * len(moved)
    least = {}
    for _ in range(TURNS):
        for script in ("nothing", "elsewhere", "hub"):
            seconds, ended = processor_time(lambda: program.run("bench", "circuit", "rows", script))
            wanted = b"" if script == "nothing" else b"ok\n" * lines
            tally.check(script, ended == Ended(0, wanted, b""), "a rewire is refused")
            least[script] = min(seconds, least.get(script, seconds))
    hub, elsewhere = least["hub"] - least["nothing"], least["elsewhere"] - least["nothing"]
    told = f"{1e9 * hub / lines:.0f} ns a rewire at {readers} readers, {1e9 * elsewhere / lines:.0f} ns elsewhere; "
    tally.check("the time of a rewire", hub <= MOST * elsewhere, told + f"more than {MOST:.0f} times as long")
    return told
