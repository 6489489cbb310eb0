"""Long witnesses whose values are needed, or some of them, for `aig reduce`. If each needed value cost all later
frames, or each look all constraints of all later frames, they would take minutes."""

import resource

from library.runs import Ended, write

SECONDS = 15  # of processor time, for each witness


def reductions(program, tally, _):
    for name, (circuit, rows, wanted, *starts) in witnesses():
        given, left = starts or [start(circuit)] * 2
        write("circuit", circuit)
        write("witness", text(given, rows))
        ended = program.run("reduce", "circuit", "witness", preexec_fn=limited, timeout=10 * SECONDS)
        if ended.status is None or ended.status < 0:
            tally.check(name, False, f"it does not end within {SECONDS} seconds")
        else:
            tally.compare(name, ended, Ended(0, text(left, wanted).encode(), b""))


def witnesses():
    """The circuit, the given rows and the reduced ones, by name. Where a latch is uninitialised, then come what the
    latches start at in the given witness and in the reduced one."""
    yield "a watchdog of 9,000 frames", watchdog(16, 9000, 8)
    yield "65,536 frames, each with a constraint", (constrained(1), ["11"] * 65536, ["1x"] * 65536)
    yield "4,000 frames, each with 1,000 constraints", (constrained(1000), ["11"] * 4000, ["1x"] * 4000)
    yield "10,000 values, of which each 33rd is needed", sparse(10_000, 33)
    yield "65,536 frames, each with one of two values", either(65_536)
    yield "a frame with one of two values, 65,536 times", either_at_once(65_536)
    yield "a frame with one of two starts, 65,536 times", either_start(65_536)
    yield "65,536 frames, each with a value on two ways", on_two_ways(65_536)


def watchdog(bits, frames, noise):
    """A counter that an input sets back, with other inputs beside it. The property is that it has counted `frames`."""
    inputs = [2 * (1 + place) for place in range(1 + noise)]
    latches = [inputs[-1] + 2 * (1 + place) for place in range(bits)]
    gates = Gates(latches[-1] + 2)
    carry, following = 1, []
    for latch in latches:
        both = gates.both(latch, carry)
        either = gates.both(latch ^ 1, carry ^ 1)
        following.append(gates.both(gates.both(both ^ 1, either ^ 1), inputs[0] ^ 1))
        carry = both
    bad = 1
    for place, latch in enumerate(latches):
        bad = gates.both(bad, latch ^ (frames >> place & 1 ^ 1))
    head = f"aag {gates.top // 2} {1 + noise} {bits} 0 {len(gates.lines)} 1\n"
    lines = [f"{literal}\n" for literal in inputs]
    lines += [f"{latch} {after}\n" for latch, after in zip(latches, following)]
    circuit = head + "".join(lines) + f"{bad}\n" + "".join(gates.lines)
    return circuit, ["0" + "1" * noise] * (frames + 1), ["0" + "x" * noise] * frames + ["x" * (1 + noise)]


class Gates:
    """Gates from a first left side on."""

    def __init__(self, first):
        self.top, self.lines = first - 2, []

    def both(self, one, other):
        self.top += 2
        self.lines.append(f"{self.top} {one} {other}\n")
        return self.top


def constrained(count):
    """The first of two inputs is the property, and also the constraint, so many times."""
    return f"aag 2 2 0 0 0 1 {count}\n2\n4\n2\n" + "2\n" * count


def sparse(frames, period):
    """A ring of latches, whose last one is 1 at one of so many frames. There the input has to be 1, by a constraint
    that is a gate with one literal on both sides. No look back over the run shows that it needs one of them."""
    ring = [4 + 2 * place for place in range(period)]
    gates = Gates(ring[-1] + 2)
    missing = gates.both(ring[-1], 3)
    twice = gates.both(missing, missing)
    lines = [f"{latch} {ring[place - 1]} {int(place == 0)}\n" for place, latch in enumerate(ring)]
    head = f"aag {gates.top // 2} 1 {period} 0 {len(gates.lines)} 1 1\n2\n"
    circuit = head + "".join(lines) + f"1\n{twice ^ 1}\n" + "".join(gates.lines)
    wanted = ["1" if frame % period == period - 1 else "x" for frame in range(frames)]
    return circuit, ["1"] * frames, wanted


def either(frames):
    """One of two inputs has to be 1 at each frame. The other one is needed only where the first has become x."""
    circuit = "aag 5 2 1 0 2 1\n2\n4\n6 10 1\n10\n8 3 5\n10 6 9\n"
    return circuit, ["11"] * frames, ["x1"] * frames


def either_at_once(count):
    """The same at one frame, for so many pairs of inputs."""
    inputs = [2 * (1 + place) for place in range(2 * count)]
    bad, gates = all_either(inputs, inputs[-1] + 2)
    head = f"aag {gates.top // 2} {2 * count} 0 0 {len(gates.lines)} 1\n"
    circuit = head + "".join(f"{literal}\n" for literal in inputs) + f"{bad}\n" + "".join(gates.lines)
    return circuit, ["11" * count], ["x1" * count]


def either_start(count):
    """The same for pairs of latches at the first frame."""
    latches = [4 + 2 * place for place in range(2 * count)]
    bad, gates = all_either(latches, latches[-1] + 2)
    head = f"aag {gates.top // 2} 1 {2 * count} 0 {len(gates.lines)} 1\n2\n"
    circuit = head + "".join(f"{latch} {latch} {latch}\n" for latch in latches) + f"{bad}\n" + "".join(gates.lines)
    return circuit, ["1"], ["x"], "11" * count, "x1" * count


def all_either(literals, first):
    """The AND of all (a OR b), for the pairs of these literals; the gates begin at `first`."""
    gates = Gates(first)
    both = 1
    for one, other in zip(literals[::2], literals[1::2]):
        both = gates.both(both, gates.both(one ^ 1, other ^ 1) ^ 1)
    return both, gates


def on_two_ways(frames):
    """At each frame the first input has to be 1, and one of two others. No look back over the run shows that it needs
    the first one, since either of the gates that read it can be 0."""
    circuit = "aag 8 3 1 0 4 1\n2\n4\n6\n8 16 1\n16\n10 2 4\n12 2 6\n14 11 13\n16 8 15\n"
    return circuit, ["111"] * frames, ["1x1"] * frames


def text(starts, rows):
    return f"1\nb0\n{starts}\n" + "".join(f"{row}\n" for row in rows) + ".\n"


def start(circuit):
    """What the latches start at by their resets; without one it is 0."""
    head, *lines = circuit.splitlines()
    inputs, latches = (int(size) for size in head.split()[2:4])
    return "".join((line.split() + ["0"])[2] for line in lines[inputs:inputs + latches])


def limited():
    resource.setrlimit(resource.RLIMIT_CPU, (SECONDS, SECONDS))
