"""A large circuit of which a property reads one gate and one latch. Its formula for many frames takes little longer
than that for one: what the property does not read is not made (`--unread` is how many gates it does not read; 100,000).

The latch is bad, and its next state is an AND of itself and the input. The other gates are a chain that begins there.
The text is told here from the circuit, without the program. A time is processor time of a whole run; runs take turns,
and of each the least counts."""

from library.certificate import signed
from library.runs import Ended, write
from library.times import processor_time

FRAMES = 40
TURNS = 5
MOST = 2.0  # times as long


def formula(frames):
    """The text for so many frames. The property reads one gate of each."""
    gates = [2 * (frames + frame + 1) for frame in range(frames)]
    states = [0, *gates[:-1]]
    clauses = [[-1], [signed(state) for state in states]]
    for frame in range(frames - 1):
        first, second = sorted((states[frame], 2 * (frame + 1)), reverse=True)
        gate = gates[frame]
        clauses += [[-signed(gate), signed(first)], [-signed(gate), signed(second)],
                    [signed(gate), -signed(first), -signed(second)]]
    lines = [f"c aig cnf --frames {frames} --property 0 \n"]
    lines += [f"c i {frame + 2} {frame} 0 \n" for frame in range(frames)]
    lines += [f"c b {signed(state)} {frame}\n" for frame, state in enumerate(states)]
    lines.append(f"p cnf {2 * frames + 1} {len(clauses)}\n")
    lines += [" ".join(map(str, clause)) + " 0\n" for clause in clauses]
    return "".join(lines).encode()


def unread_gates(program, tally, chosen):
    unread = chosen.unread
    lines = [f"aag {unread + 3} 1 1 0 {unread + 1} 1\n2\n4 6\n4\n6 4 2\n"]
    lines += [f"{2 * at + 8} {2 * at + 6} 2\n" for at in range(unread)]
    write("circuit", "".join(lines))
    least = {}
    for _ in range(TURNS):
        for frames in (1, FRAMES):
            seconds, ended = processor_time(
                lambda: program.run("cnf", "--frames", str(frames), "--property", "0", "circuit"))
            tally.compare(f"the formula of {frames} frames", ended, Ended(0, formula(frames), b""))
            least[frames] = min(seconds, least.get(frames, seconds))
    told = f"{1e3 * least[1]:.0f} ms for one frame of {unread} gates, {1e3 * least[FRAMES]:.0f} ms for {FRAMES}; "
    tally.check("the time of a formula", least[FRAMES] <= MOST * least[1], told + f"more than {MOST:.0f} times as long")
    return told
