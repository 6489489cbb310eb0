"""Lines at the prompt and arguments that ask for many things at once: a value at 65,536 frames, the name that is
nearest to a word among 100,000, 2,100 names of 100,000 in a line, and 16,000 properties by their names. If each frame
of a line cost all later frames, or each name of a line or of the arguments a walk over all names, they would take
minutes."""

import resource

from library.runs import Ended, write

SECONDS = 15  # of processor time, for each run
FRAMES = 65_536
NAMES = 100_000
PROPERTIES = 16_000


def prompts(program, tally, _):
    for name, (words, lines, wanted) in runs():
        ended = program.run(*words, input=lines.encode(), preexec_fn=limited, timeout=10 * SECONDS)
        if ended.status is None or ended.status < 0:
            tally.check(name, False, f"it does not end within {SECONDS} seconds")
        else:
            tally.compare(name, ended, Ended(0, wanted.encode(), b""))


def runs():
    """The words, the lines and what is written, by name."""
    yield "a value at 65,536 frames", at_all_frames()
    yield "a value of 4,096 inputs at 650 frames", of_a_vector()
    yield "the name that is nearest, of 100,000", nearest()
    yield "2,100 names of 100,000 in a line", many_names()
    yield "16,000 properties by their names", named_properties()


def at_all_frames():
    """A latch that flips where the input is 1, and another that flips where the first is 1: so each frame depends on
    all before it. At frame t the first is t modulo 2, and the second is the half of t, rounded down, modulo 2."""
    write("circuit", "aag 9 1 2 1 6\n2\n4 15\n6 19\n6\n10 2 5\n12 3 4\n14 11 13\n8 4 7\n16 5 6\n18 9 17\n")
    write("rows", "0\n" * FRAMES)
    last = FRAMES - 1
    lines = f"set 0-{last} i0 1\nshow i0 l0 l1 @{last - 1}-{last}\nset 9-{last} i0 0\nshow i0 l0 l1 @{last}\n" + LEAVE
    wide = "".join(f"{name:<5} {one:>5} {other:>5}\n" for name, one, other in (
        ("frame", last - 1, last), ("i0", 1, 1), ("l0", 0, 1), ("l1", 1, 1)))
    narrow = "".join(f"{name:<5} {value:>5}\n" for name, value in (("frame", last), ("i0", 0), ("l0", 1), ("l1", 0)))
    return ("shell", "circuit", "rows"), lines, wide + narrow + LEFT


def of_a_vector():
    """Latches that each flip where an input of a vector is 1."""
    count, frames = 4096, 650
    inputs = [2 * (1 + place) for place in range(count)]
    latches = [inputs[-1] + 2 * (1 + place) for place in range(count)]
    gates, following = [], []
    top = latches[-1]
    for one, other in zip(inputs, latches):
        gates += [f"{top + 2} {one} {other ^ 1}\n", f"{top + 4} {one ^ 1} {other}\n",
                  f"{top + 6} {top + 3} {top + 5}\n"]
        following.append(top + 7)
        top += 6
    head = f"aag {top // 2} {count} {count} 0 {len(gates)}\n"
    lines = [*(f"{literal}\n" for literal in inputs), *(f"{at} {after}\n" for at, after in zip(latches, following))]
    write("circuit", head + "".join(lines + gates) + "".join(f"i{place} v[{place}]\n" for place in range(count)))
    write("rows", ("0" * count + "\n") * frames)
    lines = f"set 0-{frames - 1} v {'f' * (count // 4)}\nshow l0 l4095 @{frames - 2}-{frames - 1}\n" + LEAVE
    table = f"frame {frames - 2} {frames - 1}\nl0      0   1\nl4095   0   1\n"
    return ("shell", "circuit", "rows"), lines, table + LEFT


def nearest():
    """Names that are all long, and words that differ from each in two places or more."""
    names = [f"top.block_{at:06}.a_signal_with_a_long_name_{at:06}" for at in range(NAMES)]
    write("circuit", f"aag {NAMES} {NAMES} 0 0 0\n" + "".join(f"{2 * at + 2}\n" for at in range(NAMES))
          + "".join(f"i{at} {name}\n" for at, name in enumerate(names)))
    write("rows", "0" * NAMES + "\n")
    word, far = "top.block_05000x.a_signal_with_a_long_name_05000y", "".join(chr(33 + at) for at in range(90, 40, -1))
    lines = f"show {word}\nshow {far}\n" * 10
    near = f"no: no name {word}; do you mean {names[50_000]}?\nno: no name {far}\n"
    return ("shell", "circuit", "rows"), lines, near * 10


def many_names():
    """Inputs that are 1 at odd positions: with first names and a word that many have, in vectors of four with a further
    name each, and with words of vectors after the first. A gate is an input and the next one, so it is 0."""
    names = [f"top.scalar_{at:05} all[0]" for at in range(40_000)]
    names += [f"vec{at // 4:05}[{at % 4}] alias_{at:05}" for at in range(40_000)]
    names += [f"x{at} w{at // 4:05}[{at % 4}]" for at in range(NAMES - 80_000)]
    gates = [2 * (1 + NAMES + gate) for gate in range(300)]
    write("circuit", f"aag {NAMES + 300} {NAMES} 0 0 300\n" + "".join(f"{2 * at + 2}\n" for at in range(NAMES))
          + "".join(f"{literal} {2 * at + 4} {2 * at + 2}\n" for at, literal in enumerate(gates))
          + "".join(f"i{at} {name}\n" for at, name in enumerate(names)))
    write("rows", "01" * (NAMES // 2) + "\n")
    many = range(300)
    kinds = [(f"top.scalar_{39_999 - at:05}", (at + 1) % 2) for at in many] + [(f"vec{9_999 - at:05}",
                                                                                "a") for at in many]
    kinds += [(f"alias_{39_999 - at:05}", (at + 1) % 2) for at in many] + [(f"w{4_999 - at:05}", "a") for at in many]
    kinds += [(f"i{NAMES - 1 - at}", (at + 1) % 2) for at in many]
    kinds += [(literal, 0) for literal in gates] + [(f"!{literal}", 1) for literal in gates]
    same = [("all", 0)] * 2_000
    lines = "".join(f"show {' '.join(str(name) for name, _ in shown)}\n" for shown in (kinds, same))
    tables = "".join(f"{name:<{width}} {value}\n" for shown, width in ((kinds, 16), (same, 5))
                     for name, value in [("frame", 0), *shown])
    return ("shell", "circuit", "rows"), lines, tables


def named_properties():
    names = [f"p{at:05}x" for at in range(PROPERTIES)]
    write("circuit", f"aag 1 1 0 0 0 {PROPERTIES}\n2\n" + "2\n" * PROPERTIES
          + "".join(f"b{at} {name}\n" for at, name in enumerate(names)))
    words = [word for name in reversed(names) for word in ("--property", name)]
    written = f"aag 1 1 0 0 0 {PROPERTIES}\n2\n" + "2\n" * PROPERTIES
    written += "".join(f"b{PROPERTIES - 1 - at} {name}\n" for at, name in enumerate(names))
    return ("select", "--to", "aag", *words, "circuit"), "", written


LEAVE = "quit\nquit\n"
LEFT = "unsaved: run; quit again to leave\n"


def limited():
    resource.setrlimit(resource.RLIMIT_CPU, (SECONDS, SECONDS))
