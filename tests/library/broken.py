"""Circuits, stimuli, witnesses and scripts made at random, and files that are broken at random."""

import re

LIMIT = 4194303


# ---- files

def circuit(rng):
    """A small circuit in text with all sections. Of every third one all definitions are in ascending order, and its
    gates may read greater variables."""
    inputs, latches, gates = rng.randrange(5), rng.randrange(4), rng.randrange(12)
    most = inputs + latches + gates + rng.choice((0, 0, 1, 7))
    variables = rng.sample(range(1, most + 1), inputs + latches + gates)
    ascending = rng.randrange(3) == 0
    if ascending:
        variables.sort()
    sources, lefts = variables[: inputs + latches], variables[inputs + latches:]
    # a gate reads those before it here
    rng.shuffle(lefts)
    defined = [0, *variables]

    def one(among):
        return str(2 * rng.choice(among) + rng.randrange(2))

    lines = [str(2 * v) for v in sources[:inputs]]
    for v in sources[inputs:]:
        reset = rng.choice(("", " 0", " 1", f" {2 * v}"))
        lines.append(f"{2 * v} {one(defined)}{reset}")
    counts = [rng.randrange(4)] + [rng.choice((0, 0, 1, 3)) for _ in range(4)]
    sizes = [rng.randrange(3) for _ in range(counts[3])]
    lines += [one(defined) for _ in range(sum(counts[:3]))]
    lines += [str(size) for size in sizes]
    lines += [one(defined) for _ in range(sum(sizes) + counts[4])]
    ands = []
    for at, left in enumerate(lefts):
        known = [0, *sources, *lefts[:at]]
        ands.append((left, f"{2 * left} {one(known)} {one(known)}"))
    if ascending:
        ands.sort()
    else:
        rng.shuffle(ands)
    lines += [line for _, line in ands]
    names = [f"i{at} in {at}" for at in range(inputs)] + [f"l{at} state" for at in range(latches)]
    lines += rng.sample(names, rng.randrange(len(names) + 1))
    header = f"aag {most} {inputs} {latches} {counts[0]} {gates} " + " ".join(map(str, counts[1:]))
    text = "\n".join([header, *lines]) + "\n" + rng.choice(("", "", "c\n", "c\nmade at random"))
    return text.encode()


def values(rng, width):
    return "".join(rng.choices("01x", (4, 4, 1), k=width))


def stimulus(rng, width):
    return "".join(values(rng, width) + "\n" for _ in range(rng.randrange(8))).encode()


def witness(rng, width, latches):
    rows = "".join(values(rng, width) + "\n" for _ in range(rng.randrange(1, 6)))
    return f"1\nb{rng.randrange(3)}\n{values(rng, latches)}\n{rows}.\n".encode()


def script(rng, most, width):
    def number(below):
        return rng.choice((rng.randrange(below + 2), rng.randrange(below + 2), 2 ** 32 - rng.randrange(3)))

    lines = []
    for _ in range(rng.randrange(20)):
        t, l = number(8), number(2 * most)
        lines.append(rng.choice((
            f"v {t} {l}", f"v {t} {l}", f"s {t} {number(width)} {rng.choice('01x')}", f"s {t} {number(width)} 1",
            f"w {2 * number(most)} {l} {number(2 * most)}", f"w {2 * number(most)} {l} {number(2 * most)}",
            f"g {l} {number(2 * most)}", f"g {l} {number(2 * most)}", f"o {number(4)} {l}",
            f"r {2 * number(most)} {rng.choice('01x')}", f"+ {values(rng, width)}", "-", "t", "u", "q")))
    return "".join(line + "\n" for line in lines).encode()


# ---- changes

def change_byte(rng, data, _):
    at = rng.randrange(len(data))
    new = bytes([rng.choice((rng.randrange(256), *b"\n\n 019acilox-\r\0\x80\xff"))])
    return rng.choice((data[:at] + new + data[at + 1:], data[:at] + new + data[at:], data[:at] + data[at + 1:],
                       data[:at] + bytes([data[at] ^ 1 << rng.randrange(8)]) + data[at + 1:]))


def change_number(rng, data, _):
    found = list(re.finditer(rb"\d+", data))
    if not found:
        return data
    one = rng.choice(found)
    old = int(one[0][:30])
    limits = (LIMIT, LIMIT + 1, 2 * LIMIT + 1, 2 * LIMIT + 2, 2 ** 32 - 1, 2 ** 32, 2 ** 64, 10 ** 40)
    another = int(rng.choice(found)[0][:30])
    new = rng.choice((old + 1, max(old - 1, 0), old ^ 1, 2 * old, 0, 1, 2, *limits, another))
    text = rng.choice((b"%d", b"%d", b"%d", b"%d", b"0%d", b"-%d", b" %d", b"%d ")) % new
    return data[:one.start()] + text + data[one.end():]


def change_line(rng, data, other):
    lines = data.splitlines(keepends=True)
    at = rng.randrange(len(lines))
    more = other.splitlines(keepends=True) or [b"\n"]
    kind = rng.randrange(6)
    if kind == 0:
        del lines[at]
    elif kind == 1:
        lines.insert(rng.randrange(len(lines) + 1), lines[at])
    elif kind == 2:
        to = rng.randrange(len(lines))
        lines[at], lines[to] = lines[to], lines[at]
    elif kind == 3:
        lines.insert(at, rng.choice(more))
    elif kind == 4:
        lines[at] = lines[at].rstrip(b"\n") + rng.choice((b" ", b" 0", b"\r", b"", b"\t")) + rng.choice((b"\n", b""))
    else:
        lines[at:at] = [lines[at]] * rng.choice((2, 17, 300))
    return b"".join(lines)


def change_end(rng, data, other):
    return rng.choice((data[: rng.randrange(len(data))], data + other[: rng.randrange(len(other) + 1)], data + data))


def changed(rng, data, other):
    """The data with a few changes, or as it is."""
    for _ in range(rng.choice((0, 0, 1, 1, 1, 1, 2, 8))):
        if data:
            change = rng.choice((change_byte, change_number, change_number, change_line, change_line, change_end))
            data = change(rng, data, other)[:200000]
    return data


def counts_of(data):
    """M, inputs and latches as the header names them, 0 where it does not."""
    found = re.match(rb"a[ai]g (\d{1,7}) (\d{1,7}) (\d{1,7}) ", data)
    return [min(int(number), LIMIT) for number in found.groups()] if found else [0, 0, 0]
