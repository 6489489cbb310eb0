"""Draws lines over two logarithmic axes as an SVG file."""

import html
import math

WIDTH, HEIGHT = 760, 440
# the room around the axes: left, top, right, bottom
LEFT, TOP, RIGHT, BOTTOM = 70, 20, 250, 50
COLOURS = ("#1b6ca8", "#c2452d", "#2e8540", "#7a4fa3", "#8a6d00", "#555555", "#00838f")
SECONDS = {-7: "0.1 µs", -6: "1 µs", -5: "10 µs", -4: "0.1 ms", -3: "1 ms", -2: "10 ms", -1: "0.1 s", 0: "1 s",
           1: "10 s",
           2: "100 s"}
COUNTS = {4: "10,000", 5: "100,000", 6: "1,000,000", 7: "10,000,000"}


class Axis:
    """Powers of ten between two places of the picture."""

    def __init__(self, numbers, start, end):
        # 9,600 stands almost at 10,000
        self.first = math.floor(math.log10(min(numbers)) + 0.05)
        self.last = max(self.first + 1, math.ceil(math.log10(max(numbers)) - 0.05))
        self.start, self.end = start, end

    def place(self, number):
        share = (math.log10(number) - self.first) / (self.last - self.first)
        return self.start + share * (self.end - self.start)

    def powers(self):
        return range(self.first, self.last + 1)


def text(x, y, words, anchor="start", colour="#222222"):
    return f'<text x="{x:.1f}" y="{y:.1f}" text-anchor="{anchor}" fill="{colour}">{html.escape(words)}</text>'


def line(x1, y1, x2, y2, colour):
    return f'<line x1="{x1:.1f}" y1="{y1:.1f}" x2="{x2:.1f}" y2="{y2:.1f}" stroke="{colour}"/>'


def curve(points, colour, dashes):
    path = " ".join(f"{x:.1f},{y:.1f}" for x, y in points)
    dots = [f'<circle cx="{x:.1f}" cy="{y:.1f}" r="3" fill="{colour}"/>' for x, y in points]
    return [f'<polyline points="{path}" fill="none" stroke="{colour}" stroke-width="2"{dashes}/>', *dots]


def apart(places, least, lowest):
    """The places of labels with so much room between two, none of them below the lowest place."""
    found = {}
    below = -math.inf
    for name, place in sorted(places.items(), key=lambda each: each[1]):
        below = max(place, below + least)
        found[name] = below
    for name in reversed(found):
        found[name] = lowest = min(found[name], lowest)
        lowest -= least
    return found


def drawn(series, across, up, words=COUNTS, paired=False):
    """The picture of these series: names with lists of points, each a count and a time in seconds. `words` are those at
    the powers of ten of the counts. The second half of the series has dashes, and where these are `paired` the colours
    of the first half."""
    half = (len(series) + 1) // 2
    points = [point for each in series.values() for point in each]
    counts = Axis([count for count, _ in points], LEFT, WIDTH - RIGHT)
    times = Axis([time for _, time in points], HEIGHT - BOTTOM, TOP)
    parts = [f'<svg xmlns="http://www.w3.org/2000/svg" width="{WIDTH}" height="{HEIGHT}" font-family="sans-serif" '
             'font-size="12">', f'<rect width="{WIDTH}" height="{HEIGHT}" fill="white"/>']
    for power in times.powers():
        y = times.place(10.0 ** power)
        parts += [line(LEFT, y, WIDTH - RIGHT, y, "#dddddd"), text(LEFT - 6, y + 4, SECONDS[power], "end")]
    for power in counts.powers():
        x = counts.place(10.0 ** power)
        parts += [line(x, TOP, x, HEIGHT - BOTTOM, "#dddddd"), text(x, HEIGHT - BOTTOM + 18, words[power], "middle")]
    parts += [text((LEFT + WIDTH - RIGHT) / 2, HEIGHT - 10, across, "middle"), text(LEFT, TOP - 6, up)]
    labels = apart({name: times.place(each[-1][1]) for name, each in series.items()}, 15, HEIGHT - BOTTOM - 4)
    for at, (name, each) in enumerate(series.items()):
        colour = COLOURS[at % (half if paired else len(COLOURS))]
        dashes = ' stroke-dasharray="5 4"' if at >= half else ""
        places = [(counts.place(count), times.place(time)) for count, time in each]
        parts += curve(places, colour, dashes)
        parts.append(text(WIDTH - RIGHT + 10, labels[name] + 4, name, colour=colour))
    return "\n".join([*parts, "</svg>"]) + "\n"
