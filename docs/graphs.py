#!/usr/bin/env python3
"""Draws graphs of what bench/ceiling.sh, bench/serve.sh and bench/group.sh print: docs/graphs.py [FILE] reads their lines in
a file, or in docs/BENCHMARKS.md, and writes what there are lines for: docs/calls_by_connections.svg (of bench/ceiling.sh, or
else of bench/serve.sh), docs/lookups_by_connections.svg and docs/cost_by_journal.svg.

Where a line `$ bench/NAME` stands, the lines behind it are that script's; a file without one is read as each script's."""

import os
import re
import sys

DOCS = os.path.dirname(os.path.abspath(__file__))
WIDTH, HEIGHT, LEFT, TOP, RIGHT, BOTTOM = 700, 320, 80, 50, 210, 50
COLOURS = ("#2f6fb0", "#d9822b", "#5b9a4a", "#8a5fb0", "#888888", "#b04a4a")
CEILING = "the ceiling, "
LABEL = 15


def ticks(most, count=5):
    """Round numbers from 0 to at least the most."""
    step = most / count
    size = 10 ** (len(str(int(step))) - 1) if step >= 1 else 0.1
    step = size * -(-step // size)
    return [step * at for at in range(int(-(-most // step)) + 1)]


def number(value):
    return "{:,}".format(int(value)) if value == int(value) else "%.1f" % value


def apart(labels):
    """The labels from above, each at least a line below the one before."""
    labels.sort()
    for above, below in zip(labels, labels[1:]):
        below[0] = max(below[0], above[0] + LABEL)
    return labels


def graph(title, across, up, lines):
    """Lines of points, each with its name; the places across are the numbers in order, at equal distances."""
    places = sorted({x for _, points in lines for x, _ in points})
    marks = ticks(max(y for _, points in lines for _, y in points))
    wide, high = WIDTH - LEFT - RIGHT, HEIGHT - TOP - BOTTOM

    def at(x, y):
        return LEFT + wide * (places.index(x) + 0.5) / len(places), TOP + high * (1 - y / marks[-1])

    drawn = ['<text class="title" x="%d" y="24">%s</text>' % (LEFT, title)]
    for mark in marks:
        y = at(places[0], mark)[1]
        drawn.append('<path class="grid" d="M%d %.1fH%d"/><text class="up" x="%d" y="%.1f">%s</text>' % (
            LEFT, y, WIDTH - RIGHT, LEFT - 8, y + 4, number(mark)))
    for place in places:
        drawn.append('<text class="across" x="%.1f" y="%d">%s</text>' % (at(place, 0)[0], HEIGHT - BOTTOM + 18, number(place)))
    drawn.append('<text class="across" x="%d" y="%d">%s</text>' % (LEFT + wide / 2, HEIGHT - 10, across))
    drawn.append('<text x="%d" y="%d">%s</text>' % (LEFT, TOP - 10, up))
    colours = dict(zip((name for name, _ in lines if not name.startswith(CEILING)), COLOURS))
    labels = []
    for name, points in lines:
        # (a ceiling is dashed, in the colour of what it is the ceiling of)
        of = name.removeprefix(CEILING)
        colour, dashes = colours.get(of, COLOURS[-2]), ' stroke-dasharray="5 4"' if of != name else ""
        path = " ".join("%.1f,%.1f" % at(x, y) for x, y in points)
        drawn.append('<polyline points="%s" fill="none" stroke="%s" stroke-width="2"%s/>' % (path, colour, dashes))
        for x, y in points:
            drawn.append('<circle cx="%.1f" cy="%.1f" r="4" fill="%s"><title>%s: %s</title></circle>' % (
                *at(x, y), colour, name, "{:,}".format(y)))
        x, y = at(*points[-1])
        labels.append([y + 4, x + 10, colour, name])
    for y, x, colour, name in apart(labels):
        drawn.append('<text x="%.1f" y="%.1f" fill="%s">%s</text>' % (x, y, colour, name))
    style = ("text{font:12px sans-serif}.title{font-weight:bold;font-size:14px}.up{text-anchor:end}.across{text-anchor:middle}"
             ".grid{stroke:#ddd}")
    return ('<svg xmlns="http://www.w3.org/2000/svg" viewBox="0 0 %d %d"><style>%s</style>'
            '<rect width="100%%" height="100%%" fill="#fff"/>\n%s\n</svg>\n' % (WIDTH, HEIGHT, style, "\n".join(drawn)))


def printed(text, script):
    """What a script printed, of a text of what several did."""
    parts = re.split(r"^\$ bench/([a-z_]+\.sh).*$", text, flags=re.M)
    if len(parts) == 1:
        return text
    return "".join(it for name, it in zip(parts[1::2], parts[2::2]) if name == script)


def served(text):
    """The lines of calls a second by connections, those of lookups apart."""
    lines, lookups = {}, {}
    for name, connections, calls in re.findall(r"^(.+), (\d+) connections +(\d+) calls a second", text, re.M):
        of = lookups if "endpoint map" in name else lines
        of.setdefault(name, []).append((int(connections), int(calls)))
    return list(lines.items()), list(lookups.items())


def entered(text):
    points = re.findall(r"^(\d+) entries +([0-9.]+) microseconds a call", text, re.M)
    return [("a call", [(int(count), float(cost)) for count, cost in points])] if points else []


def main():
    with open(sys.argv[1] if sys.argv[1:] else os.path.join(DOCS, "BENCHMARKS.md"), encoding="utf-8") as file:
        text = file.read()
    calls, lookups = served(printed(text, "ceiling.sh"))
    calls = calls or served(printed(text, "serve.sh"))[0]
    for name, title, across, up, lines in (
        ("calls_by_connections", "Calls that a server answers", "connections", "calls a second", calls),
        ("lookups_by_connections", "Lookups that an endpoint map answers", "connections", "calls a second", lookups),
        ("cost_by_journal", "A call of a group", "entries in its journal", "microseconds a call", entered(printed(text, "group.sh"))),
    ):
        if lines:
            with open(os.path.join(DOCS, name + ".svg"), "w", encoding="utf-8") as file:
                file.write(graph(title, across, up, lines))


if __name__ == "__main__":
    main()
