#!/usr/bin/env python3
"""Draws the leaves and the objects of logs, one picture next to the other, as one SVG.

    tools/draw_leaves.py [--km UNITS] [--since] [--mark ID ..] [TITLE=]LOG .. > PICTURE
    tools/draw_leaves.py --rows PART > ROWS

Each leaf's region is a rectangle, darker if it has more objects. Every picture shows the same part of the plane, which holds the objects of
all logs. A log is read as docs/FORMATS.md says, of either version and either width. The options:

    --km UNITS   a kilometre has so many units; without it the axes count units by a power of ten
    --since      each log is a later state of the one before it: leaves that were split since then are drawn in another colour
    --mark ID    draws this object as a ring with its id, and with --since its way from the earlier place
    --rows PART  prints rows for `play` in place of a picture: `city`, `seven` or `eight`, as below

docs/city.svg is one log at two moments, 7:00 and 8:00, in units of a centimetre:

    tools/draw_leaves.py --rows seven > seven.csv && tools/draw_leaves.py --rows eight > eight.csv
    ./mdloc init log && ./mdloc play log --bucket 16 < seven.csv && cp log early && ./mdloc play log --bucket 16 < eight.csv
    tools/draw_leaves.py --km 100000 --since --mark 7 --mark 9 "7:00=early" "8:00=log" > docs/city.svg

docs/leaves.svg is two logs of the same 1,500 objects, whose splits make two children, and four:

    tools/draw_leaves.py --rows city > city.csv
    ./mdloc init two && ./mdloc play two --bucket 32 < city.csv
    ./mdloc init four --quad && ./mdloc play four --bucket 32 < city.csv
    tools/draw_leaves.py --km 100000 "two children a split=two" "four children a split=four" > docs/leaves.svg
"""
import argparse
import collections
import math
import random
import sys

import log_judge

SIDE, GAP, LEFT, HEAD, FOOT = 400, 24, 46, 30, 66
CENTRE = 2_400_000_000, 1_500_000_000
OLD, NEW, INK = "#2a6fb0", "#d9661f", "#222222"
HEADER = "session,op,id,x,y,a,b,moment"


def city():
    """Puts of 1,500 objects of one city by 16 sessions: most near its centre, the others anywhere around it."""
    drawn = random.Random(1)
    for number in range(1, 1501):
        near = drawn.random() < 0.7
        x, y = (int(c + (drawn.gauss(0, 60_000) if near else drawn.uniform(-250_000, 250_000))) for c in CENTRE)
        yield f"{1 + number % 16},put,{number},{x},{y},,,{number}"


def homes(count):
    """Where so many vehicles of a city of 20 by 20 km are early in the morning: around five suburbs, and a few anywhere."""
    drawn = random.Random(2)
    suburbs = [(-650_000, -500_000), (-500_000, 620_000), (600_000, 560_000), (680_000, -420_000), (60_000, -760_000)]
    for number in range(1, count + 1):
        middle = drawn.choice(suburbs)
        spread = drawn.random() < 0.3
        yield number, *(int(c + (drawn.uniform(-960_000, 960_000) if spread else m + drawn.gauss(0, 110_000))) for c, m in zip(CENTRE, middle))


def seven():
    """Puts of 600 vehicles at 7:00."""
    for number, x, y in homes(600):
        yield f"1,put,{number},{x},{y},,,25200"


def eight():
    """The moves of those of them that drive to the centre, or to a station east of it, by 8:00."""
    drawn = random.Random(3)
    for number, x, y in homes(600):
        goal, spread = ((40_000, 60_000), 90_000) if drawn.random() < 0.75 else ((420_000, 80_000), 40_000)
        if drawn.random() < 0.8 or number in (7, 9):
            x, y = (int(c + g + drawn.gauss(0, spread)) for c, g in zip(CENTRE, goal))
            yield f"1,move,{number},{x},{y},,,28800"


def region(name):
    """The lower corner and the sides of the region of a leaf's name: its bits are those of x and y by turns, x first."""
    bits, length = name
    corner = [0, 0]
    for place in range(64):
        corner[place % 2] = corner[place % 2] << 1 | bits >> 63 - place & 1
    return *corner, 1 << 32 - (length + 1) // 2, 1 << 32 - length // 2


def leaf_of(leaves, x, y):
    """The one leaf whose name begins a point's key."""
    key = int("".join(a + b for a, b in zip(f"{x:032b}", f"{y:032b}")), 2)
    return next(name for length in range(65) if (name := (key >> 64 - length << 64 - length, length)) in leaves)


def number(value):
    return f"{value:.1f}".rstrip("0").rstrip(".")


class Window:
    """The square of the plane that is drawn, and its axes: y grows upwards."""

    def __init__(self, states, unit):
        xs, ys = zip(*[(x, y) for state in states for x, y, _ in state.points.values()] or [(0, 0), ((1 << 32) - 1,) * 2])
        side = 1.03 * max(max(xs) - min(xs), max(ys) - min(ys), 1)
        self.unit = unit or 10 ** max(math.floor(math.log10(side)) - 1, 0)
        self.name = "km" if unit else f"{self.unit:,} units"
        rough = side / self.unit / 5
        self.step = next(step for power in range(-3, 11) for step in (10 ** power, 2 * 10 ** power, 5 * 10 ** power) if step >= rough)
        # The corner is a round number, and the side has room for what that takes away.
        grain = self.step * self.unit / 20
        self.left, self.low = ((min(c) + max(c) - side) / 2 // grain * grain for c in (xs, ys))
        self.side = side + grain

    def at(self, x, y):
        return (x - self.left) / self.side * SIDE, SIDE - (y - self.low) / self.side * SIDE

    def box(self, x, y, width, height):
        """What is seen of a region, as two corners; nothing if none of it is."""
        left, bottom = self.at(x, y)
        right, top = self.at(x + width, y + height)
        left, top, right, bottom = max(left, 0), max(top, 0), min(right, SIDE), min(bottom, SIDE)
        return (left, top, right, bottom) if left < right and top < bottom else None

    def axes(self):
        """The frame, a tick for each step from the lower left corner, and what the axes count."""
        yield f'<path d="M0 0H{SIDE}V{SIDE}H0Z" fill="none" stroke="{INK}" stroke-width="1"/>'
        for tick in range(math.floor(self.side / self.unit / self.step) + 1):
            value, away = number(tick * self.step), tick * self.step * self.unit / self.side * SIDE
            yield f'<path d="M{number(away)} {SIDE}v4M0 {number(SIDE - away)}h-4" stroke="{INK}" stroke-width="1"/>'
            yield words(away, SIDE + 17, value, 11, "middle")
            yield words(-7, SIDE - away + 4, value, 11, "end")
        yield words(SIDE / 2, SIDE + 34, f"x in {self.name}, from {self.left:,.0f} units", 12, "middle")
        yield words(0, 0, f"y in {self.name}, from {self.low:,.0f} units", 12, "middle", f' transform="translate({10 - LEFT} {SIDE / 2}) rotate(-90)"')


def words(x, y, line, size=13, anchor="start", more=""):
    return f'<text x="{number(x)}" y="{number(y)}" font-size="{size}" text-anchor="{anchor}"{more}>{line}</text>'


def leaves_of(state, window, colour_of):
    """The rectangles of a log's leaves."""
    held = collections.Counter(leaf_of(state.leaves, x, y) for x, y, _ in state.points.values())
    most = max(held.values(), default=1)
    for name in sorted(state.leaves, key=lambda name: (colour_of(name) != OLD, name)):
        box = window.box(*region(name))
        if box:
            left, top, right, bottom = box
            shade = f'fill-opacity="{number(0.1 + 0.5 * held[name] / most)}"' if held[name] else 'fill-opacity="0"'
            colour = colour_of(name)
            yield f'<path d="M{number(left)} {number(top)}H{number(right)}V{number(bottom)}H{number(left)}Z" fill="{colour}" stroke="{colour}" {shade}/>'


def summary(state):
    holding = {leaf_of(state.leaves, x, y) for x, y, _ in state.points.values()}
    return f"{len(state.points):,} objects in {len(holding)} of {len(state.leaves)} leaves"


def objects_of(state, window):
    dots = "".join("M" + " ".join(map(number, window.at(x, y))) + "h0" for _, (x, y, _) in sorted(state.points.items()))
    yield f'<path d="{dots}" stroke="{INK}" stroke-width="2.2" stroke-linecap="round"/>'


def marks_of(state, earlier, marked, window):
    """The rings of the marked objects, each with its way from where it was in the earlier log."""
    for ident in marked:
        if ident not in state.points:
            continue
        x, y = window.at(*state.points[ident][:2])
        if earlier and ident in earlier.points:
            was = window.at(*earlier.points[ident][:2])
            yield f'<path d="M{number(was[0])} {number(was[1])}L{number(x)} {number(y)}" stroke="{INK}" stroke-width="1.4" stroke-dasharray="5 3"/>'
        yield f'<circle cx="{number(x)}" cy="{number(y)}" r="6" fill="#ffffff" fill-opacity="0.7" stroke="{INK}" stroke-width="1.8"/>'
        yield words(x + 9, y - 7, ident, 14, "start", ' font-weight="bold" paint-order="stroke" style="stroke:#ffffff;stroke-width:3px"')


def picture(title, state, earlier, marked, window):
    """One log's leaves and objects."""
    # A leaf of now that wasn't one of the earlier leaves came from a split since then.
    split = state.leaves - earlier.leaves if earlier else set()
    yield words(0, -10, f"{title}: {summary(state)}", 15)
    yield from leaves_of(state, window, lambda name: NEW if name in split else OLD)
    yield from objects_of(state, window)
    yield from marks_of(state, earlier, marked, window)
    yield from window.axes()
    if earlier:
        line = f"{len(earlier.leaves - state.leaves)} leaves were split since then, into the {len(split)} that are orange"
        yield words(SIDE / 2, SIDE + 54, line, 13, "middle")


def drawn(logs, asked):
    """The pictures side by side."""
    window = Window([state for _, state in logs], asked.km)
    width, height = len(logs) * (LEFT + SIDE + GAP), HEAD + SIDE + FOOT
    told = "; ".join(f"{title}: {summary(state)}" for title, state in logs)
    yield f'<svg xmlns="http://www.w3.org/2000/svg" viewBox="0 0 {width} {height}" width="{width}" height="{height}" font-family="sans-serif" role="img">'
    yield "<title>The leaves and the objects of a city</title>"
    yield (f"<desc>{told}. Each leaf is a rectangle, darker if it has more objects; small leaves lie where many objects are, large ones elsewhere."
           f"{' Leaves that were split since the picture before are orange.' if asked.since else ''} x grows to the right, y upwards.</desc>")
    yield f'<rect width="{width}" height="{height}" fill="#ffffff"/>'
    for place, (title, state) in enumerate(logs):
        earlier = logs[place - 1][1] if asked.since and place else None
        yield f'<g transform="translate({LEFT + place * (LEFT + SIDE + GAP)} {HEAD})" fill="{INK}" stroke-width="0.7">'
        yield from picture(title, state, earlier, asked.mark, window)
        yield "</g>"
    yield "</svg>"


def main():
    words_of = argparse.ArgumentParser(usage=__doc__)
    words_of.add_argument("--rows", choices=("city", "seven", "eight"))
    words_of.add_argument("--km", type=float)
    words_of.add_argument("--since", action="store_true")
    words_of.add_argument("--mark", type=int, action="append", default=[])
    words_of.add_argument("logs", nargs="*")
    asked = words_of.parse_args()
    if asked.rows:
        return [HEADER, *{"city": city, "seven": seven, "eight": eight}[asked.rows]()]
    if not asked.logs:
        words_of.error("no log is named")
    try:
        named = [log.rpartition("=") for log in asked.logs]
        return list(drawn([(title or path, log_judge.read_log(log_judge.load(path), oldest=log_judge.OLDEST)) for title, _, path in named], asked))
    except (OSError, log_judge.Damaged) as cause:
        sys.exit(str(cause).rstrip("\n"))


if __name__ == "__main__":
    for line in main():
        print(line)
