#!/usr/bin/env python3
"""How fast rows of many sessions are beside the same rows of one: python3 sessions.py MDLOC [--runs 9] [--rows 65536]

Plays each kind of rows as one session, and as 2, 4, 8 and 16, in memory, on 1, 2 and 4 processors as far as there are so many. The
runs of a kind alternate, and the least time on the clock of each counts, less that of a header alone. Prints a table in Markdown: the
time of one session, and how many times as fast 16 are on so many processors. With --picture FILE it draws how many times as fast 1 to
16 sessions are on all processors.

Beside the profiles of gen.py there are two kinds that only ask once their objects are put: `nears of 8` and `nears of 512`.
"""
import argparse
import os
import pathlib
import random
import subprocess
import sys
import tempfile
import time

import gen

sys.path.append(str(pathlib.Path(__file__).resolve().parent.parent / 'tools'))
import draw_times as draw

ASKING = {'nears of 8': (16_384, 49_000, 8), 'nears of 512': (16_384, 16_000, 512)}
SESSIONS = (1, 2, 4, 8, 16)
COLOURS = {'nears of 512': '#b3123c', 'nears of 8': '#e8899f', 'near-large': '#2a6fb0', 'boxes-large': '#5a9a3c', 'read-heavy': '#b8860b',
           'taxi': '#222222', 'cities': '#7a4fa3', 'write-heavy': '#888888', 'hot-spot': '#d2691e'}
TITLE = 'Speed of many sessions beside one'
ABOUT = 'How many times as fast the same rows are in 1 to 16 sessions as in one, for each kind of rows, on all processors of the machine.'
WIDTH, HEIGHT, LEFT, TOP = 420, 300, 60, 40


def asking(puts, nears, k):
    """Objects anywhere, and then nears alone, dealt to 16 sessions by turns."""
    dice = random.Random(1)
    place = lambda: (dice.randrange(2**32), dice.randrange(2**32))
    rows = [gen.put(1 + i % 16, i, *place()) + ',0' for i in range(puts)]
    return rows + [gen.near(1 + i % 16, *place(), k) + ',' for i in range(nears)]


def rows_of(kind, count):
    return asking(*ASKING[kind]) if kind in ASKING else gen.profile(kind, count)


def took(program, path, processors):
    """Milliseconds on the clock of one run."""
    with open(path) as rows:
        begun = time.perf_counter()
        subprocess.run([program, 'play', '-'], stdin=rows, stdout=subprocess.DEVNULL, check=True,
                       preexec_fn=lambda: os.sched_setaffinity(0, processors))
        return (time.perf_counter() - begun) * 1000


def least(program, paths, processors, runs):
    """The least time of each path, by runs that alternate."""
    times = {path: [] for path in paths}
    for _ in range(runs):
        for path in paths:
            times[path].append(took(program, path, processors))
    return [min(times[path]) for path in paths]


def measure(program, kind, rows, folder, processors, runs):
    """The time of one session, and for each number of processors how many times as fast each number of sessions is."""
    header = folder / 'header'
    header.write_text(gen.text([]))
    paths = [header]
    for n in SESSIONS:
        paths.append(folder / f'{kind.replace(" ", "-")}-{n}')
        paths[-1].write_text(gen.text([gen.in_sessions(row, n) for row in rows_of(kind, rows)]))
    speeds, alone = {}, None
    for few in (n for n in (1, 2, 4) if n <= len(processors)):
        nothing, one, *more = least(program, paths, processors[:few], runs)
        alone = one - nothing if alone is None else min(alone, one - nothing)
        speeds[few] = [1.0] + [(one - nothing) / (many - nothing) for many in more]
    return alone, speeds


def table(results):
    counts = list(next(iter(results.values()))[1])
    yield '| Rows | one session, ms |' + ''.join(f' 16 on {n} processor{"s" if n > 1 else ""} |' for n in counts)
    yield '|---|--:|' + '--:|' * len(counts)
    for kind, (alone, speeds) in results.items():
        yield f'| {kind} | {alone:,.0f} |' + ''.join(f' {speeds[n][-1]:.2f} |' for n in counts)


def picture(results):
    """How many times as fast each number of sessions is, on all processors that were measured."""
    lines = {kind: speeds[max(speeds)] for kind, (_, speeds) in results.items()}
    top = max(max(line) for line in lines.values()) * 1.05
    x = lambda i: LEFT + WIDTH * i / (len(SESSIONS) - 1)
    y = lambda speed: TOP + HEIGHT * (1 - speed / top)
    yield from draw.heading(LEFT + WIDTH + 130, TOP + HEIGHT + 44, TITLE, ABOUT)
    for i, n in enumerate(SESSIONS):
        yield draw.line(x(i), TOP, x(i), TOP + HEIGHT)
        yield draw.text(x(i), TOP + HEIGHT + 15, str(n), size=10)
    for tenth in range(0, int(top * 10) + 1, 5):
        yield draw.line(LEFT, y(tenth / 10), LEFT + WIDTH, y(tenth / 10), '#888888' if tenth == 10 else '#dddddd')
        yield draw.text(LEFT - 6, y(tenth / 10) + 4, f'{tenth / 10:.1f}', 'end', 10)
    yield draw.text(LEFT + WIDTH / 2, TOP + HEIGHT + 34, 'sessions', size=11)
    yield draw.upwards(LEFT - 38, TOP + HEIGHT / 2, 'times as fast as one session')
    heights = spread(sorted((y(line[-1]), kind) for kind, line in lines.items()))
    for kind, line in lines.items():
        path = ' '.join(f'{x(i):.1f},{y(speed):.1f}' for i, speed in enumerate(line))
        yield f'<polyline points="{path}" fill="none" stroke="{COLOURS[kind]}" stroke-width="2"/>'
        yield draw.text(LEFT + WIDTH + 8, heights[kind] + 4, kind, 'start', 11, COLOURS[kind])
    yield '</svg>'


def spread(places, least_gap=14):
    """Heights of names beside the ends of their lines, far enough from each other to be read."""
    heights, last = {}, -least_gap
    for height, kind in places:
        last = max(height, last + least_gap)
        heights[kind] = last
    return heights


def main():
    words = argparse.ArgumentParser(description=__doc__, formatter_class=argparse.RawDescriptionHelpFormatter)
    words.add_argument('program')
    words.add_argument('--runs', type=int, default=9)
    words.add_argument('--rows', type=int, default=65_536)
    words.add_argument('--kinds', default=','.join([*ASKING, *gen.PROFILES]))
    words.add_argument('--picture')
    asked = words.parse_args()
    processors = sorted(os.sched_getaffinity(0))
    with tempfile.TemporaryDirectory() as folder:
        results = {kind: measure(os.path.abspath(asked.program), kind, asked.rows, pathlib.Path(folder), processors, asked.runs)
                   for kind in asked.kinds.split(',')}
    print('\n'.join(table(results)))
    if asked.picture:
        pathlib.Path(asked.picture).write_text('\n'.join(picture(results)) + '\n')


if __name__ == '__main__':
    main()
