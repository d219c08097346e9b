#!/usr/bin/env python3
"""What it costs to open a long log: python3 opening.py MDLOC [FOLDER [OBJECTS]]

Puts 1,048,576 objects, ids in random order and points uniform, into a log in the folder (one in memory, /dev/shm, by default, so
that no disk shows), and then times `check`, `show` of all points, a `play` of no rows, and, as the difference, rows of each kind."""
import math
import pathlib
import random
import subprocess
import sys
import tempfile

import gen

MOST_ROWS = 65_536


def timed(words, rows=''):
    """Processor seconds, seconds on the clock, and megabytes, of a run on these rows."""
    run = subprocess.run(['/usr/bin/env', 'time', '-f', '%U %S %e %M', *words], input=rows, capture_output=True, text=True)
    if run.returncode:
        sys.exit(f'{words}: {run.stdout[:80]} {run.stderr}')
    user, system, wall, memory = map(float, run.stderr.split())
    return user + system, wall, memory / 1024


def told(what, run):
    cpu, wall, memory = run
    print(f'{what}: {cpu:.2f} s of a processor, {wall:.2f} s on the clock, {memory:.0f} MB', flush=True)


def rows_of(kind, rnd, objects):
    """As many rows of a kind as an input may have: moves and finds of any objects, boxes of 16 points, the nearest 8. All moments are 0,
    so that no move is stale."""
    side = gen.TOP * math.sqrt(16 / objects)
    for _ in range(MOST_ROWS):
        i, x, y = rnd.randint(1, objects), rnd.randrange(gen.TOP), rnd.randrange(gen.TOP)
        yield {'move': gen.move(1, i, x, y) + ',0', 'where': f'1,where,{i},,,,,',
               'box': gen.box(1, x, y, side, side) + ',', 'near': gen.near(1, x, y, 8) + ','}[kind]


def main(program, folder='/dev/shm', objects=2**20):
    rnd, objects = random.Random('opening'), int(objects)
    ids = list(range(1, objects + 1))
    rnd.shuffle(ids)
    with tempfile.TemporaryDirectory(dir=folder) as home:
        log = pathlib.Path(home) / 'long.log'
        subprocess.run([program, 'init', log], check=True, stdout=subprocess.DEVNULL)
        for first in range(0, len(ids), MOST_ROWS):
            rows = [gen.put(1, i, rnd.randrange(gen.TOP), rnd.randrange(gen.TOP)) + ',0' for i in ids[first:first + MOST_ROWS]]
            last = timed([program, 'play', log], gen.text(rows))
        told(f'the last play of {MOST_ROWS} puts', last)
        told('check', timed([program, 'check', log]))
        print(subprocess.run([program, 'check', log], capture_output=True, text=True).stdout, end='')
        told('show of all', timed([program, 'show', log, '0', '0', str(gen.TOP), str(gen.TOP)]))
        opened = min(timed([program, 'play', log], gen.text([])) for _ in range(3))
        told('play of no rows', opened)
        for kind in ('where', 'box', 'near', 'move'):
            cpu = min(timed([program, 'play', log], gen.text(rows_of(kind, rnd, objects)))[0] for _ in range(2)) - opened[0]
            print(f'{kind}: {cpu / MOST_ROWS * 1e6:.2f} microseconds a row, with its reading and its line')


if __name__ == '__main__':
    main(*sys.argv[1:])
