#!/usr/bin/env python3
"""What the dearest inputs cost, beside the same rows in a plain C++ trie and in an R*-tree: python3 worst.py MDLOC [NAME=MDLOC ..]

    --cases A,B    some of the cases alone (default: all; `--cases list` tells them)
    --peers A,B    of run.py's peers in memory (default trie,rstar; an empty word for none)
    --runs N       runs of each program, which alternate; the least counts (default 3)
    --limit S      seconds after which a run is ended (default 300)
    --dir D        scratch for the peers and the inputs (default: a folder in the system's temporary folder)

All times are of processors, a program's own and the system's for it. There are three kinds of cases:

- whole    65,536 rows played over no log; the time of the whole run
- over     rows over a log that has objects already, of which the peers put the same ones first; the time of a row, as the difference to a
           run of no rows. Rows are added until that difference is half a second, or there are 65,000
- along    `watch` with one fence round all, beside `check` of the same log

Rows of 16 sessions are played by the peers in one lane. Answers of one session are compared; those of 16 have other places.
"""
import argparse
import hashlib
import math
import os
import pathlib
import random
import shutil
import struct
import subprocess
import sys
import tempfile

import gen

HERE = pathlib.Path(__file__).resolve().parent
TOP, ROWS, MOST, SPOT = gen.TOP, 65_536, 65_000, (7, 7)
COUNTS = (64, 512, 4_096, 16_384, MOST)
NAMES = {'trie': 'C++ trie', 'rstar': 'R*-tree', 'grid': 'grid', 'nanoflann': 'nanoflann', 'spatialindex': 'libspatialindex'}


# ---- rows
def put(i, x, y, k=0):
    return gen.put(1 + k % 16, i, x, y) + ',0'


def move(i, x, y, k=0):
    return gen.move(1 + k % 16, i, x, y) + ',1'


def near(x, y, count, k=0):
    return gen.near(1 + k % 16, x, y, count) + ','


def box(x, y, a, b, k=0):
    return f'{1 + k % 16},box,,{x},{y},{a},{b},'


def anywhere(draw):
    return draw.randrange(TOP + 1), draw.randrange(TOP + 1)


def spot(ids):
    return [put(i, *SPOT, k) for k, i in enumerate(ids)]


def scattered(draw):
    ids = list(range(ROWS))
    draw.shuffle(ids)
    return spot(ids)


def circle(draw):
    """Half of the rows put objects on a circle, and half ask for the nearest to its centre, which all are alike."""
    half = ROWS // 2
    at = lambda k: (int(2**31 + 2**30 * f(2 * math.pi * k / half)) for f in (math.cos, math.sin))
    return [put(k, *at(k), k) for k in range(half)] + [near(2**31, 2**31, 1, k) for k in range(half)]


def nears_of_spot(draw):
    half = ROWS // 2
    return spot(range(half)) + [near(*SPOT, 1, k) for k in range(half)]


def boxes_of_spot(draw):
    half = ROWS // 2
    return spot(range(half)) + [box(*SPOT, 8, 8, k) for k in range(half)]


def moves_of_spot(draw):
    """Half of the rows put objects on one point; then some go a little way, and some come back."""
    half = ROWS // 2
    away = lambda k: 7 + k % 2 * draw.randrange(1000)
    return spot(range(half)) + [move(draw.randrange(half), away(k), 7, k) for k in range(half)]


def swing(draw, asking=False):
    """A far put and drop in turn, beside 200 objects of one place; between them, if so asked, a near of 1."""
    rows, far = [put(k, 5 + k, 5) for k in range(200)], 10**6
    turn = [put(far, TOP, TOP)] + [near(0, TOP, 1)] * asking + [f'1,drop,{far},,,,,']
    return (rows + turn * ROWS)[:ROWS]


def swing_and_nears(draw):
    return swing(draw, True)


def many_boxes(draw):
    half = ROWS // 2
    return [put(k, *anywhere(draw), k) for k in range(half)] + [box(1, 1, TOP - 1, TOP - 1, k) for k in range(half)]


WHOLE = {
    'circle': ('32,768 objects on a circle, as many nears of 1 from its centre', circle, 1),
    'spot-near': ('32,768 objects on one point, as many nears of 1 there', nears_of_spot, 1),
    'spot-box': ('32,768 objects on one point, as many boxes round it', boxes_of_spot, 1),
    'spot-moves': ('32,768 objects on one point, as many moves away and back', moves_of_spot, 1),
    'spot-rising': ('65,536 puts on one point, ids rising', lambda draw: spot(range(ROWS)), 1),
    'spot-falling': ('the same, ids falling', lambda draw: spot(reversed(range(ROWS))), 1),
    'spot-scattered': ('the same, ids scattered', scattered, 1),
    'spot-16': ('the same, ids rising, by 16 sessions', lambda draw: spot(range(ROWS)), 16),
    'swing': ('a far put and drop in turn, beside 200 objects, 65,536 rows', swing, 1),
    'swing-near': ('the same, with a near of 1 between', swing_and_nears, 1),
    'many': ('32,768 objects, as many boxes over nearly all', many_boxes, 1),
}


# ---- what a log has, and rows over it
def spot_of_a_million():
    """A million objects on one point, and 1,000 elsewhere."""
    draw = random.Random(1)
    return [(i, *SPOT) for i in range(10**6)] + [(10**6 + i, *anywhere(draw)) for i in range(1000)], 0


def a_million_anywhere():
    draw = random.Random(1)
    return [(i, *anywhere(draw)) for i in range(10**6)], 0


def empty_leaves():
    """500,000 splits, all names of each length in turn, and ten objects."""
    draw = random.Random(1)
    return [(i, *anywhere(draw)) for i in range(10)], 500_000


def leave(count, draw):
    return [move(i, *anywhere(draw)) for i in draw.sample(range(10**6), count)]


def leave_and_ask(count, draw):
    ids = draw.sample(range(10**6), count)
    return [move(i, *anywhere(draw), k) if k % 2 else near(*anywhere(draw), 1, k) for k, i in enumerate(ids)]


OVER = {
    'leave': ('1,000,000 objects on one point: each move away', spot_of_a_million, leave, 1),
    'leave-16': ('the same by 16 sessions, every other row a near elsewhere', spot_of_a_million, leave_and_ask, 16),
    'near-spot': ('the same objects: each near of 8 there', spot_of_a_million, lambda count, draw: [near(*SPOT, 8)] * count, 1),
    'near-leaves': ('500,001 leaves, 10 objects: each near of 3', empty_leaves,
                    lambda count, draw: [near(*anywhere(draw), 3) for _ in range(count)], 1),
    'box-leaves': ('500,001 leaves, 10 objects: each box over nearly all', empty_leaves,
                   lambda count, draw: [box(1, 1, TOP - 1, TOP - 1)] * count, 1),
    'box-many': ('1,000,000 objects anywhere: each box over nearly all', a_million_anywhere,
                 lambda count, draw: [box(1, 1, TOP - 1, TOP - 1)] * count, 1),
}


def rising():
    return [(i, *anywhere(random.Random(i))) for i in range(10**6)]


def shuffled():
    ids = rising()
    random.Random(1).shuffle(ids)
    return ids


ALONG = {
    'watch-rising': ('`watch` along 1,000,000 puts, one fence round all, ids rising', rising),
    'watch-scattered': ('the same, ids scattered', shuffled),
}


def log(objects, splits):
    """The bytes of a log of so many splits, all names of each length in turn, and then these objects: docs/FORMATS."""
    cells = [b'MDLOCLOG\2\1' + bytes(6)]
    length, bits = 0, 0
    for number in range(1, splits + 1):
        cells.append(b'\1\4' + struct.pack('>QQB', number, bits << 64 - length if length else 0, length) + bytes(13))
        cells.append(b'\1\5' + struct.pack('>Q', number) + bytes(22))
        bits += 1
        if bits == 1 << length:
            length, bits = length + 1, 0
    cells += [b'\1\1' + struct.pack('>QIIQ', i, x, y, 0) + bytes(6) for i, x, y in objects]
    return b''.join(cells) + b'\0'


# ---- runs
class Bench:
    def __init__(self, asked):
        self.runs, self.limit = asked.runs, asked.limit
        self.dir = pathlib.Path(asked.dir or os.path.join(tempfile.gettempdir(), 'mdloc-worst'))
        self.dir.mkdir(parents=True, exist_ok=True)
        self.bin = self.dir / 'bin'
        self.peers = [peer for peer in asked.peers.split(',') if peer]
        subprocess.run(['make', '-s', '-C', str(HERE), f'BIN={self.bin}', *(f'{self.bin}/{p}' for p in ['launch', *self.peers])], check=True)
        self.ours = {}
        for word in asked.programs:
            name, _, path = word.rpartition('=')
            self.ours[name or 'this'] = os.path.abspath(path)
        self.columns = [*self.ours, *self.peers]
        self.fast = '/dev/shm' if os.access('/dev/shm', os.W_OK) and shutil.disk_usage('/dev/shm').free > 2**30 else self.dir

    def run(self, words, rows, out):
        """Processor seconds and megabytes of a run, or nothing where it took too long."""
        got = subprocess.run([self.bin / 'launch', str(self.limit), rows, out, self.dir / 'err', *map(str, words)], capture_output=True, text=True)
        if got.returncode:
            sys.exit(got.stderr)
        _, cpu, memory, status = map(int, got.stdout.split())
        if status == -9:
            return None
        if status:
            sys.exit(f'{words}: status {status}: {pathlib.Path(out).read_bytes()[:80]} {(self.dir / "err").read_text()[:80]}')
        return cpu / 1e6, memory / 1024

    def least(self, run, columns=None):
        """The least time and memory of each column by runs that alternate; one that took over half the limit isn't made again."""
        best = {}
        for turn in range(self.runs):
            for column in columns or self.columns:
                if turn and (best[column] is None or best[column][0] > self.limit / 2):
                    continue
                took = run(column)
                best[column] = min(filter(None, (best.get(column), took)), default=None)
        return best

    def file(self, name, rows):
        path = self.dir / name
        path.write_text(gen.text(rows))
        return path


def tails(path, behind=0):
    """What the lines say behind row and place, from a row on, as one number."""
    lines = path.read_text().splitlines()[1 + behind:]
    return hashlib.sha256('\n'.join(line.split(',', 2)[2] for line in lines).encode()).hexdigest()


def whole(bench, name, home):
    what, make, sessions = WHOLE[name]
    rows = bench.file(name, [gen.in_sessions(row, sessions) for row in make(random.Random(3))])
    told = {}

    def run(column):
        out = home / 'out'
        words = [bench.ours[column], 'play', '-'] if column in bench.ours else [bench.bin / column]
        took = bench.run(words, rows, out)
        if took and sessions == 1:
            told[tails(out)] = column
        return took

    return what, 's', bench.least(run), told


def over(bench, name, home):
    what, base, make, sessions = OVER[name]
    objects, splits = base()
    kept, played, rows = home / 'kept', home / 'log', bench.dir / 'rows'
    kept.write_bytes(log(objects, splits))
    for program in list(bench.ours.values())[:1]:  # leaves that are over their size are split here
        bench.run([program, 'play', kept], bench.file('rows', []), home / 'out')
    first = [put(i, x, y) for i, x, y in objects] if bench.peers else []
    told, costs = {}, {column: None for column in bench.columns}

    def play(column, more):
        """A run of these rows over the objects: over a copy of the log, or behind the puts."""
        if column in bench.ours:
            shutil.copyfile(kept, played)
            return bench.run([bench.ours[column], 'play', played], bench.file('rows', more), home / 'out')
        return bench.run([bench.bin / column], bench.file('rows', first + more), home / 'out')

    idle = bench.least(lambda column: play(column, []))
    left = [column for column in bench.columns if idle[column]]
    for count in COUNTS:
        more = [gen.in_sessions(row, sessions) for row in make(count, random.Random(5))]

        def run(column):
            took = play(column, more)
            if took and sessions == 1:
                told[column, count] = tails(home / 'out', 0 if column in bench.ours else len(first))
            return took

        best = bench.least(run, left) if left else {}
        for column, took in best.items():
            if took:
                costs[column] = (took[0] - idle[column][0]) / count * 1e6, took[1]
        left = [column for column, took in best.items() if took and took[0] - idle[column][0] < .5]
    told = {seen: column for (column, count), seen in told.items() if count == COUNTS[0]}
    rows.unlink(missing_ok=True)
    return what, 'us a row', costs, told


def along(bench, name, home):
    what, make = ALONG[name]
    path, fences = home / 'log', home / 'fences'
    path.write_bytes(log(make(), 0))
    fences.write_text(f'fence,x,y,a,b\n1,0,0,{TOP},{TOP}\n')
    told, checks = {}, {}

    def run(column):
        if column not in bench.ours:
            return None
        took = bench.run([bench.ours[column], 'check', path], os.devnull, home / 'out')
        checks[column] = min(took, checks.get(column, took))
        took = bench.run([bench.ours[column], 'watch', path], fences, home / 'out')
        if took:
            told[hashlib.sha256((home / 'out').read_bytes()).hexdigest()] = column
        return took

    best = bench.least(run)
    ratios = '; '.join(f'{c} {best[c][0] / took[0]:.2f} of `check`' for c, took in checks.items() if best[c])
    return what + (f' ({ratios})' if ratios else ''), 's', best, told


def number(value):
    return f'{value:,.0f}' if value >= 100 else f'{value:.1f}' if value >= 10 else f'{value:.2f}'


def main():
    words = argparse.ArgumentParser(description=__doc__, formatter_class=argparse.RawDescriptionHelpFormatter)
    words.add_argument('programs', nargs='*', metavar='MDLOC')
    words.add_argument('--cases', default='')
    words.add_argument('--peers', default='trie,rstar')
    words.add_argument('--runs', type=int, default=3)
    words.add_argument('--limit', type=int, default=300)
    words.add_argument('--dir')
    asked = words.parse_args()
    kinds = {**{n: whole for n in WHOLE}, **{n: over for n in OVER}, **{n: along for n in ALONG}}
    if asked.cases == 'list':
        return print('\n'.join(f'{name:16}{(WHOLE | OVER | ALONG)[name][0]}' for name in kinds))
    bench, wrong = Bench(asked), []
    print('| Input | | ' + ' | '.join(NAMES.get(c, c) for c in bench.columns) + ' | MB |')
    print('|---|---|' + '--:|' * (len(bench.columns) + 1))
    for name in asked.cases.split(',') if asked.cases else kinds:
        with tempfile.TemporaryDirectory(dir=bench.fast, prefix='mdloc-worst-') as home:
            what, unit, costs, told = kinds[name](bench, name, pathlib.Path(home))
        took = [number(costs[c][0]) if costs[c] else '' if c in bench.peers and kinds[name] is along else f'over {bench.limit} s' for c in bench.columns]
        memory = '; '.join(f'{costs[c][1]:.0f}' if costs[c] else '' for c in bench.columns)
        print(f'| {what} | {unit} | ' + ' | '.join(took) + f' | {memory} |', flush=True)
        if len(told) > 1:
            wrong.append(name)
    if wrong:
        sys.exit('the answers differ: ' + ' '.join(wrong))


if __name__ == '__main__':
    main()
