#!/usr/bin/env python3
"""How many changes a second stores make in atomic batches: python3 batches.py [--batches PROGRAM]

Each batch is one synced transaction that moves 1, 16, 256 or 4,096 of 65,536 objects, on a disk and in memory-backed files. One thread or
eight make the batches. The head of src/batches.cpp describes the work and the peers. Prints a table in Markdown for each place.

--batches PROGRAM  this project's program, crates/batches/out/batches; without it the tables don't have its rows
--pause MILLIS     between two syncs of this store's row whose records wait for one (default 10)
--disk FOLDER      on a disk (default: the system's temporary folder); an empty word leaves this table out
--memory FOLDER    in memory (default /dev/shm); an empty word leaves this table out
--sizes N,..       changes of a batch (default 1,16,256,4096)        --threads N,..  powers of two (default 1,8)
--peers A,..       of rocksdb,lmdb,sqlite,bare (default all)         --seconds S     of a run at most (default 2)
--runs N           of each; they alternate, and the best counts (default 3)
--check            compares the objects and takes no times
--dir D            scratch for the peers' program (default: a folder in the system's temporary folder)
--json FILE        adds each run as a line

PROGRAM takes the words FILE SIZE THREADS CHANGES, creates a store over a log in FILE, and puts the same objects. Then its threads make the
same changes, CHANGES of all threads together. It prints `changes N nanos T` and `right answers N`. Short runs before the first one
determine how many changes it makes in about as many seconds as the peers have. A second row is a store whose records wait for a sync, which
one thread makes every MILLIS (a fifth word). In a third one the store has no log (FILE is `-`).

After each run of RocksDB, LMDB or SQLite, the sum over its objects is compared with the one that Python works out. Runs before the times
compare all stores, one thread and eight. The objects of PROGRAM are then those in its log, read as docs/FORMATS.md says.
"""
import argparse
import collections
import itertools
import json
import os
import pathlib
import shutil
import struct
import subprocess
import sys
import tempfile

HERE = pathlib.Path(__file__).resolve().parent
NAMES = {'ours': 'this store', 'buffered': 'this store, records wait for a sync', 'no-log': 'this store without a log', 'rocksdb': 'RocksDB', 'lmdb': 'LMDB', 'sqlite': 'SQLite', 'bare': 'four device calls alone'}
OURS = 'ours', 'buffered', 'no-log'  # rows of PROGRAM
OBJECTS, STRIDE, WORD = 65_536, 40_503, 2**64 - 1
CHECKED = {16: 98_304, 4_096: 131_072}  # changes of the comparing runs, by size: each object moves at least once
MOST = 3_500_000  # changes of a run of PROGRAM, which takes at most 4,000,000
SHORT = 0.2  # seconds of a run that determines how many changes PROGRAM makes
LIMIT = 120  # seconds for one run


# ---- the work, as src/batches.cpp has it
def mixed(number):
    m = number * 0x9e3779b97f4a7c15 & WORD
    m = (m ^ m >> 30) * 0xbf58476d1ce4e5b9 & WORD
    m = (m ^ m >> 27) * 0x94d049bb133111eb & WORD
    return m ^ m >> 31


def change(threads, thread, k):
    """The id of a thread's k-th change, and where and at what moment its object is after it: x and y as one number."""
    own, n = OBJECTS // threads, k * threads + thread
    return k * STRIDE % own * threads + thread, (mixed(OBJECTS + n), n + 1)


def expected(made):
    """All objects after so many changes of each thread. Only the last change of each object counts."""
    objects = {i: (mixed(i), 0) for i in range(OBJECTS)}
    for thread, count in enumerate(made):
        last = range(max(0, count - OBJECTS // len(made)), count)
        objects.update(change(len(made), thread, k) for k in last)
    return objects


def sum_of(objects):
    return sum(mixed(mixed(mixed(i ^ WORD) ^ place) ^ moment) for i, (place, moment) in objects.items()) & WORD


def objects_in(log):
    """What the records of a log leave: puts and moves, the only changes that these programs make."""
    data, at, objects = log.read_bytes(), 16, {}
    if data[:9] != b'MDLOCLOG\2':
        sys.exit(f'{log}: not a log')
    while data[at] == 1:
        kind, i, place, moment = struct.unpack_from('>xBQQQ', data, at)
        if kind in (1, 2):
            objects[i] = place, moment
        at += 32
    return objects


# ---- runs
Run = collections.namedtuple('Run', 'changes nanos made sum', defaults=[None, None])  # made: changes of each thread; sum: over the objects


def ran(words):
    """What a program prints about its run."""
    got = subprocess.run([str(w) for w in words], capture_output=True, text=True, timeout=LIMIT)
    lines = [line.split() for line in got.stdout.splitlines()]
    if got.returncode or not lines or lines[0][::2] != ['changes', 'nanos']:
        sys.exit(f'{words}: status {got.returncode}: {got.stdout[-200:]} {got.stderr[-200:]}')
    more = {line[0]: line[1:] for line in lines[1:]}
    if more.pop('right', ['answers', lines[0][1]]) != ['answers', lines[0][1]]:
        sys.exit(f'{words}: WRONG answers: {got.stdout[-200:]}')
    more = {name: [int(word) for word in numbers] for name, numbers in more.items()}
    return Run(int(lines[0][1]), int(lines[0][3]), more.get('made'), more.get('sum', [None])[0])


class Bench:
    def __init__(self, asked):
        self.asked = asked
        folder = pathlib.Path(asked.dir or os.path.join(tempfile.gettempdir(), 'mdloc-bench'))
        folder.mkdir(parents=True, exist_ok=True)
        self.bin = folder / 'bin'
        subprocess.run(['make', '-s', '-C', str(HERE), f'BIN={self.bin}', f'{self.bin}/batches'], check=True)
        there = asked.batches and shutil.which(asked.batches)
        if asked.batches and not there:
            print(f'no program {asked.batches}', file=sys.stderr)
        self.peers = list(OURS) * bool(there) + asked.peers.split(',')
        for peer in self.peers:
            if peer not in NAMES:
                sys.exit(f'no peer {peer}: {" ".join(NAMES)}')
        self.speeds = {}  # changes a second of PROGRAM, by place, size and threads

    def run(self, peer, folder, size, threads, changes=0, seconds=LIMIT, look=False):
        """A run in a new folder. Ends this program if the run leaves wrong objects. `look` reads those of PROGRAM too."""
        with tempfile.TemporaryDirectory(prefix='mdloc-batches-', dir=folder) as home:
            store = pathlib.Path(home) / 'store'
            if peer in OURS:
                pause = [self.asked.pause] * (peer == 'buffered')
                run = ran([self.asked.batches, '-' if peer == 'no-log' else store, size, threads, changes] + pause)
                if look:
                    run = run._replace(made=[changes // threads] * threads, sum=sum_of(objects_in(store)))
            else:
                run = ran([self.bin / 'batches', peer, store, size, threads, seconds] + [changes] * bool(changes))
        if changes and run.changes != changes or run.sum is not None and run.sum != sum_of(expected(run.made)):
            sys.exit(f'{NAMES[peer]}, {run.changes:,} changes, batches of {size:,}, threads {threads}: WRONG objects')
        return run

    def check(self, folder):
        """Ends this program unless all stores leave the same objects."""
        for (size, changes), threads, peer in itertools.product(CHECKED.items(), self.asked.threads, self.peers):
            if peer not in ('bare', 'no-log'):
                run = self.run(peer, folder, size, threads, changes, look=True)
                if self.asked.check:
                    print(f'{NAMES[peer]}, {changes:,} changes, batches of {size:,}, threads {threads}: right objects, sum {run.sum}', flush=True)

    def measure(self, peer, folder, size, threads):
        if peer not in OURS:
            return self.run(peer, folder, size, threads, seconds=self.asked.seconds)
        case = peer, folder, size, threads
        if case not in self.speeds:
            self.speeds[case] = self.speed(*case)
        return self.run(peer, folder, size, threads, whole(self.speeds[case] * self.asked.seconds, size * threads))

    def speed(self, peer, folder, size, threads):
        """About how many changes a second PROGRAM makes. Runs get longer until one takes SHORT."""
        changes, run = whole(0, size * threads), None
        while not run or run.nanos < SHORT * 1e9 and changes < MOST // 2:
            run = self.run(peer, folder, size, threads, changes)
            changes = whole(changes * min(max(1.5 * SHORT * 1e9 / run.nanos, 2), 16), size * threads)
        return run.changes / run.nanos * 1e9


def whole(changes, step):
    """About so many changes, as whole batches of each thread."""
    return max(int(min(changes, MOST)) // step, 1) * step


# ---- what is printed
def kind(folder):
    """The file system that a folder is on."""
    found = subprocess.run(['findmnt', '-n', '-o', 'FSTYPE', '-T', folder], capture_output=True, text=True).stdout.split()
    return found[-1] if found else 'unknown'


def short(number):
    """To three digits."""
    scale = 10 ** max(len(str(int(number))) - 3, 0)
    return f'{round(number / scale) * scale:,}'


def table(best, peers, sizes, threads):
    yield '| Store |' + ''.join(f' batches of {size:,} |' for size in sizes)
    yield '|---|' + '--:|' * len(sizes)
    for peer in peers:
        yield f'| {NAMES[peer]} |' + ''.join(' ' + ' / '.join(short(best[peer, size, n]) for n in threads) + ' |' for size in sizes)


def measure_all(bench, places, asked):
    """The most changes a second, by place and then by peer, size and threads."""
    best = {place: collections.Counter() for place in places}
    for turn, place, size, threads, peer in itertools.product(range(asked.runs), places, asked.sizes, asked.threads, bench.peers):
        run = bench.measure(peer, places[place], size, threads)
        case = peer, size, threads
        best[place][case] = max(best[place][case], run.changes / run.nanos * 1e9)
        if asked.json:
            line = dict(place=place, peer=peer, size=size, threads=threads, run=turn, changes=run.changes, nanos=run.nanos)
            with open(asked.json, 'a') as lines:
                lines.write(json.dumps(line) + '\n')
    return best


def words():
    numbers = lambda text: [int(word) for word in text.split(',')]
    words = argparse.ArgumentParser(description=__doc__, formatter_class=argparse.RawDescriptionHelpFormatter)
    words.add_argument('--batches', type=os.path.abspath)
    words.add_argument('--disk', default=tempfile.gettempdir())
    words.add_argument('--memory', default='/dev/shm')
    words.add_argument('--sizes', type=numbers, default='1,16,256,4096')
    words.add_argument('--threads', type=numbers, default='1,8')
    words.add_argument('--peers', default='rocksdb,lmdb,sqlite,bare')
    words.add_argument('--pause', type=int, default=10)
    words.add_argument('--seconds', type=float, default=2)
    words.add_argument('--runs', type=int, default=3)
    words.add_argument('--check', action='store_true')
    words.add_argument('--dir')
    words.add_argument('--json')
    return words.parse_args()


def main():
    asked = words()
    bench = Bench(asked)
    places = {name: folder for name, folder in (('on a disk', asked.disk), ('in memory', asked.memory)) if folder}
    bench.check(asked.memory or asked.disk)
    if asked.check:
        return
    best = measure_all(bench, places, asked)
    for place, folder in places.items():
        print(f'Files {place} ({kind(folder)}). Each cell has changes a second, with {" / ".join(map(str, asked.threads))} threads.\n')
        print('\n'.join(table(best[place], bench.peers, asked.sizes, asked.threads)), end='\n\n')


if __name__ == '__main__':
    main()
