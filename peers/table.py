#!/usr/bin/env python3
"""Tables in Markdown from the lines that run.py --json wrote: python3 table.py ONE SIXTEEN [DURABLE]

ONE has runs of --sessions 1, SIXTEEN those of 16 sessions beside the peers with threads. Of several runs of a program, profile
and size the best counts. One session in memory is processor time in milliseconds, a server's with its client's, which a busy
machine changes less than the time on the clock; 16 sessions, and a log, where most of it is waiting, are milliseconds on the
clock, without a program's start and end."""
import json
import sys

import gen

MEMORY = [('trie', 'C++ trie'), ('grid', 'grid'), ('rstar', 'R*-tree'), ('nanoflann', 'nanoflann'),
          ('spatialindex', 'libspatialindex'), ('sqlite-mem', 'SQLite'), ('redis-pipe', 'Redis')]
THREADS = [('trie-16', 'C++ trie'), ('rstar-16', 'R*-tree')]
DURABLE = [('log-2-syncs', 'four device calls alone'), ('trie-wal', 'C++ trie + log'), ('rocksdb', 'RocksDB'), ('lmdb', 'LMDB'),
           ('sqlite-wal', 'SQLite'), ('redis-aof', 'Redis')]


def best(name):
    """The best run by profile, rows and peer, with the least processor time of any."""
    runs = {}
    for line in open(name):
        run = json.loads(line)
        if 'profile' in run:
            key = run['profile'], run['rows'], run['peer']
            other = runs.get(key, run)
            runs[key] = dict(min(run, other, key=lambda r: r['net']), cpu=min(run['cpu'], other['cpu']))
    return runs


def number(run, key='cpu', scale=1e3):
    if not run:
        return ''
    value = run[key] * scale
    return f'{value:,.0f}' if value >= 100 else f'{value:.1f}'


def table(head, rows):
    print('| ' + ' | '.join(head) + ' |\n|---' + '|--:' * (len(head) - 1) + '|')
    for row in rows:
        print('| ' + ' | '.join(row) + ' |')
    print()


def times(runs, peers, key):
    """A table of times: a line for each profile, a column for each of the peers, and in a cell the times for each number of rows."""
    sizes = sorted({rows for _, rows, peer in runs if peer == peers[0][0]})
    table(['Profile, ' + ' / '.join(f'{rows:,}' for rows in sizes) + ' rows'] + [name for _, name in peers],
          [[profile] + [' / '.join(number(runs.get((profile, rows, peer)), key) for rows in sizes) for peer, _ in peers]
           for profile in gen.PROFILES if any((profile, rows, peers[0][0]) in runs for rows in sizes)])


def in_memory(one, sixteen):
    times(one, [('mdloc', 'this, one session')] + MEMORY, 'cpu')
    times(sixteen, [('mdloc', 'this, 16 sessions')] + THREADS, 'net')
    most = max(rows for _, rows, _ in one)
    table(['Profile, memory in MB', 'this, one session', 'this, 16 sessions'] + [name for _, name in MEMORY],
          [[profile] + [number(runs.get((profile, most, peer)), 'rss', 1) if runs.get((profile, most, peer)) else ''
                        for runs, peer in [(one, 'mdloc'), (sixteen, 'mdloc')] + [(one, peer) for peer, _ in MEMORY]]
           for profile in gen.PROFILES if (profile, most, 'mdloc') in one])


def durable(runs):
    times(runs, [('mdloc-log', 'this, over a disk')] + DURABLE, 'net')


if __name__ == '__main__':
    in_memory(best(sys.argv[1]), best(sys.argv[2]))
    if len(sys.argv) > 3:
        durable(best(sys.argv[3]))
