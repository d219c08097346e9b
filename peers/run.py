#!/usr/bin/env python3
"""Runs mdloc's peers, and mdloc where it is given, on one input and prints a table of ratios.

    python3 run.py --profile taxi --rows 65536 [--peers grid,rstar] [--mdloc CMD]

--profile P,..   profiles of gen.py, or "all" (default taxi)      --rows N,..  (default 65536)
--peers A,..     names or groups (mem, mem16, log); default all
--mdloc CMD      the program without its words; "play -" stands beside mem, "play FILE" beside log
--reps N         most runs of a peer, the best counts (default 5; 3 for log)
--seed N         of the generator (default 1)                     --json FILE  adds the results as lines
--check          compares every peer with the plain list in Python on small inputs, and asks the
                 durable ones again after a restart; no times
--growth         cost against the number of points, with exponents, instead of the table
--limits         the machine's own costs alone
--store D        where the durable ones keep their files: a folder, or tmpfs (default: the scratch folder)
--dir D          scratch (default: a folder in the system's temporary folder)
--cpus N         processors that all may use (default 2)
--sessions N     rows of so many sessions, 1 to 16 (default 16); mdloc over a log only beside peers of log

Answers are compared byte by byte with the plain list's at full size; those of sessions are played
again in the order of their places. Redis is approximate: its answers are told by how far they overlap.
"""
import argparse
import collections
import contextlib
import filecmp
import json
import math
import os
import pathlib
import shlex
import shutil
import signal
import socket
import subprocess
import sys
import tempfile
import time

import gen
import oracle

HERE = pathlib.Path(__file__).resolve().parent
Peer = collections.namedtuple('Peer', 'group words exact what server', defaults=[None])
# words: {bin} programs, {store} a fresh path in {disk}, {changes} of the input, {port} of the server. exact: 'yes', 'approx' (told by
# overlap), or 'floor' (no peer, only device calls). server: the words of one that is up for this peer's run alone.
REDIS = 'redis-server --port {port} --bind 127.0.0.1 --dir {store} --loglevel warning --save'.split() + ['']  # no snapshots
AOF = REDIS + '--appendonly yes --appendfsync always --auto-aof-rewrite-percentage 0'.split()
PEERS = {
    'list': Peer('oracle', '{bin}/list', 'yes', 'plain list, linear scans'),
    'grid': Peer('mem', '{bin}/grid', 'yes', 'uniform grid + hash map'),
    'trie': Peer('mem', '{bin}/trie', 'yes', "mdloc's own design in plain C++ + hash map"),
    'rstar': Peer('mem', '{bin}/rstar', 'yes', 'Boost R*-tree + hash map'),
    'nanoflann': Peer('mem', '{bin}/nanoflann', 'yes', 'nanoflann dynamic forest'),
    'spatialindex': Peer('mem', '{bin}/spatialindex', 'yes', 'libspatialindex R-tree'),
    'sqlite-mem': Peer('mem', '{bin}/sqlite', 'yes', 'SQLite R*Tree, :memory:'),
    'redis-pipe': Peer('mem', '{bin}/redis {port} 256', 'approx', 'Redis GEO, 256 rows ahead', REDIS),
    'trie-16': Peer('mem16', '{bin}/trie-16', 'yes', 'trie, reader-writer lock, 16 threads'),
    'rstar-16': Peer('mem16', '{bin}/rstar-16', 'yes', 'Boost R*-tree, reader-writer lock, 16 threads'),
    'log-2-syncs': Peer('log', '{bin}/devcalls {disk} {changes} 0', 'floor', "the log's four device calls alone"),
    'trie-wal': Peer('log', '{bin}/trie {store}', 'yes', 'trie + log, 1 fdatasync'),
    'rocksdb': Peer('log', '{bin}/rocksdb {store}', 'yes', 'RocksDB Z-order, sync'),
    'lmdb': Peer('log', '{bin}/lmdb {store}', 'yes', 'LMDB Z-order, sync'),
    'sqlite-wal': Peer('log', '{bin}/sqlite {store}', 'yes', 'SQLite R*Tree, WAL, FULL'),
    'redis-aof': Peer('log', '{bin}/redis {port} 1', 'approx', 'Redis GEO, appendfsync always', AOF),
}
GROUPS = ('mem', 'mem16', 'log')
LIMIT = 60  # seconds for one run


def free_port():
    with socket.socket() as s:
        s.bind(('127.0.0.1', 0))
        return s.getsockname()[1]


def listens(port):
    """Whether a Redis server there answers, so that it has read its log."""
    try:
        with socket.create_connection(('127.0.0.1', port), 1) as s:
            s.sendall(b'PING\r\n')
            return s.recv(16).startswith(b'+PONG')
    except OSError:
        return False


@contextlib.contextmanager
def serving(words, port, messages):
    """Starts a server and gives its process once it answers, or None where it doesn't; ends it, and no other, in the end."""
    with open(messages, 'w') as to:
        process = subprocess.Popen([str(w) for w in words], stdin=subprocess.DEVNULL, stdout=to, stderr=to)
    try:
        end = time.monotonic() + 15
        up = False
        while not up and process.poll() is None and time.monotonic() < end:
            up = listens(port)
            time.sleep(.01)
        yield process if up and process.poll() is None else None
    finally:
        process.terminate()
        try:
            process.wait(20)
        except subprocess.TimeoutExpired:
            process.kill()
            process.wait()


def processor_time(process):
    """Seconds of all its threads, by the clock that clock_getcpuclockid(3) names."""
    return time.clock_gettime(~process.pid << 3 | 2)


def most_memory(process):
    """The most memory that it held, in MB."""
    lines = pathlib.Path(f'/proc/{process.pid}/status').read_text().splitlines()
    return next(int(l.split()[1]) for l in lines if l.startswith('VmHWM:')) // 1024


def by_id(row):
    return row.split(',', 2)[1] not in ('box', 'near')


def overlap(csv, expected, out):
    """How far approximate answers are from the expected ones. Rows by id must agree on whether the object is there, and on its moment."""
    want, have = ([l.split(',')[2:] for l in pathlib.Path(f).read_text().splitlines()[1:]] for f in (expected, out))
    if len(want) != len(have):
        return 'WRONG: lines'
    shares, off = {'box': [], 'near': []}, 0
    for row, a, b in zip(csv.read_text().splitlines()[1:], want, have):
        if not by_id(row):
            p, q = ({e.split(':')[0] for e in t[1].split(';') if e} for t in (a, b))
            if a[0] == b[0] == 'found':
                shares[row.split(',')[1]].append(len(p & q) / len(p | q) if p or q else 1)
            continue
        (x, y, moment), (u, v, kept) = ((t[1] or '0:0:0').split(':') for t in (a, b))
        if a[0] != b[0] or moment != kept:
            return 'WRONG: ' + row
        off = max(off, abs(int(x) - int(u)), abs(int(y) - int(v)))
    means = [f'{k} {sum(v) / len(v):.3f}' for k, v in shares.items() if v]
    return ' '.join(['approximate:'] + means + [f'off {off}'])


class Bench:
    def __init__(self, args):
        self.args = args
        self.dir = pathlib.Path(args.dir or os.path.join(tempfile.gettempdir(), 'mdloc-bench'))
        self.dir.mkdir(parents=True, exist_ok=True)
        self.bin = self.dir / 'bin'
        made = subprocess.run(['make', '-s', '-k', '-j2', '-C', str(HERE), f'BIN={self.bin}'], capture_output=True, text=True)
        if made.returncode:  # a library that isn't there costs its peers alone
            print(made.stderr[-2000:], file=sys.stderr)
        self.mdloc_words = shlex.split(args.mdloc or '')
        if args.mdloc:
            self.mdloc_words[0] = shutil.which(self.mdloc_words[0]) or os.path.abspath(self.mdloc_words[0])
        self.empty = self.dir / 'empty.csv'
        self.empty.write_text(gen.text([]))
        found = subprocess.run(['findmnt', '-t', 'tmpfs', '-n', '-o', 'TARGET'], capture_output=True, text=True).stdout.split()
        room = lambda d: os.statvfs(d).f_bavail * os.statvfs(d).f_frsize
        ram = [d for d in found if d.startswith('/dev/') and os.access(d, os.W_OK) and room(d) > 2**30]
        self.ram = tempfile.mkdtemp(prefix='mdloc-bench-', dir=ram[0]) if ram else None
        self.out = pathlib.Path(tempfile.mkdtemp(prefix='out-', dir=self.ram or self.dir))
        self.disk = self.dir if not args.store else pathlib.Path(self.ram if args.store == 'tmpfs' else args.store)
        self.changes = 0
        signal.signal(signal.SIGTERM, lambda *_: sys.exit(143))

    def close(self):
        self.clean('*')
        shutil.rmtree(self.out, ignore_errors=True)
        if self.ram:
            shutil.rmtree(self.ram, ignore_errors=True)

    # ---- one run
    def run(self, words, stdin, out):
        """Wall seconds from start to end, the times the program tells, its memory, or what went wrong."""
        err = self.out / 'err'
        p = subprocess.run([self.bin / 'launch', str(LIMIT), stdin, out, err] + [str(w) for w in words], capture_output=True, text=True)
        if p.returncode:
            return dict(fault='no start: ' + p.stderr.strip())
        wall, cpu, rss, status = map(int, p.stdout.split())
        told = err.read_text()
        if status:
            return dict(fault=f'over {LIMIT} s' if status == -9 else f'status {status} {told.strip()[:200]}')
        r = dict(wall=wall / 1e9, cpu=cpu / 1e6, rss=rss // 1024, kinds={})
        for line in told.splitlines():
            w = line.split()
            if w[:1] == ['times']:
                r.update({k: int(v) / 1e9 for k, v in zip(w[1::2], w[2::2])})
            elif w[:1] == ['kind']:
                r['kinds'][w[1]] = int(w[2]) / int(w[3])
            elif w[:1] == ['builds']:
                r['builds'] = (int(w[1]), int(w[3]) / 1e9)
        return r

    def calm(self):
        """Waits, half a minute at most, for the disk to sync about as fast as it ever did here. Shared disks
        are slowed down at times, by five times and more."""
        known = self.dir / 'quick'
        for left in range(10, -1, -1):
            probe = self.run([self.bin / 'devcalls', self.disk, '100', '0'], self.empty, self.out / 'probe')
            took = probe.get('wall', math.inf)
            quick = min(took, float(known.read_text()) if known.exists() else math.inf)
            if self.args.store != 'tmpfs':
                known.write_text(str(quick))
            if took < 2 * quick or self.args.store == 'tmpfs':
                return True
            if left:
                time.sleep(3)
        return False

    def play(self, peer, csv, out, fresh=True):
        """One run of a peer, on a new store or on the one that it left. A server's processor time and memory count with its client's."""
        if fresh:
            self.clean(peer)
        store = self.disk / f'store-{peer}-{os.getpid()}'
        fill = lambda words, port=0: [w.format(bin=self.bin, store=store, disk=self.disk, changes=self.changes, port=port) for w in words]
        words, server = PEERS[peer].words.split(), PEERS[peer].server
        if not server:
            return self.run(fill(words), csv, out)
        store.mkdir(exist_ok=True)
        port = free_port()
        with serving(fill(server, port), port, store / 'messages') as process:
            if not process:
                return dict(fault='no server: ' + (store / 'messages').read_text().strip()[-200:])
            before = processor_time(process)
            r = self.run(fill(words, port), csv, out)
            if 'fault' not in r:
                r['cpu'] += processor_time(process) - before
                r['rss'] += most_memory(process)
            return r

    def clean(self, peer):
        for f in self.disk.glob(f'store-{peer}-{os.getpid()}*'):
            shutil.rmtree(f) if f.is_dir() else f.unlink()

    def mdloc(self, durable, csv, out):
        cmd = self.mdloc_words
        if not durable:
            return self.run(cmd + ['play', '-'], csv, out)
        self.clean('mdloc')
        store = self.disk / f'store-mdloc-{os.getpid()}'
        r = self.run(cmd + ['init', store], os.devnull, self.out / 'made')
        return r if 'fault' in r else self.run(cmd + ['play', store], csv, out)

    # ---- answers
    def expected(self, csv):
        """The plain list's answers to a file of rows."""
        to = csv.with_suffix('.expected')
        if not to.exists():
            r = self.run([self.bin / 'list'], csv, self.out / 'expected')
            if 'fault' in r:
                sys.exit(r['fault'])
            shutil.move(self.out / 'expected', to)
        return to

    def compare(self, exact, csv, out):
        if exact == 'floor':
            return 'no answers'
        if exact == 'approx':
            return overlap(csv, self.expected(csv), out)
        if filecmp.cmp(self.expected(csv), out, shallow=False):
            return 'exact'
        return self.replayed(csv, out)

    def replayed(self, csv, out):
        """A run of sessions: its places are each once and rise in a session, and the rows in that order
        give its answers."""
        rows = csv.read_text().splitlines()[1:]
        lines = [l.split(',', 2) for l in pathlib.Path(out).read_text().splitlines()[1:]]
        if len(lines) != len(rows) or [int(l[0]) for l in lines] != list(range(1, len(rows) + 1)):
            return 'WRONG: rows'
        places = [int(l[1]) for l in lines]
        if sorted(places) != list(range(1, len(rows) + 1)):
            return 'WRONG: places'
        last = {}
        for r, p in zip(rows, places):
            s = r.split(',', 1)[0]
            if last.get(s, 0) >= p:
                return 'WRONG: order in a session'
            last[s] = p
        order = sorted(range(len(rows)), key=places.__getitem__)
        again = self.out / 'again.csv'
        again.write_text(gen.text([rows[i] for i in order]))
        if 'fault' in self.run([self.bin / 'list'], again, self.out / 'again'):
            return 'WRONG: replay'
        for i, l in zip(order, (self.out / 'again').read_text().splitlines()[1:]):
            if l.split(',', 2)[2] != lines[i][2]:
                return f'WRONG: row {i + 1}'
        return 'exact' if places == list(range(1, len(rows) + 1)) else 'exact by place'

    # ---- inputs
    def input(self, name, make):
        n = self.args.sessions
        name += '' if n == 16 else f'-{n}s'
        f = self.dir / 'inputs' / (name + '-moments.csv')
        if not f.exists():
            f.parent.mkdir(exist_ok=True)
            f.with_suffix('.new').write_text(gen.text([gen.in_sessions(r, n) for r in make()]))
            f.with_suffix('.new').rename(f)
        return f

    # ---- the machine's own costs
    def floor(self, csv):
        runs = [self.run([self.bin / 'floor', self.expected(csv)], csv, self.out / 'out') for _ in range(5)]
        return dict(parse=min(r['parse'] for r in runs), print=min(r['rest'] + r['write'] for r in runs),
                    total=min(r['total'] for r in runs), start=min(self.start() for _ in range(10)),
                    bytes=os.path.getsize(self.out / 'out'))

    def start(self):
        """A program's start and end: the grid over a header alone."""
        return self.run([self.bin / 'grid'], self.empty, self.out / 'start')['wall']

    def limits(self):
        for name, where in (('disk (scratch folder)', self.dir), ('disk (folder of this program)', HERE), ('tmpfs', self.ram)):
            if where:
                print(f'device calls a change, {name}:')
                print(subprocess.run([self.bin / 'devcalls', where, '2000'], capture_output=True, text=True).stdout, end='')

    # ---- modes
    def chosen(self):
        names = (self.args.peers or ','.join(GROUPS)).split(',')
        for n in names:
            if n not in PEERS and n not in GROUPS:
                sys.exit(f'no peer {n}: {" ".join(PEERS)}')
        some = [n for n, p in PEERS.items() if n in names or p.group in names]
        there = [n for n in some if (self.bin / PEERS[n].words.split()[0][6:]).exists()
                 and (not PEERS[n].server or shutil.which(PEERS[n].server[0]))]
        if there != some:
            print('not installed:', *(n for n in some if n not in there))
        return there

    def table(self, profile, rows):
        name = f'{profile}-{rows}-{self.args.seed}'
        csv = self.input(name, lambda: gen.profile(profile, rows, self.args.seed))
        lines = csv.read_text().splitlines()[1:]
        load = next((i for i, l in enumerate(lines) if ',put,' not in l), len(lines))
        loading = self.input(name + '-load', lambda: lines[:load])
        want = self.expected(csv).read_text().splitlines()[1:]
        self.changes = sum(l.split(',', 3)[2] in ('done', 'moved', 'gone') for l in want)
        floor = self.floor(csv)
        jobs = [(n, PEERS[n].group) for n in self.chosen()]
        if self.args.mdloc:
            jobs += [('mdloc', 'mem16')] + [('mdloc-log', 'log')] * any(g.startswith('log') for _, g in jobs)
        best, notes, least = {}, {}, {}

        def once(job, group):
            out = self.out / 'out'
            on_disk = group.startswith('log')
            calm = not on_disk or self.calm()
            if job.startswith('mdloc'):
                r = self.mdloc(job == 'mdloc-log', csv, out)
                if 'fault' not in r:
                    l = self.mdloc(job == 'mdloc-log', loading, self.out / 'load')
                    r['load'] = l.get('wall', math.nan)
                    r['rest'] = r['wall'] - r['load']
            else:
                r = self.play(job, csv, out)
            if 'fault' in r:
                notes[job] = r['fault']
                return None
            if job not in notes:
                notes[job] = self.compare('yes' if job.startswith('mdloc') else PEERS[job].exact, csv, out)
            r['calm'] = calm and (not on_disk or self.calm())
            least[job] = min(least.get(job, math.inf), r['cpu'])
            if job not in best or r['wall'] < best[job]['wall']:
                best[job] = r
            return r

        # Round by round, so that a noisy moment meets all. Short runs are repeated more often, those over ten seconds not at all
        # unless the disk was slow.
        count, quiet = collections.Counter(), collections.Counter()

        def again(job, group):
            if job not in best:
                return count[job] == 0
            wall = best[job]['wall']
            if self.args.reps:
                return count[job] < self.args.reps
            most = 15 if wall < .05 else 7 if wall < .3 else 5 if wall < 1 else 3 if wall < 10 else 1
            if group.startswith('log'):
                return quiet[job] < min(most, 3) and count[job] < 6
            return count[job] < most

        def turn(job, group):
            count[job] += 1
            last = once(job, group)
            quiet[job] += bool(last and last['calm'])
            return last

        while any([again(*j) and (turn(*j), True)[1] for j in jobs]):
            floor['start'] = min(floor['start'], self.start())
        for job, _ in jobs:
            self.clean('mdloc' if job.startswith('mdloc') else job)

        for job, r in best.items():
            r['net'] = max(1e-6, r['wall'] - floor['start'])
            r['cpu'] = least[job]  # of all runs, so that a busy machine shows less
        sound = {j: r for j, r in best.items() if notes[j].startswith('exact') and not j.startswith('mdloc')}
        of = lambda groups: min((r['net'] for j, r in sound.items() if PEERS[j].group in groups), default=math.nan)
        mem, log = of(('mem', 'mem16')), of(('log', 'log16'))
        print(f'\n## {profile}, {rows} rows ({load} puts first), seed {self.args.seed}; {floor["bytes"]} bytes of answers')
        print(f'{self.changes} changes; an empty run takes {floor["start"] * 1e3:.1f} ms, and "net" is without it')
        print('ratio: of net to the fastest exact one in memory; log: to the fastest exact durable one')
        md = self.args.mdloc
        head = f'{"peer":18}{"group":7}{"net ms":>9}{"load ms":>9}{"rest ms":>9}{"cpu ms":>8}{"MB":>6}{"ratio":>8}{"log":>7}'
        print(head + (f'{"mdloc/it":>10}' if md else '') + '  answers')
        print(f'{"floor":18}{"":7}{floor["total"] * 1e3:9.1f}{"":32}{floor["total"] / mem:7.2f}'
              f'         parse {floor["parse"] * 1e3:.1f} ms, print {floor["print"] * 1e3:.1f} ms')
        for job, group in jobs:
            r = best.get(job)
            if not r:
                print(f'{job:18}{group:7}{"":>46}  {notes.get(job)}')
                continue
            ours = best.get('mdloc-log' if group.startswith('log') else 'mdloc', {}).get('net', math.nan)
            ms = lambda k: f'{r[k] * 1e3:9.1f}' if r.get(k) else f'{"":9}'
            print(f'{job:18}{group:7}{ms("net")}{ms("load")}{ms("rest")}{r["cpu"] * 1e3:8.0f}{r["rss"]:6}'
                  f'{r["net"] / mem:8.2f}' + (f'{r["net"] / log:7.2f}' if group.startswith('log') else f'{"":7}')
                  + (f'{ours / r["net"]:10.2f}' if md else '') + f'  {notes[job]}' + ('' if r['calm'] else ', SLOW DISK'), flush=True)
            if self.args.json:
                with open(self.args.json, 'a') as f:
                    f.write(json.dumps(dict(profile=profile, rows=rows, peer=job, group=group, note=notes[job],
                                            ratio=r['net'] / mem, changes=self.changes,
                                            log=r['net'] / log if group.startswith('log') else None, floor=floor, **r)) + '\n')
        return not any(n.startswith(('WRONG', 'status')) for n in notes.values())

    def check(self):
        good = True
        cases = gen.edge_cases(self.args.seed)
        for p in gen.PROFILES:
            cases[p] = gen.profile(p, 1600, self.args.seed)
        files = {}
        for name, rows in cases.items():
            files[name] = f = self.out / f'{name}.csv'
            f.write_text(gen.text(rows))
            f.with_suffix('.expected').write_text('row,place,answer,detail\n' + ''.join(l + '\n' for l in oracle.answers(rows)))
        jobs = ['list'] + [n for n in self.chosen() if PEERS[n].exact != 'floor'] + (['mdloc', 'mdloc-log'] if self.args.mdloc else [])
        for job in jobs:
            told = {}
            ours = job.startswith('mdloc')
            for name, f in files.items():
                if name in ('ties', 'ends', 'far', 'empty') and not ours and 'sessions' in PEERS[job].words:
                    continue  # sessions share ids there, and these peers tell no places
                out = self.out / 'out'
                r = self.mdloc(job == 'mdloc-log', f, out) if ours else self.play(job, f, out)
                note = r.get('fault') or self.compare('yes' if ours else PEERS[job].exact, f, out)
                if job == 'list' and note != 'exact':
                    note = 'WRONG: ' + note
                told[name] = note
            # Half the rows, the program's end, the other half on the same store.
            if job == 'mdloc-log' or not ours and PEERS[job].group == 'log':
                for name in ('ties', 'far', 'taxi'):
                    rows, got = cases[name], []
                    for part in (rows[:len(rows) // 2], rows[len(rows) // 2:]):
                        f = self.out / 'half.csv'
                        f.write_text(gen.text(part))
                        first = not got
                        if ours:
                            r = self.mdloc(True, f, self.out / 'out') if first else self.run(
                                self.mdloc_words + ['play', self.disk / f'store-mdloc-{os.getpid()}'], f, self.out / 'out')
                        else:
                            r = self.play(job, f, self.out / 'out', first)
                        if 'fault' in r:
                            told['reopened ' + name] = r['fault']
                        lines = [l.split(',', 2) for l in (self.out / 'out').read_text().splitlines()[1:]]
                        if ours:  # the rows in the order of their places
                            got += [(rows[len(got) + i], lines[i][2]) for i in sorted(range(len(lines)), key=lambda i: int(lines[i][1]))]
                        else:
                            got += [(r, l[2]) for r, l in zip(part, lines)]
                    want = [l.split(',', 2)[2] for l in oracle.answers([r for r, _ in got])]
                    have = [a for _, a in got]
                    if not ours and PEERS[job].exact == 'approx':  # whether the object is there, of rows by id
                        want, have = ([a.split(',')[0] for (r, _), a in zip(got, v) if by_id(r)] for v in (want, have))
                    told['reopened ' + name] = 'exact' if want == have else 'WRONG: after reopening'
            self.clean('mdloc' if ours else job)
            bad = {n: t for n, t in told.items() if not t.startswith(('exact', 'approximate'))}
            good = good and not bad
            kinds = sorted({t for t in told.values()}) if not bad else []
            note = '; '.join(f'{n}: {t}' for n, t in bad.items()) or f'{len(told)} inputs: ' + ', '.join(kinds)
            print(f'{job:18}', note[:300], flush=True)
        print('all as expected' if good else 'NOT ALL AS EXPECTED')
        return good

    def growth(self):
        sizes = [1000 * 2**i for i in range(7)]
        ops, kinds = 1536, ['move', 'where', 'box', 'near']
        os.environ['BENCH_KINDS'] = '1'
        result = {}
        jobs = [n for n in self.chosen() if PEERS[n].group in ('mem', 'log') and PEERS[n].exact != 'floor']
        for job in jobs:
            for n in sizes:
                csv = self.input(f'growth-{n}-{self.args.seed}', lambda: gen.growth(n, kinds, ops, self.args.seed))
                for rep in range(self.args.reps or (1 if PEERS[job].group == 'log' else 3)):
                    r = self.play(job, csv, self.out / 'out')
                    if 'fault' in r:
                        break
                    for k, v in r['kinds'].items():
                        old = result.setdefault((job, k), {}).get(n, math.inf)
                        result[job, k][n] = min(old, v)
            self.clean(job)
        if self.args.mdloc:  # from outside: the puts alone, then with many rows of one kind after them
            os.environ.pop('BENCH_KINDS')
            many = 30000
            for job in ('mdloc', 'mdloc-log'):
                for n in sizes[:-1]:
                    wall = {'start': min(self.start() for _ in range(5))}
                    for k in [''] + kinds:
                        csv = self.input(f'growth-{n}-{k}-{self.args.seed}', lambda: gen.growth(n, [k], many if k else 0, self.args.seed))
                        for rep in range(self.args.reps or 3):
                            r = self.mdloc(job == 'mdloc-log', csv, self.out / 'out')
                            wall[k] = min(wall.get(k, math.inf), r.get('wall', math.inf))
                    for k, before, rows in [('put', 'start', n)] + [(k, '', many) for k in kinds]:
                        cost = (wall['' if k == 'put' else k] - wall[before]) / rows * 1e9
                        if 0 < cost < math.inf:
                            result.setdefault((job, k), {})[n] = cost
            self.clean('mdloc')
        print(f'\n## cost of a row in ns against the number of points (uniform; box of 16 points, near k 8)')
        print('exponent: slope of log cost on log points from 4,000 on; 0 does not grow, 1 is linear')
        print(f'{"peer":18}{"kind":7}' + ''.join(f'{n:>10}' for n in sizes) + f'{"exponent":>10}')
        for (job, k), v in result.items():
            pts = [(math.log(n), math.log(t)) for n, t in v.items() if n >= 4000]
            slope = math.nan
            if len(pts) > 2:
                mx, my = sum(p for p, _ in pts) / len(pts), sum(q for _, q in pts) / len(pts)
                slope = sum((p - mx) * (q - my) for p, q in pts) / sum((p - mx) ** 2 for p, _ in pts)
            print(f'{job:18}{k:7}' + ''.join(f'{v.get(n, math.nan):10.0f}' for n in sizes) + f'{slope:10.2f}')
            if self.args.json:
                with open(self.args.json, 'a') as f:
                    f.write(json.dumps(dict(growth=job, kind=k, ns=v, exponent=slope)) + '\n')
        return True


def main():
    a = argparse.ArgumentParser(usage=__doc__)
    for w in ('profile', 'rows', 'peers', 'mdloc', 'json', 'dir', 'store'):
        a.add_argument('--' + w)
    a.add_argument('--reps', type=int)
    a.add_argument('--seed', type=int, default=1)
    a.add_argument('--cpus', type=int, default=2)
    a.add_argument('--sessions', type=int, default=16)
    for w in ('check', 'growth', 'limits'):
        a.add_argument('--' + w, action='store_true')
    args = a.parse_args()
    os.sched_setaffinity(0, sorted(os.sched_getaffinity(0))[-args.cpus:])
    bench = Bench(args)
    with contextlib.closing(bench):
        if args.limits:
            return bench.limits() or 0
        if args.check:
            return 0 if bench.check() else 1
        if args.growth:
            return 0 if bench.growth() else 1
        good = True
        for p in (gen.PROFILES if args.profile == 'all' else (args.profile or 'taxi').split(',')):
            for n in (args.rows or '65536').split(','):
                good = bench.table(p, int(n)) and good
        return 0 if good else 1


if __name__ == '__main__':
    sys.exit(main())
