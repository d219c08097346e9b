"""Makes the inputs: python3 gen.py PROFILE ROWS [SEED] > input.csv

A profile is seeded and always gives the same rows. Row i is of session 1 + i mod 16; each session
has its own ids, puts its objects first, and then mixes. Profiles:

taxi         a city in microdegrees (x+180,000,000, y+90,000,000), 70 percent Gaussian; a quarter of
             the rows put; then 60 move by some 30 m, 10 where, 15 box of 0.4 to 1.3 km, 15 near k 8
cities       taxi in four cities that lie far apart (Paris, New York, Tokyo, Sydney), so that nearly
             all of the bounding box is empty
read-heavy   all of u32, uniform; a quarter puts; then 4 move, 1 put, 35 where, 30 box of about 16
             points, 30 near k 1 to 16
write-heavy  uniform; a quarter puts; then 70 move (half of them far), 8 drop, 8 put, 6 where, 4 box,
             4 near k 8
hot-spot     80 percent of the objects in a square of 1 percent of the area; a quarter puts; then 40
             move within reach, 20 where, 20 box of about 32 points in the spot, 20 near k 8
boxes-large  uniform; half puts; then 70 move, 20 where, 10 box of 256 to 4,096 points (log-uniform)
near-large   uniform; a quarter puts; then 70 move, 20 where, 10 near k 64 to 2,048 (log-uniform)

The moment of a put or move is its row's number times 1,000, but one move in 50 is late by 1,000 to 5,000 rows, as those of a phone
that comes out of a tunnel: it is stale where the object was put or moved in the meantime.
"""
import math
import random
import sys

HEADER = 'session,op,id,x,y,a,b,moment'
TOP = 2**32 - 1
CITIES = [(182350000, 138850000), (106000000, 130700000), (319700000, 125700000), (331200000, 56100000)]
PROFILES = ('taxi', 'cities', 'read-heavy', 'write-heavy', 'hot-spot', 'boxes-large', 'near-large')


def clip(v):
    return 0 if v < 0 else TOP if v > TOP else int(v)


def put(s, i, x, y):
    return f'{s},put,{i},{clip(x)},{clip(y)},,'


def move(s, i, x, y):
    return f'{s},move,{i},{clip(x)},{clip(y)},,'


def box(s, x, y, w, h):
    """A box of width w and height h round (x, y)."""
    return f'{s},box,,{clip(x - w / 2)},{clip(y - h / 2)},{clip(x + w / 2)},{clip(y + h / 2)}'


def near(s, x, y, k):
    return f'{s},near,,{clip(x)},{clip(y)},{k},'


class Fleet:
    """The objects of each session and where they are."""

    def __init__(self, rnd, sessions=16):
        self.rnd, self.sessions = rnd, sessions
        self.at = [None] + [{} for _ in range(sessions)]
        self.ids = [None] + [[] for _ in range(sessions)]
        self.made = [0] * (sessions + 1)
        self.gone = [None] + [[] for _ in range(sessions)]

    def put(self, s, x, y):
        if self.gone[s] and self.rnd.random() < .7:
            i = self.gone[s].pop()
        else:
            self.made[s] += 1
            i = s * 1000000 + self.made[s]
        self.ids[s].append(i)
        self.at[s][i] = (clip(x), clip(y))
        return put(s, i, x, y)

    def some(self, s):
        i = self.rnd.choice(self.ids[s])
        return i, self.at[s][i]

    def move(self, s, i, x, y):
        self.at[s][i] = (clip(x), clip(y))
        return move(s, i, x, y)

    def drop(self, s):
        k = self.rnd.randrange(len(self.ids[s]))
        i, self.ids[s][k] = self.ids[s][k], self.ids[s][-1]
        self.ids[s].pop()
        del self.at[s][i]
        self.gone[s].append(i)
        return f'{s},drop,{i},,,,'


MIXES = {
    # profile: (part of the rows that are puts at first, weights of what follows)
    'taxi': (.25, dict(move=60, where=10, box=15, near=15)),
    'cities': (.25, dict(move=60, where=10, box=15, near=15)),
    'read-heavy': (.25, dict(move=4, put=1, where=35, box=30, near=30)),
    'write-heavy': (.25, dict(move=70, drop=8, put=8, where=6, box=4, near=4)),
    'hot-spot': (.25, dict(move=40, where=20, box=20, near=20)),
    'boxes-large': (.5, dict(move=70, where=20, box=10)),
    'near-large': (.25, dict(move=70, where=20, near=10)),
}


def with_moments(rows, seed):
    """The rows with the column `moment`."""
    rnd = random.Random(f'moments {len(rows)} {seed}')
    out = []
    for n, row in enumerate(rows, 1):
        op = row.split(',', 2)[1]
        late = rnd.randint(1000, 5000) if op == 'move' and rnd.randrange(50) == 0 else 0
        out.append(f'{row},{max(0, n - late) * 1000 if op in ("put", "move") else ""}')
    return out


def profile(name, rows, seed=1):
    return with_moments(rows_of(name, rows, seed), seed)


def rows_of(name, rows, seed):
    """The rows of a profile without moments."""
    rnd = random.Random(f'{name} {rows} {seed}')
    part, mix = MIXES[name]
    fleet, out = Fleet(rnd), []
    load = max(16, int(rows * part) // 16 * 16)
    kinds, weights = list(mix), list(mix.values())
    town = name in ('taxi', 'cities')

    def anywhere():
        if town:
            x, y = CITIES[0] if name == 'taxi' else rnd.choice(CITIES)
            if rnd.random() < .7:
                return x + rnd.gauss(0, 60000), y + rnd.gauss(0, 60000)
            return x + rnd.uniform(-250000, 250000), y + rnd.uniform(-250000, 250000)
        if name == 'hot-spot' and rnd.random() < .8:
            return TOP * (.6 + .1 * rnd.random()), TOP * (.3 + .1 * rnd.random())
        return TOP * rnd.random(), TOP * rnd.random()

    def side(count):
        """Of a square that holds so many of `load` uniform points."""
        return TOP * math.sqrt(min(1, count / load))

    for r in range(rows):
        s = 1 + r % 16
        op = 'put' if r < load else rnd.choices(kinds, weights)[0]
        if op == 'drop' and len(fleet.ids[s]) < 2:
            op = 'put'
        if op == 'put':
            out.append(fleet.put(s, *anywhere()))
            continue
        if op == 'drop':
            out.append(fleet.drop(s))
            continue
        i, (x, y) = fleet.some(s)
        if op == 'where':
            out.append(f'{s},where,{i},,,,')
        elif op == 'move':
            if town:
                x, y = x + rnd.gauss(0, 300), y + rnd.gauss(0, 300)
            elif name == 'hot-spot':
                x, y = x + rnd.gauss(0, TOP * .001), y + rnd.gauss(0, TOP * .001)
            elif rnd.random() < .5:
                x, y = anywhere()
            else:
                x, y = x + rnd.gauss(0, side(1) / 4), y + rnd.gauss(0, side(1) / 4)
            out.append(fleet.move(s, i, x, y))
        elif op == 'box':
            if town:
                x, y, w = x + rnd.gauss(0, 3000), y + rnd.gauss(0, 3000), rnd.uniform(4000, 12000)
            elif name == 'hot-spot':
                w = side(32) * .1 / math.sqrt(.8)
            elif name == 'boxes-large':
                (x, y), w = anywhere(), side(2 ** rnd.uniform(8, 12))
                x, y = min(max(x, w / 2), TOP - w / 2), min(max(y, w / 2), TOP - w / 2)
            else:
                (x, y), w = anywhere(), side(16)
            out.append(box(s, x, y, w, w))
        else:
            k = 8
            if town:
                x, y = x + rnd.gauss(0, 1000), y + rnd.gauss(0, 1000)
            elif name == 'hot-spot':
                x, y = x + rnd.gauss(0, TOP * .001), y + rnd.gauss(0, TOP * .001)
            else:
                x, y = anywhere()
            if name == 'read-heavy':
                k = rnd.randint(1, 16)
            elif name == 'near-large':
                k = int(2 ** rnd.uniform(6, 11))
            out.append(near(s, x, y, k))
    return out


def growth(points, kinds, ops, seed=1):
    """Puts of so many uniform points, then `ops` rows that go through `kinds` in turn: move (far),
    where, box (of about 16 points), near (k 8)."""
    rnd = random.Random(f'growth {points} {kinds} {seed}')
    fleet = Fleet(rnd)
    out = [fleet.put(1 + r % 16, TOP * rnd.random(), TOP * rnd.random()) for r in range(points)]
    w = TOP * math.sqrt(16 / points)
    for r in range(ops):
        s, kind = 1 + r // len(kinds) % 16, kinds[r % len(kinds)]
        x, y = TOP * rnd.random(), TOP * rnd.random()
        i, _ = fleet.some(s)
        out.append({'move': lambda: fleet.move(s, i, x, y), 'where': lambda: f'{s},where,{i},,,,',
                    'box': lambda: box(s, x, y, w, w), 'near': lambda: near(s, x, y, 8)}[kind]())
    return with_moments(out, seed)


def edge_cases(seed=1):
    """Small inputs for the comparison with the plain list, by name."""
    rnd = random.Random(f'edge {seed}')

    def mixed(rows, ids, coord, ks):
        out = []
        for r in range(rows):
            s, i, m = 1 + r % 16, rnd.choice(ids), rnd.randrange(10)
            x, y = coord(), coord()
            if m < 3:
                out.append(put(s, i, x, y))
            elif m < 5:
                out.append(move(s, i, x, y))
            elif m == 5:
                out.append(f'{s},drop,{i},,,,')
            elif m == 6:
                out.append(f'{s},where,{i},,,,')
            elif m == 7:
                a, b = coord(), coord()
                out.append(f'{s},box,,{min(x, a)},{min(y, b)},{max(x, a)},{max(y, b)}')
            else:
                out.append(near(s, x, y, rnd.choice(ks)))
        return out

    ends = [0, 1, 2, 2**31 - 1, 2**31, 2**31 + 1, TOP - 1, TOP]
    big = [0, 1, 2**31, 2**32, 2**63 - 1, 2**63, 2**64 - 1] + [rnd.randrange(2**64) for _ in range(300)]
    crowd = [put(1 + i % 16, 5000 - i, 3000000000 + i % 64, 7 + i // 64) for i in range(2100)]
    crowd += [f'1,box,,0,0,{TOP},{TOP}', f'2,box,,3000000000,7,3000000063,38', f'3,box,,3000000000,7,3000000063,39',
              near(4, 3000000031, 23, 2048), near(5, 0, TOP, 2048), near(6, TOP, 0, 1), near(7, 3000000000, 7, 100)]
    crowd += [f'8,drop,{5000 - i},,,,' for i in range(60)] + [f'1,box,,0,0,{TOP},{TOP}', near(4, 3000000031, 23, 2048)]
    cases = {
        'ties': mixed(2500, list(range(200)), lambda: rnd.randrange(12), [1, 2, 5, 40, 300]),
        'ends': mixed(2500, big, lambda: rnd.choice(ends) if rnd.random() < .5 else rnd.randrange(2**32), [1, 3, 8, 2048]),
        'far': mixed(2500, big, lambda: rnd.randrange(2**32), [1, 3, 8, 30, 2048]),
        'crowd': crowd,
        'empty': ['1,box,,0,0,5,5', '1,near,,7,7,3,', '1,where,7,,,,', '1,drop,7,,,,', '1,move,7,1,1,,', '1,put,7,3,5,,',
                  '1,put,7,8,8,,', '1,move,7,8,8,,', '1,drop,7,,,,', '1,drop,7,,,,', '1,near,,7,7,3,', '1,box,,0,0,9,9'],
    }
    draw = {'ties': lambda: rnd.randrange(4), 'far': lambda: rnd.randrange(2**64),
            'ends': lambda: rnd.choice([0, 1, 2**31, 2**53, 2**53 + 1, 2**63 - 1, 2**63, 2**64 - 2, 2**64 - 1])}
    for name, rows in cases.items():
        if name in draw:
            cases[name] = [f'{r},{draw[name]() if r.split(",")[1] in ("put", "move") else ""}' for r in rows]
        else:
            cases[name] = with_moments(rows, seed)
    cases['late'] = ['1,put,7,3,5,,,10', '1,move,7,4,5,,,9', '1,where,7,,,,,', '1,box,,0,0,9,9,', '1,move,7,4,5,,,10', '1,near,,9,9,1,,',
                     '1,move,7,6,5,,,12', '1,put,7,1,1,,,99', '1,move,7,6,5,,,11', '1,move,8,1,1,,,0', '1,drop,7,,,,,', '1,move,7,1,1,,,99',
                     '1,put,7,2,2,,,0', '1,move,7,3,3,,,0', '1,box,,0,0,9,9,', '1,where,7,,,,,']
    return cases


def in_sessions(row, n):
    """The row as one of n sessions."""
    s, rest = row.split(',', 1)
    return f'{(int(s) - 1) % n + 1},{rest}'


def text(rows):
    return HEADER + '\n' + ''.join(r + '\n' for r in rows)


if __name__ == '__main__':
    if not 3 <= len(sys.argv) <= 4:
        sys.exit(__doc__)
    sys.stdout.write(text(profile(sys.argv[1], int(sys.argv[2]), int(sys.argv[3]) if len(sys.argv) > 3 else 1)))
