#!/usr/bin/env python3
"""Who crosses fences along a log, plainly: python3 fences.py MDLOC [LOGS [SEED]]

Makes logs of random rows and random fences, and compares what `watch` writes of them with what is found here: every record against
every fence, written after docs/FORMATS alone. Ends with 1 where they differ."""
import pathlib
import random
import struct
import subprocess
import sys
import tempfile

TOP = 2**32 - 1
EDGES = (0, 1, 99, 100, 101, 2**31 - 1, 2**31, TOP - 1, TOP)


def crossings(log, fences):
    """The text of `watch`. A fence is its id, and a box by two corners that are in it."""
    def has(fence, place):
        return place is not None and fence[1] <= place[0] <= fence[3] and fence[2] <= place[1] <= fence[4]

    places, lines, cell = {}, ['cell,event,id,fence'], 0
    while log[16 + 32 * cell] == 1:
        kind, ident, x, y = struct.unpack_from('>BQII', log, 17 + 32 * cell)
        if kind <= 3:
            before, after = places.get(ident), None if kind == 3 else (x, y)
            for fence in fences:
                if has(fence, before) != has(fence, after):
                    lines.append(f'{cell},{"enter" if has(fence, after) else "leave"},{ident},{fence[0]}')
            places[ident] = after
        cell += 1
    lines += [f'end,inside,{sum(has(fence, place) for place in places.values())},{fence[0]}' for fence in fences]
    return '\n'.join(lines) + '\n'


def row(dice):
    session, op, ident = dice.randint(1, 16), dice.choice(('put', 'put', 'move', 'move', 'move', 'drop')), dice.randrange(60)
    x, y = corner(dice)
    return f'{session},{op},{ident},,,,,' if op == 'drop' else f'{session},{op},{ident},{x},{y},,,0'


def corner(dice):
    return [dice.choice(EDGES) if dice.random() < 0.7 else dice.randrange(200) for _ in range(2)]


def fence(dice, ident):
    (x, a), (y, b) = (sorted(pair) for pair in zip(corner(dice), corner(dice)))
    return ident, x, y, a, b


def differs(program, folder, dice):
    """Makes a log and fences, and says where the program and this one differ, or nothing; and how many events there are."""
    log = folder / 'log'
    log.unlink(missing_ok=True)
    run = lambda words, lines: subprocess.run([program, *words], input='\n'.join(lines) + '\n', capture_output=True, text=True)
    run(['init', log] + dice.choice(([], ['--quad'])), [])
    run(['play', log, '--bucket', '4'], ['session,op,id,x,y,a,b,moment'] + [row(dice) for _ in range(dice.randrange(1500))])
    idents = dice.sample(range(2**64 - 300, 2**64) if dice.random() < 0.5 else range(300), dice.choice((0, 1, 2, 20, 256)))
    fences = [fence(dice, ident) for ident in idents]
    told = run(['watch', log], ['fence,x,y,a,b'] + [','.join(map(str, f)) for f in fences])
    want = crossings(log.read_bytes(), fences)
    return told.returncode != 0 or told.stdout != want, want.count('\n') - 1 - len(fences)


def main(program, logs='200', seed='1'):
    events = 0
    with tempfile.TemporaryDirectory() as folder:
        for number in range(int(logs)):
            wrong, count = differs(pathlib.Path(program).resolve(), pathlib.Path(folder), random.Random(f'{seed}/{number}'))
            if wrong:
                sys.exit(f'log {number} of seed {seed}: watch says something else')
            events += count
    print(f'{logs} logs, {events} events: all the same')


if __name__ == '__main__':
    main(*sys.argv[1:])
