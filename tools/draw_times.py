#!/usr/bin/env python3
"""Draws the table of times in docs/PERFORMANCE.md: for each profile the time of a run against its rows, both on logarithmic scales.

    tools/draw_times.py [PAGE [PICTURE]]    by default docs/PERFORMANCE.md and docs/times.svg

The table is the first of the page whose head begins `| Profile, ` and names the numbers of rows, as `4,000 / 16,000 rows`. Its other
columns are programs. A cell has the milliseconds for each number of rows, as `4.2 / 15.8`.
"""
import math
import pathlib
import re
import sys

DOCS = pathlib.Path(__file__).resolve().parent.parent / 'docs'
COLOURS = {'this, one session': '#b3123c', 'C++ trie': '#222222', 'grid': '#888888', 'R*-tree': '#2a6fb0', 'nanoflann': '#5a9a3c',
           'libspatialindex': '#7a4fa3', 'SQLite': '#b8860b', 'Redis': '#d2691e'}
TITLE = 'Time of a run against its rows'
ABOUT = 'For each profile the processor time of a run in milliseconds against its rows, for this program and seven others; both axes are logarithmic.'
WIDTH, HEIGHT, LEFT, TOP, ACROSS, DOWN, COLUMNS = 190, 150, 74, 84, 250, 232, 4


def table(page):
    """The names of the programs, and for each profile its rows with the milliseconds of each program."""
    lines = page.read_text().splitlines()
    start = next(i for i, line in enumerate(lines) if line.startswith('| Profile, '))
    cells = lambda line: [cell.strip() for cell in line.strip().strip('|').split('|')]
    times = lambda cell: [float(t.replace(',', '')) if t.strip() else None for t in cell.split('/')]
    head, *programs = cells(lines[start])
    sizes = [int(rows.replace(',', '')) for rows in re.findall(r'\d[\d,]*', head)]
    profiles = {}
    for line in lines[start + 2:]:
        if not line.startswith('|'):
            break
        profile, *entries = cells(line)
        profiles[profile] = list(zip(sizes, zip(*map(times, entries))))
    return programs, profiles


class Scale:
    """A logarithmic scale from one number to another, over so many units of the picture."""

    def __init__(self, low, high, length):
        self.low, self.high, self.length = low, high, length

    def at(self, value):
        return self.length * math.log(value / self.low) / math.log(self.high / self.low)


def text(x, y, words, anchor='middle', size=11, colour='#222222'):
    words = words.replace('&', '&amp;').replace('<', '&lt;')
    return f'<text x="{x:.1f}" y="{y:.1f}" text-anchor="{anchor}" font-size="{size}" fill="{colour}">{words}</text>'


def line(x1, y1, x2, y2, colour='#dddddd'):
    return f'<line x1="{x1:.1f}" y1="{y1:.1f}" x2="{x2:.1f}" y2="{y2:.1f}" stroke="{colour}"/>'


def heading(wide, high, title, about):
    """The beginning of a picture: what it shows, for who reads it and for who sees it."""
    yield f'<svg xmlns="http://www.w3.org/2000/svg" viewBox="0 0 {wide} {high}" font-family="sans-serif" role="img">'
    yield f'<title>{title}</title>'
    yield f'<desc>{about}</desc>'
    yield f'<rect width="{wide}" height="{high}" fill="white"/>'
    yield text(wide / 2, 20, title, size=14)


def upwards(x, y, words):
    """The name of an axis that goes up."""
    return f'<text transform="translate({x:.1f} {y:.1f}) rotate(-90)" text-anchor="middle" font-size="10" fill="#222222">{words}</text>'


def panel(profile, points, programs, across, up, left, top):
    """One profile's lines, with their axes."""
    bottom = top + up.length
    yield text(left + across.length / 2, top - 8, profile, size=12)
    yield text(left + across.length / 2, bottom + 27, 'rows', size=10)
    yield upwards(left - 45, top + up.length / 2, 'processor time, ms')
    power = math.ceil(math.log10(up.low))
    while 10 ** power <= up.high:
        y = bottom - up.at(10 ** power)
        yield line(left, y, left + across.length, y)
        yield text(left - 5, y + 4, f'{10 ** power:,}', 'end', 9)
        power += 1
    for rows, _ in points:
        x = left + across.at(rows)
        yield line(x, top, x, bottom)
        yield text(x, bottom + 13, f'{rows:,}', size=9)
    for i, program in enumerate(programs):
        places = [(left + across.at(rows), bottom - up.at(times[i])) for rows, times in points if times[i]]
        path = ' '.join(f'{x:.1f},{y:.1f}' for x, y in places)
        bold = 2.4 if program.startswith('this') else 1.5
        yield f'<polyline points="{path}" fill="none" stroke="{COLOURS[program]}" stroke-width="{bold}"/>'
        for x, y in places:
            yield f'<circle cx="{x:.1f}" cy="{y:.1f}" r="2.4" fill="{COLOURS[program]}"/>'


def legend(programs):
    x = LEFT
    for program in programs:
        yield f'<line x1="{x}" y1="44" x2="{x + 22}" y2="44" stroke="{COLOURS[program]}" stroke-width="3"/>'
        yield text(x + 28, 48, program, 'start', 12)
        x += 60 + 7 * len(program)


def picture(programs, profiles):
    times = [t for points in profiles.values() for _, row in points for t in row if t]
    sizes = [rows for points in profiles.values() for rows, _ in points]
    across, up = Scale(min(sizes) / 1.3, max(sizes) * 1.3, WIDTH), Scale(min(times) / 1.4, max(times) * 1.4, HEIGHT)
    lines = -(-len(profiles) // COLUMNS)
    yield from heading(LEFT + ACROSS * min(COLUMNS, len(profiles)), TOP + DOWN * lines, TITLE, ABOUT)
    yield from legend(programs)
    for i, (profile, points) in enumerate(profiles.items()):
        yield from panel(profile, points, programs, across, up, LEFT + ACROSS * (i % COLUMNS), TOP + DOWN * (i // COLUMNS))
    yield '</svg>'


def main(page=DOCS / 'PERFORMANCE.md', to=DOCS / 'times.svg'):
    pathlib.Path(to).write_text('\n'.join(picture(*table(pathlib.Path(page)))) + '\n')


if __name__ == '__main__':
    main(*sys.argv[1:])
