#!/usr/bin/env python3
"""detection.py < DETECTION.md: draws the first table of each sequence as an SVG, on standard output: a row for each policy,
and by sequence a cell for each kind of flaw: found always, sometimes, or never. Of other policies a cell is as full as the
share of the 24 that are found always."""
import re
import sys

POLICIES = ('RO RW RC RS WRC WRS WC WS WSRC WCRS W1C W1S W1T W0C W0S W0T '
            'W1SRC W1CRS W0SRC W0CRS WO WOC WOS W1 WO1').split()
SEQUENCES = ('hw-reset', 'bit-bash', 'access', 'shared')
COLUMNS = ('stuck at 0', 'stuck at 1', 'wrong reset', 'other policy', 'deaf', 'address', 'item')
COLOURS = {'always': '#1b7837', 'sometimes': '#f2c14e', 'never': '#e6e6e6'}

LEFT, TOP, CELL, GAP = 64, 96, 18, 14
WIDTH = LEFT + len(SEQUENCES) * (len(COLUMNS) * CELL + GAP) + 10
HEIGHT = TOP + len(POLICIES) * CELL + 40


def first_table(text, sequence):
    """The cells of a sequence's first table, by policy."""
    part = text.split(f'\n### {sequence}\n')[1]
    rows = re.match(r'\s*((?:\|.*\n)+)', part)[1].splitlines()[2:]
    found = {}
    for row in rows:
        policies, *cells = [cell.strip() for cell in row.strip('|').split('|')]
        found.update(dict.fromkeys(policies.split(), cells))
    return found


def share_of(cell):
    """How full a cell is, and its colour."""
    if re.fullmatch(r'\d+/\d+/\d+', cell):
        return int(cell.split('/')[0]) / 24, COLOURS['always']
    if cell == 'no item':
        return 0, COLOURS['never']
    return 1, COLOURS[cell if cell in COLOURS else 'sometimes']


def draw_cell(x, y, cell):
    share, colour = share_of(cell)
    side = CELL - 2
    yield f'<rect x="{x}" y="{y}" width="{side}" height="{side}" fill="{COLOURS["never"]}"/>'
    high = round(side * share, 1)
    if high:
        yield f'<rect x="{x}" y="{round(y + side - high, 1)}" width="{side}" height="{high}" fill="{colour}"/>'
    if cell == 'no item':
        yield f'<path d="M{x + 5} {y + side / 2}h{side - 10}" stroke="#888"/>'


def draw_sequence(text, sequence, left):
    wide = len(COLUMNS) * CELL
    yield f'<text x="{left + wide / 2}" y="16" text-anchor="middle" font-weight="bold">{sequence}</text>'
    for at, column in enumerate(COLUMNS):
        x = left + at * CELL + 12
        yield f'<text x="{x}" y="{TOP - 6}" transform="rotate(-60 {x} {TOP - 6})">{column}</text>'
    for row, policy in enumerate(POLICIES):
        for at, cell in enumerate(first_table(text, sequence)[policy]):
            yield from draw_cell(left + at * CELL, TOP + row * CELL, cell)


def draw_legend(y):
    x = LEFT
    for word, colour in COLOURS.items():
        yield f'<rect x="{x}" y="{y}" width="12" height="12" fill="{colour}"/>'
        yield f'<text x="{x + 17}" y="{y + 10}">{word}</text>'
        x += 90
    yield f'<text x="{x}" y="{y + 10}">other policy: the share of 24 that is found always</text>'


def draw(text):
    yield (f'<svg xmlns="http://www.w3.org/2000/svg" viewBox="0 0 {WIDTH} {HEIGHT}" width="{WIDTH}" height="{HEIGHT}" '
           'font-family="sans-serif" font-size="11">')
    yield '<title>Which flaws each sequence finds, by access policy</title>'
    yield f'<rect width="{WIDTH}" height="{HEIGHT}" fill="#fff"/>'
    for row, policy in enumerate(POLICIES):
        yield f'<text x="{LEFT - 8}" y="{TOP + row * CELL + 12}" text-anchor="end">{policy}</text>'
    for at, sequence in enumerate(SEQUENCES):
        yield from draw_sequence(text, sequence, LEFT + at * (len(COLUMNS) * CELL + GAP))
    yield from draw_legend(HEIGHT - 28)
    yield '</svg>'


if __name__ == '__main__':
    print('\n'.join(draw(sys.stdin.read())))
