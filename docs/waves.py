#!/usr/bin/env python3
"""waves.py VCD FROM TO: draws the signals of a dump from one time to another as an SVG, on standard output."""
import os
import sys

sys.path.insert(0, os.path.join(os.path.dirname(os.path.abspath(__file__)), '..', 'rows'))
from waves import number, read  # noqa: E402

LEFT, WIDE, ROW, HIGH = 84, 9, 26, 14


def text_of(name, value):
    if name == 'OP':
        return value.to_bytes((value.bit_length() + 7) // 8, 'big').decode('ascii').split(':')[0]
    return f'{value:x}'


def stretches(changes, key, first, last):
    """The values of a signal as (from, to, value), within the times."""
    found, since, value = [], first, 0
    for time, which, digits in changes:
        if which != key or number(digits) == value:
            continue
        if first < time < last:
            found.append((since, time, value))
            since = time
        if time < last:
            value = number(digits)
    return found + [(since, last, value)]


def draw_bit(parts, y, x):
    path = []
    for since, until, value in parts:
        level = y + (0 if value else HIGH)
        path.append(f'{"L" if path else "M"}{x(since)} {level}H{x(until)}')
    return f'<path d="{"".join(path)}"/>'


def draw_word(name, parts, y, x):
    drawn = []
    for since, until, value in parts:
        a, b, end = x(since), x(until), y + HIGH
        drawn.append(f'<path d="M{a} {y + HIGH // 2}L{a + 3} {y}H{b - 3}L{b} {y + HIGH // 2}L{b - 3} {end}H{a + 3}Z"/>')
        text = text_of(name, value) if value else ''
        if text and 9 + 7 * len(text) <= b - a:
            drawn.append(f'<text x="{a + 6}" y="{y + 11}">{text}</text>')
    return '\n'.join(drawn)


def main():
    signals, changes = read(sys.argv[1])
    first, last = int(sys.argv[2]), int(sys.argv[3])

    def x(time):
        return LEFT + (time - first) * WIDE

    print(f'<svg xmlns="http://www.w3.org/2000/svg" width="{x(last) + 8}" height="{len(signals) * ROW + 8}" '
          'font-family="monospace" font-size="11" stroke="none" fill="#222">')
    print('<rect width="100%" height="100%" fill="#fff"/>')
    for k, (key, (_, name, width)) in enumerate(signals.items()):
        y = 8 + k * ROW
        parts = stretches(changes, key, first, last)
        drawn = draw_bit(parts, y, x) if width == 1 else draw_word(name, parts, y, x)
        print(f'<text x="6" y="{y + 11}">{name.lower() if name == "OP" else name}</text>')
        print(drawn.replace('<path', '<path fill="none" stroke="#26a"'))
    print('</svg>')


if __name__ == '__main__':
    main()
