#!/usr/bin/env python3
"""A reader of value change dumps that isn't regrun's own.

    waves.py check VCD LOG     holds the APB transfers in the dump against the item lines of the log, in order: map, address,
                               direction, data, strobes, error and operation; and the dump against the rules of its format
    waves.py cycles VCD        prints the pins of each cycle in which PSEL is high, as the rising edge samples them

Pins have the names of ARM IHI 0024, in any case. A rising edge of PCLK samples what stands right before it.
"""
import re
import sys

PINS = ['PSEL', 'PENABLE', 'PADDR', 'PWRITE', 'PWDATA', 'PSTRB', 'PREADY', 'PRDATA', 'PSLVERR']
ROOM = 127


class Wrong(Exception):
    pass


def read(path):
    """The signals by identifier, as (scope, name, width); and the changes as (time, identifier, digits)."""
    with open(path, encoding='ascii') as file:
        words = iter(file.read().split())
    signals, scopes, changes, time = {}, [], [], None
    for word in words:
        if word in ('$comment', '$date', '$version', '$timescale', '$scope', '$upscope', '$var', '$enddefinitions'):
            body = []
            for part in words:
                if part == '$end':
                    break
                body.append(part)
            if word == '$scope':
                scopes.append(body[1])
            elif word == '$upscope':
                scopes.pop()
            elif word == '$var':
                signals.setdefault(body[2], (scopes[-1], body[3].upper(), int(body[1])))
        elif word.startswith('$'):
            continue
        elif word.startswith('#'):
            later = int(word[1:])
            if time is not None and later <= time:
                raise Wrong(f'time {later} comes behind {time}')
            time = later
        elif word[0] in 'bB':
            changes.append((time, next(words), word[1:]))
        elif word[0] in '01xXzZ':
            changes.append((time, word[1:], word[0]))
        else:
            raise Wrong(f'`{word}` is no value change')
    for _, name, digits in changes:
        if name not in signals:
            raise Wrong(f'`{name}` is not declared')
        if len(digits) > signals[name][2]:
            raise Wrong(f'{signals[name][1]} has more than {signals[name][2]} digits')
    return signals, changes


def number(digits):
    return int(digits, 2) if set(digits) <= set('01') else None


def edges(signals, changes):
    """The values by identifier right before each rising edge of PCLK, at a time behind 0."""
    clock = next(key for key, (_, name, _) in signals.items() if name == 'PCLK')
    values, at = {}, 0
    while at < len(changes):
        end = at
        while end < len(changes) and changes[end][0] == changes[at][0]:
            end += 1
        now = {key: number(digits) for _, key, digits in changes[at:end]}
        if values.get(clock) == 0 and now.get(clock) == 1:
            yield dict(values)
        values.update(now)
        at = end
    yield values


def buses(signals):
    """The identifiers of the pins of each scope that has them."""
    found = {}
    for key, (scope, name, _) in signals.items():
        if name in PINS:
            found.setdefault(scope, {})[name] = key
    return {scope: pins for scope, pins in found.items() if 'PSEL' in pins}


def only_changes(changes):
    """Nothing is written again that didn't change."""
    last = {}
    for time, key, digits in changes:
        value = number(digits)
        if time and last.get(key) == value:
            raise Wrong(f'`{key}` is written at {time}, and has not changed')
        last[key] = value


def transfers(signals, changes):
    """Each transfer as (scope, address, write, data, strobes, error, operation), in order of its last cycle."""
    label = next((key for key, (_, name, _) in signals.items() if name == 'OP'), None)
    setup = {}
    for values in edges(signals, changes):
        for scope, keys in buses(signals).items():
            pins = {name: values.get(key) for name, key in keys.items()}
            asked = tuple(pins[name] for name in ('PADDR', 'PWRITE', 'PWDATA', 'PSTRB'))
            if not pins['PSEL']:
                if pins['PENABLE'] or setup.get(scope) is not None:
                    raise Wrong(f'{scope}: PSEL is low in a transfer')
                continue
            if not pins['PENABLE']:
                if setup.get(scope) is not None:
                    raise Wrong(f'{scope}: two setup phases')
                if pins['PRDATA'] or pins['PSLVERR'] or pins['PREADY']:
                    raise Wrong(f'{scope}: an answer in the setup phase')
                setup[scope] = asked
                continue
            if setup.get(scope) != asked:
                raise Wrong(f'{scope}: an access phase without its setup phase')
            if pins['PREADY']:
                address, write, data, strobes = asked
                text = values.get(label) or 0
                text = text.to_bytes((text.bit_length() + 7) // 8, 'big').decode('ascii')
                yield scope, address, write, data if write else pins['PRDATA'], strobes, pins['PSLVERR'], text
                setup[scope] = None


def items(log, scopes):
    """The same of the item lines of a log whose map is one of the scopes."""
    line_of = re.compile(r'  (\S+) ([rw]) 0x([0-9a-f]+) 0x([0-9a-f]+) ([01]+) #[0-9]+ (ok|error)$')
    operation = ''
    with open(log, encoding='ascii') as file:
        for line in file:
            line = line.rstrip('\n')
            item = line_of.match(line)
            if item is None:
                operation = line
            elif item[1] in scopes:
                write = int(item[2] == 'w')
                strobes = int(item[5], 2) if write else 0
                yield (item[1], int(item[3], 16), write, int(item[4], 16), strobes, int(item[6] == 'error'),
                       operation[:ROOM])


def check(vcd, log):
    signals, changes = read(vcd)
    only_changes(changes)
    found = list(transfers(signals, changes))
    wanted = list(items(log, buses(signals)))
    for k, (have, want) in enumerate(zip(found, wanted)):
        if have != want:
            raise Wrong(f'transfer {k}: {have}, and the log has {want}')
    if len(found) != len(wanted):
        raise Wrong(f'{len(found)} transfers, and the log has {len(wanted)} items')
    print(f'{len(buses(signals))} {len(found)}')


def cycles(vcd):
    signals, changes = read(vcd)
    keys = next(iter(buses(signals).values()))
    for values in edges(signals, changes):
        pins = {name: values.get(key) for name, key in keys.items()}
        if pins['PSEL']:
            shown = PINS[:6] + (PINS[6:] if pins['PENABLE'] and pins['PREADY'] else [])
            if pins['PWRITE']:
                shown = [name for name in shown if name != 'PRDATA']
            print(' '.join(f'{name} {pins[name]:x}' for name in shown))


def main():
    try:
        if sys.argv[1:2] == ['check'] and len(sys.argv) == 4:
            check(*sys.argv[2:])
        elif sys.argv[1:2] == ['cycles'] and len(sys.argv) == 3:
            cycles(sys.argv[2])
        else:
            sys.exit(__doc__)
    except Wrong as wrong:
        sys.exit(f'{sys.argv[2]}: {wrong}')


if __name__ == '__main__':
    main()
