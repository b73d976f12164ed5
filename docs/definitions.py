#!/usr/bin/env python3
"""definitions.py: prints docs/DEFINITIONS.md: what it has above its mark, and below it a table for each crate of crates.txt with
a row for each file of its specs/, made from the file's first comment. The gate compares."""
import pathlib

TOP = pathlib.Path(__file__).resolve().parent.parent
MARK = '<!-- What follows is made by docs/definitions.py from the first comment of each file of specs/. -->'
# A file with this name passes on words, and defines nothing.
PASSES_ON = ('Lib', 'Prelude')


def crates():
    """The names in crates.txt, lowest first."""
    lines = [line.partition('#')[0].split(':')[0].split() for line in open(TOP / 'crates.txt')]
    return [line[0] for line in lines if line]


def first_comment(path):
    """The comment that a file begins with, as one line."""
    lines = []
    for line in open(path, encoding='utf-8'):
        if not line.startswith('-- ') or line.startswith('-- ----'):
            break
        lines.append(line[3:].strip())
    return ' '.join(lines)


def section(crate):
    """The heading and the table of a crate, or nothing where it has no definitions."""
    files = [it for it in sorted((TOP / 'crates' / crate / 'specs').glob('*.antt')) if it.stem not in PASSES_ON]
    if not files:
        return []
    rows = [f'| `{it.stem}` | {first_comment(it)} |' for it in files]
    return ['', f'## {crate}', '', '| File | What it defines |', '|---|---|', *rows]


above = open(TOP / 'docs' / 'DEFINITIONS.md', encoding='utf-8').read().partition(MARK)[0]
print(above + MARK)
for name in crates():
    print('\n'.join(section(name)), end='\n' if section(name) else '')
