#!/usr/bin/env python3
"""where.py: checks the tables of "Where to find what" and "Where to add what" in docs/ARCHITECTURE.md: each file that they name
exists, and each file that lists all policies, flaws, commands, sequences or keys, or sets a limit, is named in the table of its
kind. The last line has the counts."""
import pathlib
import re
import subprocess
import sys

TOP = pathlib.Path(__file__).resolve().parent.parent
# A file that has all words of a row, whatever their case and without - and _, lists all of the kind. Each word is a pattern.
LISTS = {
    'A field access policy': ['w1src w0crs wsrc wos wo1'],
    'A kind of flaw': ['errornth errorrange deaf stuck (other)?reset (other)?policy'],
    # all, those over the bus, and those that need no bus
    'A command of the script': ['mempeek backcheck otherread', 'otherread fieldread memcheck', 'mempeek backcheck hw poke'],
    'A sequence': ['hwreset bitbash access(test)? shared(access)? memwalk'],
    'A key of the description': ['volatile alone adapter predict rights skip'],
    'A limit': ['const.most(lines|scopes|maps|flaws)'],
}
# Examples and tests show what there is; the others are made from lists, or say which of a standard's things there are.
APART = re.compile(
    r'examples/|python/tests/|crates/test_rows/|CHANGELOG'
    r'|docs/(index\.html|PROFILE\.md|ARCHITECTURE\.md|DEFINITIONS\.md|where\.py)'
)


def tables():
    """The rows of the tables below each heading: pairs of a crate or folder and a file."""
    found, heading, crate = {}, '', ''
    text = open(TOP / 'docs' / 'ARCHITECTURE.md', encoding='utf-8').read().partition('## Where to find what')
    for line in ''.join(text[1:]).splitlines():
        if line.startswith(('## ', '### ')):
            heading = line.lstrip('# ')
        cells = [it.strip() for it in line.strip('|').split('|')] if line.startswith('| ') else []
        if len(cells) == 3 and heading and cells[0] != '---':
            crate = (re.findall(r'`([^`]*)`', cells[0]) or [crate])[0] if cells[0] else crate
            found.setdefault(heading, []).extend((crate, it) for it in re.findall(r'`([^`]*)`', cells[1]))
    return found


def path_of(crate, name):
    """Where a file of a row is: below the crate, below the folder, or as it is written."""
    for place in (TOP / 'crates' / crate / name, TOP / crate / name, TOP / name):
        if place.is_file():
            return place
    return None


def texts():
    """The files of the repository that may list a kind, each with its text."""
    names = subprocess.run(['git', 'ls-files'], cwd=TOP, capture_output=True, text=True, check=True).stdout.split('\n')
    for name in names:
        if name and not APART.match(name) and (TOP / name).is_file():
            yield TOP / name, (TOP / name).read_bytes().decode('utf-8', 'replace').lower().replace('-', '').replace('_', '')


def lists_all(text, words):
    """Whether a text has all of these words."""
    return all(re.search(rf'(?<![a-z0-9])({word})(?![a-z0-9])', text) for word in words.split())


def main():
    passed, wrong = 0, []
    named = {}
    for heading, rows in tables().items():
        for crate, name in rows:
            place = path_of(crate, name)
            if place is None:
                wrong.append(f'{heading}: {crate}: no file {name}')
            else:
                passed += 1
                named.setdefault(heading, set()).add(place)
    for place, text in texts():
        for heading, kinds in LISTS.items():
            if any(lists_all(text, words) for words in kinds):
                if place in named.get(heading, ()):
                    passed += 1
                else:
                    wrong.append(f'{heading}: {place.relative_to(TOP)} lists them all, and no row names it')
    print(*wrong, sep='\n', end='\n' if wrong else '')
    print(f'{passed} passed, {len(wrong)} failed')
    return 1 if wrong else 0


sys.exit(main())
