#!/usr/bin/env python3
"""Draws the map of docs/ARCHITECTURE.md: every crate of crates.txt with the first sentence of its head.

Usage: tools/map.py            writes the map into the page
       tools/map.py --check    says whether the page has it, and whether the pages know each crate and each floor; changes
                               nothing

A floor is a section of crates.txt, the highest first, and each crate is drawn on its own. A room stands under the door
that its name begins with, where both are on one floor. A base, marked by a star, is a room that a crate of another
family names. Nothing is drawn where a crate stands on one of a higher floor. PROOFS has each crate somewhere, and its
part 'Crate by crate' names no other in the first column. The table of owners in CONTRIBUTING has just the floors.
"""
import os
import re
import sys
import textwrap

from lam_source import last_catch

HERE = os.path.dirname(os.path.dirname(os.path.abspath(__file__)))
PAGE = os.path.join(HERE, 'docs', 'ARCHITECTURE.md')
PROGRAM = 'lam'
WIDTH = 118
COLUMN = 30


def read(*path):
    with open(os.path.join(HERE, *path), encoding='utf-8') as file:
        return file.read()


def sections():
    """The floors, lowest first: a heading, and the names of its crates in their order."""
    found = []
    for line in read('crates.txt').split('\n')[1:]:
        if line.startswith('#'):
            found.append((line[1:].strip().rstrip('.'), []))
        elif ':' in line:
            found[-1][1].append(line.split(':')[0].split()[0])
    return found


def first_sentence(crate):
    """What the head of a crate begins with."""
    root = 'lib.rt' if os.path.exists(os.path.join(HERE, 'crates', crate, 'src', 'lib.rt')) else 'main.rt'
    head = []
    for line in read('crates', crate, 'src', root).split('\n'):
        if not line.startswith('//!') or line.strip() == '//!':
            break
        head.append(line[3:].strip())
    sentence = re.split(r'(?<=\.) ', ' '.join(head), maxsplit=1)[0].rstrip('.')
    return re.sub(r'[\[\]]', '', sentence[:1].lower() + sentence[1:])


def door_of(crate, crates):
    """The crate whose name a room's name begins with, the longest of them."""
    doors = [door for door in crates if door != PROGRAM and crate.startswith(door + '_')]
    return max(doors, key=len) if doors else None


def family_of(crate, crates):
    """The outermost door of a crate."""
    door = door_of(crate, crates)
    return family_of(door, crates) if door else crate


def edges(crates):
    """For each crate those that it lists or names: in crates.txt, in its code, its definitions and its proofs."""
    found = {}
    for line in read('crates.txt').split('\n'):
        if ':' in line and not line.startswith('#'):
            name, listed = line.split(':', 1)
            found[name.split()[0]] = set(listed.split())
    for crate in crates:
        for part in ('src', 'specs', 'proofs'):
            for folder, _, names in os.walk(os.path.join(HERE, 'crates', crate, part)):
                for name in names:
                    text = read(folder, name)
                    found[crate].update(re.findall(r'\bRattle\.(\w+)\.', text))
                    found[crate].update(re.findall(r'\b([a-z_]+)::', text))
        found[crate] = (found[crate] & set(crates)) - {crate}
    return found


def rows(crate, names, doors, bases, depth):
    """The line of a crate, and those of its rooms on the same floor."""
    name = ('  ' * depth) + ('* ' if crate in bases else '└ ' if depth else '') + crate
    lead = name.ljust(COLUMN) + ('' if len(name) < COLUMN else ' ')
    body = textwrap.wrap(first_sentence(crate), WIDTH - max(len(lead), COLUMN)) or ['']
    yield lead + body[0]
    for more in body[1:]:
        yield ' ' * len(lead) + more
    for room in reversed([it for it in names if doors[it] == crate]):
        yield from rows(room, names, doors, bases, depth + 1)


def drawn(floors, crates, named):
    doors = {crate: door_of(crate, crates) for crate in crates}
    bases = {base for crate in crates for base in named[crate] if doors[base] and family_of(base, crates) != family_of(crate, crates)}
    out = []
    for heading, names in reversed(floors):
        lines = [line for crate in reversed(names) if doors[crate] not in names for line in rows(crate, names, doors, bases, 0)]
        if lines:
            out += ['', f'---- {heading}'] + lines
    return '\n'.join(out[1:])


def floor_faults(floors, named):
    """Crates that stand on one of a higher floor, and floors that the table of owners leaves out or has no more."""
    floor = {crate: number for number, (_, names) in enumerate(floors) for crate in names}
    for crate, below in named.items():
        for it in sorted(below):
            if floor[it] > floor[crate]:
                yield f'{crate} stands on {it}, which is on a higher floor of crates.txt'
    table = read('CONTRIBUTING.md').split('## Who owns what\n', 1)[1].split('\n## ', 1)[0]
    owned = [row.split('|')[1].strip() for row in table.split('\n') if row.startswith('| ') and not row.startswith('| floor')]
    headings = [heading for heading, names in floors if names]
    for heading in headings:
        if heading not in owned:
            yield f'CONTRIBUTING.md has no owner of the floor {heading}'
    for row in owned:
        if row not in headings and not row.startswith('`'):
            yield f'CONTRIBUTING.md has an owner of {row}, and crates.txt has no such floor'


def crate_faults():
    """What docs/PROOFS.md has of crates that is not so: those that it leaves out, and rows of those that are gone."""
    page = read('docs', 'PROOFS.md')
    crates = {crate for _, names in sections() for crate in names}
    rows_of_crates = re.findall(r'^\| (`[^|]*) \|', page.split('## Crate by crate\n', 1)[1], re.MULTILINE)
    named = set(re.findall(r'`([a-z_]+)`', ' '.join(rows_of_crates)))
    for crate in sorted(crates - set(re.findall(r'`([a-z_]+)`', page))):
        yield f'docs/PROOFS.md does not name the crate {crate}'
    for crate in sorted(named - crates):
        yield f'docs/PROOFS.md has a row of {crate}, and crates.txt has no such crate'


def main():
    page = read('docs', 'ARCHITECTURE.md')
    before, rest = page.split('## The map\n', 1)
    top, _, after = rest.split('```', 2)
    floors = sections()
    crates = [crate for _, names in floors for crate in names]
    named = edges(crates)
    new = f'{before}## The map\n{top}```\n{drawn(floors, crates, named)}\n```{after}'
    if sys.argv[1:] == ['--check']:
        faults = [*floor_faults(floors, named), *crate_faults()]
        if new != page:
            faults.insert(0, 'docs/ARCHITECTURE.md has another map: run tools/map.py')
        if faults:
            sys.exit('\n'.join(faults))
        print('same     the map of docs/ARCHITECTURE.md, the floors of CONTRIBUTING.md, and the crates of docs/PROOFS.md')
    elif len(sys.argv) > 1:
        sys.exit(__doc__)
    else:
        with open(PAGE, 'w', encoding='utf-8') as file:
            file.write(new)


if __name__ == '__main__':
    last_catch.run(main)
