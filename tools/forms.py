#!/usr/bin/env python3
"""Prints every file that names a form: the places to look at before another of its kind is added.

Usage: tools/forms.py NAME [NAME..]

The files of crates/, docs/, tools/ and examples/ come by floor and crate, each with the number of its lines that name the
form. NAME is a form as the code has it: an ask or a built-in call (`FileLength`), a statement (`SyncStmt`), a member of a
world document (`pipes`), a limit (`TURN_LIMIT most_turns`), a command (`walk`). It is found as a whole word, in the forms
FileLength and file_length. A proof names a form where it has a case for it. Take a form with a rare name as the sample:
docs/ARCHITECTURE.md, 'How to add', says which.
"""
import os
import re
import subprocess
import sys

from lam_source import last_catch
from trial import home

HERE = home(__file__)
ROOTS = ('crates', 'docs', 'tools', 'examples')
ENDS = ('.rt', '.antt', '.md', '.py')


def forms(name):
    """A name as it is, in CamelCase and in snake_case."""
    camel = ''.join(part[:1].upper() + part[1:] for part in name.split('_'))
    snake = re.sub(r'(?<=[a-z0-9])(?=[A-Z])', '_', name).lower()
    return {name, camel, snake} if name not in (name.upper(),) else {name}


def listed():
    """The files of the repository that can name a form."""
    out = subprocess.run(['git', 'ls-files', *ROOTS], cwd=HERE, capture_output=True, text=True, check=True).stdout
    return [path for path in out.split('\n') if path.endswith(ENDS)]


def floors():
    """Each crate's place in crates.txt."""
    with open(os.path.join(HERE, 'crates.txt'), encoding='utf-8') as file:
        names = [line.split(':')[0].split()[0] for line in file if ':' in line and not line.startswith('#')]
    return {name: at for at, name in enumerate(names)}


def naming(names):
    """path -> how many lines name one of these forms."""
    words = re.compile(r'(?<![\w])(' + '|'.join(sorted(re.escape(f) for name in names for f in forms(name))) + r')(?![\w])')
    found = {}
    for path in listed():
        try:
            with open(os.path.join(HERE, path), encoding='utf-8') as file:
                count = sum(bool(words.search(line)) for line in file)
        except (OSError, UnicodeDecodeError):
            continue
        if count:
            found[path] = count
    return found


def place(path, order):
    parts = path.split('/')
    return (ROOTS.index(parts[0]), order.get(parts[1], len(order)) if parts[0] == 'crates' else 0, path)


def main(words):
    if not words or words[0].startswith('-'):
        sys.exit(__doc__)
    order, found = floors(), naming(words)
    for path in sorted(found, key=lambda path: place(path, order)):
        print(f'{found[path]:4} {path}')


if __name__ == '__main__':
    last_catch.run(lambda: main(sys.argv[1:]))
