#!/usr/bin/env python3
"""Tries the edits that stand outside the gate.

Usage: tools/edits.py [--read] [CRATE ..]

An edit turns the meaning of a function, and the proofs have to refuse it. The gate tries those in `crates/NAME/must-fail/`;
this tries those in `crates/NAME/edits/`, of the crates named or of all that have some. It copies the crates as they stand
here, changes that are not committed among them, to a temporary folder, puts a crate's edits into `must-fail/` there, and
runs `rt must-fail NAME`, crate by crate. What `rt check` kept here is used again where the kit shares it; of a crate that
was not checked since it changed, `rt check` first is quicker.

For each crate it says how many of its edits were refused and how many processor seconds that took, and it prints a line
for each edit that was not refused, is bad, or was not tried. Status 0: all were refused. 1: some were not. 2: a crate that
was named has no edits.

--read proves nothing: it says at once which edits no longer fit the text that they change.
"""
import os
import re
import resource
import shutil
import subprocess
import sys
import tempfile

from lam_source import last_catch

HERE = os.path.dirname(os.path.dirname(os.path.abspath(__file__)))
REFUSED = ': refused, as it must be'


def edits_of(crate):
    folder = os.path.join(HERE, 'crates', crate, 'edits')
    return sorted(os.listdir(folder)) if os.path.isdir(folder) else []


def unfit(crate, edit):
    """Why the edit can't be applied to the crate's files, or None: each `old:` text stands in its file once."""
    path, old, texts = '', None, {}
    with open(os.path.join(HERE, 'crates', crate, 'edits', edit), encoding='utf-8') as lines:
        for line in lines.read().split('\n'):
            word, _, rest = line.partition(': ')
            if word == 'file':
                path = os.path.join(HERE, 'crates', crate, rest.strip())
                if not os.path.isfile(path):
                    return f'there is no file {rest.strip()}'
            elif word == 'old':
                old = rest
            elif line.startswith('new:'):
                if path not in texts:
                    with open(path, encoding='utf-8') as file:
                        texts[path] = file.read()
                if texts[path].count(old) != 1:
                    return f"an 'old:' text stands there {texts[path].count(old)} times: {old.strip()}"
                texts[path] = texts[path].replace(old, rest)
    return None


def read_all(crates):
    found = [(crate, edit, unfit(crate, edit)) for crate in crates for edit in edits_of(crate)]
    for crate, edit, why in found:
        if why:
            print(f'{crate}/edits/{edit}: {why}')
    bad = sum(why is not None for _, _, why in found)
    print(f'{len(found)} edits, {bad} that do not fit')
    return 1 if bad else 0


def in_order():
    """The crates of crates.txt, lowest first."""
    with open(os.path.join(HERE, 'crates.txt'), encoding='utf-8') as lines:
        found = [line.partition('#')[0].partition(':') for line in lines]
    return [name.split()[0] for name, colon, _ in found if colon]


def copy_crates(room):
    """Copies what `rt` reads of the crates, without what it made and without the edits that the gate tries."""
    shutil.copytree(os.path.join(HERE, 'crates'), os.path.join(room, 'crates'),
                    ignore=shutil.ignore_patterns('out', 'must-fail', 'edits'))
    for name in ('crates.txt', 'HANDLES'):
        shutil.copy(os.path.join(HERE, name), room)


def seconds():
    used = resource.getrusage(resource.RUSAGE_CHILDREN)
    return used.ru_utime + used.ru_stime


def tried(crate, room):
    """Tries the crate's edits in the copy. Says what they came to, and whether each was refused."""
    edits, begun = edits_of(crate), seconds()
    shutil.copytree(os.path.join(HERE, 'crates', crate, 'edits'), os.path.join(room, 'crates', crate, 'must-fail'))
    ran = subprocess.run(['rt', 'must-fail', crate], cwd=room, stdin=subprocess.DEVNULL, stdout=subprocess.PIPE,
                         stderr=subprocess.STDOUT, text=True, errors='replace')
    shutil.rmtree(os.path.join(room, 'crates', crate, 'must-fail'))
    lines = ran.stdout.splitlines()
    refused = [name for name in edits if any(f'must-fail {crate}/{name}{REFUSED}' in line for line in lines)]
    print(f'{crate}: {len(refused)} of {len(edits)} edits refused, {seconds() - begun:.0f} processor seconds', flush=True)
    for name in edits:
        if name not in refused:
            at = next((number for number, line in enumerate(lines) if f'/{name}' in line), None)
            said = f'{name}: NOT TRIED' if at is None else re.sub(r'^rt: (must-fail )?', '', lines[at])
            print(f'  {said}', flush=True)
    well = len(refused) == len(edits) and ran.returncode == 0
    if not well and len(refused) == len(edits):
        print(f'  rt must-fail ended with status {ran.returncode}')
    if not well and not any(f'/{name}' in line for name in edits for line in lines):
        print(*(f'  {line}' for line in lines[-12:]), sep='\n', flush=True)
    return well


def main(words):
    names = [word for word in words if word != '--read']
    wanted = names or [name for name in in_order() if edits_of(name)]
    for name in wanted:
        if not edits_of(name):
            print(f'tools/edits.py: the crate {name} has no edits', file=sys.stderr)
            return 2
    if '--read' in words:
        return read_all(wanted)
    with tempfile.TemporaryDirectory(prefix='lam-edits-') as room:
        copy_crates(room)
        # (where a repository ends)
        os.mkdir(os.path.join(room, '.git'))
        results = [tried(name, room) for name in wanted]
    bad = results.count(False)
    print('every edit was refused' if not bad else f'{bad} of {len(results)} crates have edits that were not refused')
    return 1 if bad else 0


if __name__ == '__main__':
    last_catch.run(lambda: main(sys.argv[1:]))
