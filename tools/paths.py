#!/usr/bin/env python3
"""Counts the files that the gate reads because of the lists of crates.txt.

Usage: tools/paths.py [CRATE ..]

Before and after the proof of a library, `rt ci` makes a checksum of its files and of all libraries below it. rattle-kit-13b
does not remember these checksums: it follows every path of crates.txt and reads the files at its end again. This counts
the paths and the files for the crates named, or for the twenty costliest, and names the entry of each list that costs
most. Crates of tests (`staticlib`) and programs have no checksum. A file takes some 96 microseconds of one processor.
"""
from lam_source import early    # pylint: disable=unused-import,wrong-import-order
import os
import sys

from lam_source import last_catch, printable

HERE = os.path.dirname(os.path.dirname(os.path.abspath(__file__)))
SECONDS = 2 * 96e-6     # a file is read before the proof and after it


def crates():
    """The libraries of the repository that each crate lists, lowest first, and the crates that have no sum."""
    below, alone = {}, set()
    with open(os.path.join(HERE, 'crates.txt'), encoding='utf-8') as lines:
        for line in lines:
            name, found, listed = line.partition('#')[0].partition(':')
            if found:
                below[name.split()[0]] = listed.split()
                if 'staticlib' in name.split() or os.path.exists(os.path.join(HERE, 'crates', name.split()[0], 'src/main.rt')):
                    alone.add(name.split()[0])
    return {name: [it for it in listed if it in below] for name, listed in below.items()}, alone


def files_of(name):
    folders = (os.path.join(HERE, 'crates', name, part) for part in ('src', 'specs', 'proofs'))
    return sum(len(files) for folder in folders for _, _, files in os.walk(folder))


def counted(below):
    """For each crate, how many paths lead down from it, and how many files stand at their ends."""
    found = {}

    def count(name):
        if name not in found:
            parts = [count(it) for it in below[name]]
            found[name] = 1 + sum(it[0] for it in parts), files_of(name) + sum(it[1] for it in parts)
        return found[name]

    for name in below:
        count(name)
    return found


def main():
    below, alone = crates()
    found = counted(below)
    libraries = [it for it in below if it not in alone]
    unknown = [it for it in sys.argv[1:] if it not in found]
    if sys.argv[1:2] in (['--help'], ['-h']):
        sys.exit(__doc__)
    if unknown:
        sys.exit(f'paths: there is no crate {printable.name(unknown[0])} in crates.txt')
    shown = sys.argv[1:] or sorted(libraries, key=lambda it: -found[it][1])[:20]
    for name in shown:
        paths, files = found[name]
        costliest = max(below[name], key=lambda it: found[it][1], default='')
        print(f'{name:22} {paths:9} paths {files:9} files {files * SECONDS:7.0f} s   {costliest}')
    files = sum(found[it][1] for it in libraries)
    print(f'{"all libraries":22} {sum(found[it][0] for it in libraries):9} paths {files:9} files {files * SECONDS:7.0f} s')


if __name__ == '__main__':
    last_catch.run(main)
