#!/usr/bin/env python3
"""Says by its status whether a file is a world document: 0 where it is one, 1 where it is not.

Usage: tools/is_world.py FILE

./lam asks this before `next` writes a world over a file that is there. A world document is a JSON object with the members
that each version has (docs/FORMATS.md), of their kinds; what is in them is not looked at.
"""
import json
import sys

from lam_source import last_catch

MOST = 16_777_216       # bytes
MEMBERS = {'version': int, 'tags': list, 'tree': list, 'pipes': list, 'threads': list}


def is_world(data):
    """Whether these bytes are a world document."""
    try:
        value = json.loads(data.decode())
    except (ValueError, RecursionError):
        return False
    return isinstance(value, dict) and value.get('version') in (1, 2, 3) \
        and all(type(value.get(name)) is kind for name, kind in MEMBERS.items())


def main():
    if len(sys.argv) != 2:
        sys.exit(__doc__)
    try:
        with open(sys.argv[1], 'rb') as file:
            data = file.read(MOST + 1)
    except OSError as fault:
        sys.exit(f'is_world: {fault}')
    sys.exit(0 if len(data) <= MOST and is_world(data) else 1)


if __name__ == '__main__':
    last_catch.run(main)
