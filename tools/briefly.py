#!/usr/bin/env python3
"""Says in one line where a refusal is: the file, the line and the column, and what is wrong there.

Usage: tools/briefly.py [--closed] PROGRAM STATUS WORD..

./lam runs this where standard error is no terminal and a call ended with status 3 to 7; LAM_QUIET=1 leaves it out. The words
are those of tools/explain.py, which makes the explanation that this shortens. Standard output keeps the program's own line.
"""
import contextlib
import io
import os
import re
import sys

import explain

from lam_source import last_catch, printable

MISSING, SHELF = 6, 7
LONGEST = 300       # characters
PLACE = re.compile(r'.*: line \d+(, column \d+)?')


def explanation():
    """What tools/explain.py says of the same words."""
    said = io.StringIO()
    with contextlib.redirect_stderr(said):
        explain.main()
    return [line for line in said.getvalue().split('\n') if line]


def in_a_line(said, status, words):
    """The line, or None where there is nothing to say."""
    place = next((line for line in said if PLACE.fullmatch(line)), None)
    plain = [line for line in said if line != place and not line.startswith(' ')]
    if place:
        return ': '.join([place, *plain[:1]])
    if status == MISSING:
        plain[:0] = [printable.name(word) for word in words[1:] if not os.path.exists(word)][:1]
        return ': '.join(plain) or None
    return '; '.join(plain) or ('a file could not be read or written' if status == SHELF else None)


def main():
    words = [word for at, word in enumerate(sys.argv) if at != 1 or word != '--closed']
    if len(words) < 4 or not words[2].isdigit():
        return __doc__
    said = in_a_line(explanation(), int(words[2]), words[3:])
    if said:
        last_catch.say(f'lam: {said}'[:LONGEST])
    return 0


if __name__ == '__main__':
    last_catch.run(main)
