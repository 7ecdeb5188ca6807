#!/usr/bin/env python3
"""Says in a line what a run had refused, and which of its threads ended by a fault; nothing where there is neither.

Usage: tools/outcome.py PROGRAM run P W OBS BOOK [OPTION..]
       tools/outcome.py PROGRAM replay P W BOOK OBS

./lam runs this at a terminal after such a call. PROGRAM is the built program. Its audit has the refusals; which threads
ended, and how, is told by going through the run beside it, if that has few turns. The line counts all threads: the one who
calls has the world and the book, and may see all.
"""
from lam_source import early    # pylint: disable=unused-import,wrong-import-order
import collections
import os
import re
import sys

from lam_source import last_catch, runs, world

MANY = 100_000      # turns; of a longer run only the refusals are counted
REFUSED = re.compile(r'\d+ t\d+ \S+ refused \w+ \S+')


def refusals(program, files):
    return sum(1 for line in runs.printed(program, 'audit', *files).splitlines() if REFUSED.fullmatch(line))


def faults(program, files):
    """How many threads ended by each fault, in the order of the threads."""
    turns = world.turns_of(runs.text_of(files[2]))
    if len(turns) > MANY:
        return {}
    run = runs.Run(program, *files[:2]).take(turns)
    ended = [thread.result for thread in run.world.threads]
    return collections.Counter(how[1] for how in ended if how and how[0] == 'fault')


def ends(ended):
    """How many threads ended by each fault, in words."""
    said = [f'{count} by {fault}' for fault, count in ended.items()]
    first = next(iter(ended.values()))
    return ', '.join([said[0].replace(' by', f' thread{"s" * (first > 1)} ended by', 1), *said[1:]])


def outcome(program, files):
    """The line, or None. What came by a pipe cannot be read again."""
    if not all(map(os.path.isfile, files)):
        return None
    refused, ended = refusals(program, files), faults(program, files)
    said = ([f'{refused} refused'] if refused else []) + ([ends(ended)] if ended else [])
    if not said:
        return None
    wanted = '--refusals' if refused else f"'end {next(iter(ended))}'"
    return f'{", ".join(said)}; tools/why.py {" ".join(map(shown, files))} {wanted}'


def shown(name):
    """A file name as a word of the shell."""
    return name if re.fullmatch(r'[\w./+-]+', name) else "'" + ascii(name)[1:-1].replace("'", "'\\''") + "'"


def main():
    if len(sys.argv) < 7 or sys.argv[2] not in ('run', 'replay'):
        sys.exit(__doc__)
    program, command, *words = sys.argv[1:]
    files = [words[0], words[1], words[3] if command == 'run' else words[2]]
    try:
        said = outcome(program, files)
    except (OSError, runs.NotToRun, IndexError, TypeError, KeyError, ValueError, RecursionError):
        return      # there is nothing more to say
    if said:
        print(said, file=sys.stderr)


if __name__ == '__main__':
    last_catch.run(main)
