#!/usr/bin/env python3
"""Makes a run whose schedule gives unseen work a fixed share of the turns, as an embedding program would with seats.

Usage: tools/share.py P W OBS -o BOOK --share N --rounds M

P is a program, W a world, OBS the label of an observer. In each round each thread takes one turn that OBS sees, or up to
N turns that it does not see. A thread that goes out of the observer's sight takes its next visible turn M rounds later;
where it is not back by then it is late, and has M rounds more. Rounds in which nobody can take a turn are passed over. The
run is written to BOOK, and a line says how many turns and rounds it has, how often a thread went out of sight, and how often
one was late.
"""
from lam_source import early    # pylint: disable=unused-import,wrong-import-order
import argparse
import sys

from lam_source import courses, last_catch, runs, shares
from why import LAM, label_of


def words_of():
    words = last_catch.Words(usage=__doc__.split('Usage: ')[1].split('\n')[0], description=__doc__.split('\n\n', 2)[2],
                             formatter_class=argparse.RawDescriptionHelpFormatter)
    for name in ('program', 'world', 'observer'):
        words.add_argument(name)
    words.add_argument('-o', dest='out', required=True)
    for name in ('--share', '--rounds'):
        words.add_argument(name, type=int, required=True)
    words.add_argument('--lam', default=LAM, help=argparse.SUPPRESS)
    return words.parse_args()


def main():
    words = words_of()
    if words.share < 1 or words.rounds < 1:
        sys.exit('share: a share and a number of rounds are at least 1')
    courses.look_at_place('share', words.out)
    try:
        run = runs.Run(words.lam, words.program, words.world)
    except (OSError, ValueError, runs.NotToRun) as fault:
        sys.exit(f'share: no run is made ({runs.why_none(fault)})')
    made = shares.by_shares(run.world, label_of(words.observer, run.texts.tags, 'share'), words.share, words.rounds)
    courses.put_book('share', words.out, made.course.turns)
    print(f'{len(made.course.turns)} turns in {made.round} rounds; times out of sight: {made.entries}, late: {made.late}')


if __name__ == '__main__':
    last_catch.run(main)
