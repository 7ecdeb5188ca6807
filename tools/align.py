#!/usr/bin/env python3
"""Makes a run of a second world that follows the visible turns of a first run, and has `lam pair` compare the two.

Usage: tools/align.py P W1 BOOK1 W2 OBS -o BOOK2 [--seed N] [--tries N] [--turns N]

P is a program, BOOK1 the book of a run from the world W1. OBS is an observer's label; its agenda of that run is the turns
that it sees, with the releases past it. From the world W2 this takes turns so that the agenda is the same as far as it
goes, and writes them to BOOK2. It prints what `lam pair P W1 BOOK1 W2 BOOK2 OBS` answers, and how many entries of the
agenda were followed.

The unseen turns are those of the first run where it has them, and more where a thread needs more. With --seed N a
generator that starts from N draws them. With --tries N there are N such runs, from seed to seed, up to the first that
does not follow to the end: that is a property test of a program. --turns N bounds the unseen turns before one entry
(100,000 where it is not said).

The status is 0 where each run followed the whole agenda and `lam pair` agrees, else 1, with the thread that departs and
its line. BOOK2 then ends with the turn that departs, so that `lam pair` names it.
"""
from lam_source import early    # pylint: disable=unused-import,wrong-import-order
import argparse
import os
import random
import sys

from lam_source import courses, last_catch, machine, pairs, printable, runs
from why import LAM, label_of


def words_of():
    words = last_catch.Words(usage=__doc__.split('Usage: ')[1].split('\n')[0], description=__doc__.split('\n\n', 2)[2],
                             formatter_class=argparse.RawDescriptionHelpFormatter)
    for name in ('program', 'world', 'book', 'other', 'observer'):
        words.add_argument(name)
    words.add_argument('-o', dest='out', required=True)
    words.add_argument('--seed', type=int)
    words.add_argument('--tries', type=int, default=1)
    words.add_argument('--turns', type=int, default=100_000)
    words.add_argument('--lam', default=LAM, help=argparse.SUPPRESS)
    return words.parse_args()


def first_steps(words, observer_text):
    """The turns of the first run, each with its entry in the observer's agenda; the observer; and how many entries."""
    run = runs.Run(words.lam, words.program, words.world)
    observer = label_of(observer_text, run.texts.tags, 'align')
    course = courses.Course(run.world, observer)
    steps = []
    for thread in courses.turns_of(words.book):
        if not run.world.is_ready(thread):
            raise runs.NotToRun(f'turn {len(steps)} of thread {thread}')
        steps.append((thread, course.take(thread)))
    return steps, observer, len(course.agenda)


def departs(run, thread, why):
    """Who cannot follow, and where it stands."""
    lines = [f't{thread} ({run.called(thread)}) {why}' if thread < len(run.world.threads) else f't{thread} {why}']
    if thread < len(run.world.threads) and not run.world.threads[thread].result:
        lines.append(f'  {run.now_at(thread)}')
    return lines


def followed(words, other, steps, observer, seed):
    """Makes one run and writes its book. Returns how many entries it followed, its turns, and why it stopped, or None."""
    other.world = machine.World(other.code, other.start)
    course = courses.Course(other.world, observer)
    follower = courses.Follower(course, words.turns, None if seed is None else random.Random(seed))
    why = None
    try:
        follower.follow(steps)
    except courses.Off as off:
        why = departs(other, off.args[0], off.args[1])
    courses.put_book('align', words.out, course.turns)
    whole = [entry for _, entry in steps if entry]
    count = next((at for at, (mine, first) in enumerate(zip(course.agenda, whole)) if mine != first),
                 min(len(course.agenda), len(whole)))
    return count, len(course.turns), why


def tried(words, other, steps, observer, whole, seed):
    """One run: the lines that tell of it, and whether it followed to the end."""
    count, turns, why = followed(words, other, steps, observer, seed)
    answer = runs.printed(words.lam, 'pair', words.program, words.world, words.book, words.other, words.out,
                          words.observer).strip()
    drawn = '' if seed is None else f', drawn from {seed}'
    lines = [answer, f'followed {count} of {whole} entries in {turns} turns{drawn}; the first run has {len(steps)}']
    return lines + (why or []) + meaning(words, observer, answer), answer == f'agree {whole}'


def meaning(words, observer, answer):
    """What it can mean that the two runs part: another order, or a release that only one has."""
    if not answer.startswith(('turns differ', 'releases differ')):
        return []
    both = [runs.Run(words.lam, words.program, it) for it in (words.world, words.other)]
    agendas = [pairs.agenda(run, courses.turns_of(book), observer) for run, book in zip(both, (words.book, words.out))]
    return pairs.lines(both, agendas)


def main():
    words = words_of()
    courses.look_at_place('align', words.out)
    if os.path.exists(words.out) and os.path.exists(words.book) and os.path.samefile(words.out, words.book):
        sys.exit(f'align: {printable.name(words.out)} is the first book, and would be written over')
    try:
        steps, observer, whole = first_steps(words, words.observer)
        other = runs.Run(words.lam, words.program, words.other)
    except (OSError, ValueError, runs.NotToRun) as fault:
        sys.exit(f'align: this is no run ({runs.why_none(fault)}); `lam replay P W BOOK OBS` says why')
    first = 0 if words.seed is None and words.tries > 1 else words.seed
    for at in range(max(words.tries, 1)):
        lines, is_whole = tried(words, other, steps, observer, whole, None if first is None else first + at)
        if not is_whole or words.tries <= 1:
            print('\n'.join(lines))
        if not is_whole:
            sys.exit(1)
    if words.tries > 1:
        print(f'{words.tries} runs, drawn from {first} to {first + words.tries - 1}, each agree {whole}')


if __name__ == '__main__':
    last_catch.run(main)
