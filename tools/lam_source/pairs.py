"""Two runs of a program beside each other: what an observer notes of each, where that parts, and what it can mean.

`lam pair` says where the agendas part. `turns differ` can mean two things, and this tells which: another order of the visible
turns, or a release that only one of the runs has.
"""
import collections

from . import machine, printable, runs
from .labels import flows

Entry = collections.namedtuple('Entry', 'turn thread place release event')
WHICH = ('the first run', 'the second run')
ORDER = 'so the visible turns come in another order, and a secret can have made it: docs/SECURITY.md, Channels that are open'
SILENT = 'so one run releases and the other does not: that a release comes, or not, tells what decides it, and the audit of the ' \
         'run without it is silent'
LATER = 'so the same is released in another order of the visible turns: docs/SECURITY.md, Channels that are open'
CONTENT = 'so what goes out differs, and each audit has it'


def agenda(run, turns, observer):
    """What an observer notes of a run: the turns that it sees, and the releases past it."""
    entries, world = [], run.world
    for thread in turns:
        if not world.is_ready(thread):
            raise runs.NotToRun(f'turn {world.turn} of thread {thread}')
        context = world.threads[thread].context
        turn, place = world.turn, (context.frame.unit, context.frame.at)
        event = world.take(thread)
        if flows(context.label, observer):
            entries.append(Entry(turn, thread, place, None, event))
        elif event and event.by and flows(event.made, observer):
            entries.append(Entry(turn, thread, place, (event.content, event.by), event))
    return entries


def key(entry):
    return entry.thread, entry.release


def parted(first, second):
    """After how many equal entries two agendas part; None where one is a front of the other."""
    return next((at for at, (one, other) in enumerate(zip(first, second)) if key(one) != key(other)), None)


def told_entry(run, which, entry):
    """One entry in words."""
    line = run.place_of(*entry.place).number
    head = f'  {which}, turn {entry.turn}: t{entry.thread} ({run.called(entry.thread)}), line {line}, '
    if entry.release:
        return head + f'releases: {machine.release_line(run.texts, entry.event)}'
    said = f': {machine.line_of(run.texts, entry.event)}' if entry.event else ''
    return head + f'takes a turn that the observer sees{said}'


def meaning(first, second, at):
    """What it can mean that two agendas part at an entry."""
    one, other = first[at], second[at]
    if one.release and other.release:
        return CONTENT
    if not one.release and not other.release:
        return ORDER if releases(first[at:]) == releases(second[at:]) else f'{ORDER}; {alone(first[at:], second[at:])}'
    entry, rest = (one, second[at:]) if one.release else (other, first[at:])
    return LATER if any(key(it) == key(entry) for it in rest) else SILENT


def releases(entries):
    return collections.Counter(key(it) for it in entries if it.release)


def alone(first, second):
    """Which run has releases from here on that the other has not."""
    mine, theirs = releases(first) - releases(second), releases(second) - releases(first)
    which = 'each run has' if mine and theirs else f'{WHICH[0] if mine else WHICH[1]} has'
    return f'{which} releases that the other has not'


def lines(both, agendas):
    """What there is to say of two runs, whose agendas these are; nothing where one agenda is a front of the other."""
    at = parted(*agendas)
    if at is None:
        return []
    entries = [told_entry(run, which, mine[at]) for run, which, mine in zip(both, WHICH, agendas)]
    head = f'after {at} equal entries of the agenda' if at else 'at the first entry of the agenda'
    return [f'{head}:', *[printable.name(it) for it in entries], meaning(*agendas, at)]
