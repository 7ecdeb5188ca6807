#!/usr/bin/env python3
"""Shows where the events of a run come from: the line of the program, and what it asked, in the program's names.

Usage: tools/why.py P W BOOK [TURN | TEXT]..  [--as OBS] [--json] [FILTER VALUE]..
       tools/why.py P W BOOK --channels [--as OBS]
       tools/why.py P W BOOK --beside W2 BOOK2 [--as OBS]

P, W and BOOK are a program, a world and the book of a run (`lam run` writes it, `lam audit` numbers its turns). For each
TURN, and for each event whose line has a TEXT in it, it says which thread asked what, at which line, with which
capabilities, and what was released or which rule refused it. Without a TURN or a TEXT it lists the events, a line for
each: turn, thread, line of the program, what was asked and the answer. --as OBS leaves out what that observer does not
see. --json prints the same events as one JSON object. --channels names the places where that observer (the public, where
none is named) could tell unseen work by the order of visible turns; a closed book has none. --beside compares the run with
another, of the world W2 and its book, as `lam pair` does, and says what it can mean that they part: another order, or a
release that only one run has.

Filters keep the events that fit each of them: --thread, --file, --object, --tag, --label, --kind (one of them said twice
keeps what fits either), --declassifications, --endorsements, --refusals, and --no-polling, which leaves out looks into
empty pipes. So `--kind release --tag ann` lists where ann's secrets were released.

Like the audit, this is for who may see all. The run is gone through beside the proved program, and compared with what
`lam audit` and `lam replay` print of it; where they differ, that is said and the status is 1.
"""
from lam_source import early    # pylint: disable=unused-import,wrong-import-order
import argparse
import json
import os
import re
import sys

from lam_source import as_data, channels, choosing, last_catch, machine, pairs, printable, program, releases, runs, telling, world

LAM = os.path.join(os.path.dirname(os.path.dirname(os.path.abspath(__file__))), 'lam')


def words_of():
    words = last_catch.Words(usage=__doc__.split('Usage: ')[1].split('\n\n')[0], add_help=True,
                             description=__doc__.split('\n\n', 2)[2], formatter_class=argparse.RawDescriptionHelpFormatter)
    for name in ('program', 'world', 'book'):
        words.add_argument(name)
    words.add_argument('wanted', nargs='*')
    for name in ('--declassifications', '--endorsements', '--refusals', '--no-polling', '--channels'):
        words.add_argument(name, action='store_true')
    words.add_argument('--as', dest='observer')
    words.add_argument('--beside', nargs=2, metavar=('W2', 'BOOK2'))
    words.add_argument('--json', action='store_true')
    choosing.add_to(words)
    words.add_argument('--lam', default=LAM, help=argparse.SUPPRESS)
    return words.parse_intermixed_args()


def kept(told, event, words, observer, choice):
    """Whether the filters keep an event."""
    kinds = told.kinds(event)
    chosen = [words.declassifications and 'declassification' in kinds, words.endorsements and 'endorsement' in kinds,
              words.refusals and event.refused]
    asked = words.declassifications or words.endorsements or words.refusals
    return (any(chosen) or not asked) and choice.keeps(event) and not (words.no_polling and told.is_polling(event)) \
        and (observer is None or machine.seen_line(told.texts, event, observer))


def label_of(text, tags, tool='why'):
    found = world.LABEL.fullmatch(text)
    if not found:
        sys.exit(f"{tool}: {printable.name(text)} is no label: '{{a,b}}/{{c}}'")
    sides = [[name for name in side.split(',') if name] for side in found.groups()]
    for name in sides[0] + sides[1]:
        if name not in tags:
            sys.exit(f'{tool}: there is no tag {printable.name(name)}; the tags are {world.listed(tags)}')
    return tuple(frozenset(map(tags.index, side)) for side in sides)


def lines_of(told, event):
    """The lines that `run`, `replay` and `audit` have of an event."""
    lines = [machine.line_of(told.texts, event), machine.noted_line(told.texts, event) or '']
    return lines + ([machine.release_line(told.texts, event)] if event.by else [])


def in_short(told, event):
    """One line of an event."""
    place = told.run.place_of(event.unit, event.at)
    kinds = ''.join(f'  [{kind} by {told.texts.caps(event.by)}]' for kind in told.kinds(event)[:1])
    return f'{event.turn} {told.thread(event.thread)} {told.texts.label(event.label)} line {place.number}: ' \
           f'{told.words(event)} = {event.answer}{kinds}'


def in_full(told, event):
    """All that there is to say of an event."""
    op = event.unit.ops[event.at]
    place = told.run.place_of(event.unit, event.at)
    shown = place.shown(told.run.program, op.end - op.at).replace('\n', '\n  ')
    lines = [f'turn {event.turn}: {machine.line_of(told.texts, event)}', f'  {shown}']
    label, caps = told.texts.label(event.label), told.texts.caps(event.caps)
    more = [f'{told.thread(event.thread)}, {told.inside(event)}, at {label} with {caps}', *told.calls(event)]
    if told.words(event) != event.words:
        more.append(f'asked: {told.words(event)}')
    return '\n'.join(lines + [f'  {line}' for line in more + told.sentences(event) + releases.sentences(told, event) + told.named(event)])


def of_turn(told, turn, turns):
    """What happened at a turn, which may have asked nothing."""
    if turn >= told.run.world.turn:
        return f'turn {turn}: the book has {told.run.world.turn} turns, from 0'
    event = next((it for it in told.run.events if it.turn == turn), None)
    if event:
        return in_full(told, event)
    near = [it.turn for it in told.run.events if it.thread == turns[turn]]
    after = next((it for it in near if it > turn), None)
    return f'turn {turn}: {told.thread(turns[turn])} did something of its own and asked nothing' + \
        (f'; its next event is at turn {after}' if after is not None else '')


def say(text):
    print(printable.lines(text))


def fits(told, event, wanted):
    """Whether an event is that of a turn, or has a text in its line."""
    if is_turn(wanted):
        return event.turn == int(wanted)
    return any(wanted in line for line in lines_of(told, event))


def is_turn(wanted):
    return re.fullmatch(r'[0-9]{1,12}', wanted)


def tell(told, shown, wanted, turns):
    """Prints what is wanted, or a line for each event that is shown."""
    for it in wanted:
        if is_turn(it):
            say(of_turn(told, int(it), turns))
            continue
        found = [event for event in shown if fits(told, event, it)]
        say('\n'.join(in_full(told, event) for event in found) if found else f'no event has {printable.name(it)} in its line')
    if not wanted:
        for event in shown:
            say(in_short(told, event))


def observer_of(told, words):
    return label_of(words.observer, told.texts.tags) if words.observer else machine.PUBLIC


def channels_of(told, words, turns):
    """Where the observer of the call could tell unseen work."""
    observer = observer_of(told, words)
    found = program.closed_by(words.program, words.world, words.book, told.run, turns, observer)
    return channels.closed_lines(told.run, turns, observer, *found) if found else channels.lines(told.run, turns, observer)


def beside(told, words, turns):
    """What `lam pair` answers of this run and another, and what it can mean."""
    observer, (document, book) = observer_of(told, words), words.beside
    said = [runs.printed(words.lam, 'pair', words.program, words.world, words.book, document, book, told.texts.label(observer)).strip()]
    try:
        both = [runs.Run(words.lam, words.program, it) for it in (words.world, document)]
        agendas = [pairs.agenda(run, its, observer) for run, its in zip(both, (turns, world.turns_of(runs.text_of(book))))]
    except (OSError, ValueError, runs.NotToRun) as fault:
        sys.exit(f'why: the other is no run ({runs.why_none(fault)}); `lam replay P W2 BOOK2 OBS` says why')
    return said + (pairs.lines(both, agendas) if re.match('(turns|releases) differ', said[0]) else [])


def tell_as_data(told, shown, words, turns):
    """Prints the same as JSON."""
    more = {'channels': channels_of(told, words, turns)} if words.channels else {}
    more.update({'beside': beside(told, words, turns)} if words.beside else {})
    events = [it for it in shown if not words.wanted or any(fits(told, it, wanted) for wanted in words.wanted)]
    print(json.dumps({**as_data.run_of(told, events, (words.program, words.world, words.book)), **more}, indent=1))


def shown_of(told, words):
    """The events that the words of the call keep."""
    observer = label_of(words.observer, told.texts.tags) if words.observer else None
    try:
        choice = choosing.Choice(told, words)
    except choosing.Unknown as unknown:
        sys.exit(f'why: {printable.name(str(unknown))}')
    return [it for it in told.run.events if kept(told, it, words, observer, choice)]


def main():
    words = words_of()
    try:
        run = runs.Run(words.lam, words.program, words.world)
        turns = world.turns_of(runs.text_of(words.book))
        run.take(turns)
    except (OSError, ValueError, runs.NotToRun) as fault:
        sys.exit(f'why: this is no run ({runs.why_none(fault)}); `lam replay P W BOOK OBS` says why')
    if run.stopped is not None:
        sys.exit(f'why: at turn {run.world.turn} t{run.stopped} cannot go on: this is not the book of this program and this world')
    told = telling.Telling(run)
    shown = shown_of(told, words)
    if words.json:
        tell_as_data(told, shown, words, turns)
    elif not (words.channels or words.beside) or words.wanted:
        tell(told, shown, words.wanted, turns)
    if words.beside and not words.json:
        say('\n'.join(beside(told, words, turns)))
    if words.channels and not words.json:
        say('\n'.join(channels_of(told, words, turns)))
    line = telling.differs(run, words.lam, words.world, words.book)
    if line:
        sys.exit(f'why: lam tells this run otherwise, so do not trust the above: {line}')


if __name__ == '__main__':
    last_catch.run(main)
