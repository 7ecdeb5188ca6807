#!/usr/bin/env python3
"""Makes a page that shows a run: a lane for each thread, its regions, what it asked, what was released and refused.

Usage: tools/timeline.py P W BOOK OBS OUT.html [FILTER VALUE]..
       tools/timeline.py P W BOOK OBS OUT.json --json [FILTER VALUE]..

P, W and BOOK are a program, a world and the book of a run, OBS is the label of the observer as whom the page shows it
first. The page needs nothing beside itself. A mark shows its line, its source and why; another observer can be chosen, and
what that one does not see is left out. OUT.html#TURN is the address of an event. The page can be zoomed, searched and gone
through by keys, which it lists. It has the whole run: like the audit, it is for who may see all. Of a run with more than
5,000 events it has the first 5,000.

Filters are those of tools/why.py: --thread, --file, --object, --tag, --label, --kind. The page begins with a search for
them. --json writes the run as JSON instead: its threads with their regions, and the events that fit the filters, each with
whether OBS sees it.
"""
from lam_source import early    # pylint: disable=unused-import,wrong-import-order
import argparse
import json
import os
import re
import sys

from lam_source import as_data, choosing, last_catch, machine, paths, printable, releases, runs, telling, world
from why import LAM, in_full, label_of

MOST = 5000
PAGE = os.path.join(os.path.dirname(os.path.abspath(__file__)), 'lam_source', 'timeline.html')


class Labels:
    """The labels of a run by number, the public one first."""

    def __init__(self, texts):
        self.texts, self.numbers = texts, {}
        self.number(machine.PUBLIC)

    def number(self, label):
        return self.numbers.setdefault(label, len(self.numbers))

    def listed(self):
        return [{'text': self.texts.label(it), 'sets': [sorted(it[0]), sorted(it[1])]} for it in self.numbers]


def kind_of(told, event):
    """By which mark an event is shown."""
    if event.refused:
        return 'refused'
    return (told.kinds(event) + [event.ask if event.ask in ('say', 'end') else 'plain'])[0]


def item_of(told, event, labels):
    """An event as the page has it."""
    texts = told.texts
    line = machine.line_of(texts, event)
    release = f'turn {event.turn}: {machine.release_line(texts, event)}' if event.by else ''
    more = told.sentences(event) + releases.sentences(told, event)
    said = event.words[4:].strip('"') if event.ask == 'say' else ''
    return {
        'turn': event.turn, 'thread': event.thread, 'label': labels.number(event.label), 'kind': kind_of(told, event),
        'made': labels.number(event.made) if event.made is not None else None, 'line': line,
        'short': said if len(said) <= 12 else f'{said[:10]}..', 'polling': told.is_polling(event),
        'told': in_full(told, event), 'released': '\n'.join([release, *more]), 'look': look_of(told, event),
        'at': told.run.place_of(event.unit, event.at).number,
        'from': [told.run.place_of(unit, at - 1).number for unit, at in event.stack[:-1]],
    }


def look_of(told, event):
    """By which words of a search an event is found."""
    texts, line = told.texts, f'{event.words} = {event.answer}'
    things = paths.things_in(line)
    tags = {tag for side in event.label + (event.by or ()) for tag in side} | ({event.refused.tag} if event.refused else set())
    named = [name for at, name in enumerate(texts.tags) if at in tags or choosing.tag_word(name).search(choosing.plain(line))]
    return {'thread': [str(event.thread), told.run.called(event.thread)], 'file': [told.paths[it] for it in things if it in told.paths],
            'object': [it for it in things if it.startswith(('obj', 'arr'))] + [told.classes[it] for it in things if it in told.classes],
            'tag': named, 'label': [texts.label(event.label)], 'kind': choosing.all_kinds(told, event)}


def spans_of(run, events, labels):
    """For each thread when it began, and its contexts: from which event to which, at which label, how deep."""
    threads = [{'name': run.called(it.number), 'turns': it.turns, 'from': None,
                'spans': [{'from': None, 'to': None, 'label': 0, 'depth': 0}]} for it in run.world.threads]
    opened = [[it['spans'][0]] for it in threads]
    for at, event in enumerate(events):
        mine = opened[event.thread]
        if event.ask == 'enter' and event.answer == 'entered':
            span = {'from': at, 'to': None, 'label': labels.number(event.detail['label']), 'depth': len(mine)}
            threads[event.thread]['spans'].append(span)
            mine.append(span)
        elif event.ask in ('leave', 'suppressed', 'end'):
            mine.pop()['to'] = at
        elif event.ask == 'spawn' and event.answer.startswith('t'):
            threads[int(event.answer[1:])]['from'] = at
    return threads


def data_of(told, observer, search):
    run, labels = told.run, Labels(told.texts)
    events = run.events[:MOST]
    items = [item_of(told, it, labels) for it in events]
    threads = spans_of(run, events, labels)
    first, everything = labels.number(observer), labels.number(telling.all_tags(told.texts))
    listed = labels.listed()
    source = [printable.lines(line.rstrip('\r')) for line in run.code.text.rstrip('\n').split('\n')]
    return {'labels': listed, 'events': items, 'threads': threads, 'first': first, 'search': search,
            'observers': sorted({*range(len(listed)), everything}), 'source': source}


def run_as_data(told, observer, choice, names):
    """The run as JSON: as why.py has it, with the regions of each thread, and what the observer sees."""
    found = as_data.run_of(told, [it for it in told.run.events if choice.keeps(it)], names)
    labels, by_turn = Labels(told.texts), {it.turn: it for it in told.run.events}
    spans = spans_of(told.run, told.run.events, labels)
    for thread, mine in zip(found['threads'], spans):
        thread['regions'] = [{'label': labels.listed()[it['label']]['text'], 'depth': it['depth'], 'from': turn_at(told, it['from']),
                              'to': turn_at(told, it['to'])} for it in mine['spans'][1:]]
    for event in found['events']:
        event['seen'] = machine.seen_line(told.texts, by_turn[event['turn']], observer) is not None
    return json.dumps({**found, 'observer': told.texts.label(observer)}, indent=1) + '\n'


def turn_at(told, at):
    return None if at is None else told.run.events[at].turn


def page_of(data, title):
    """The page, with its data where it says DATA and its title where it says TITLE; neither is looked through again."""
    with open(PAGE, encoding='utf-8') as file:
        page = file.read()
    parts = {'DATA': json.dumps(data).replace('<', '\\u003c'),
             'TITLE': title.replace('&', '&amp;').replace('<', '&lt;')}
    return re.sub(r'\b(DATA|TITLE)\b', lambda found: parts[found[0]], page)


def why_not(out, begins, what):
    """Why a page, or data, is not to be written to a name, or None."""
    folder = os.path.dirname(out) or '.'
    if not os.path.isdir(folder):
        return f'there is no folder {printable.name(folder)}'
    if os.path.isdir(out):
        return f'{printable.name(out)} is a folder; name a file'
    if os.path.exists(out) and not runs.text_of(out).startswith(begins):
        return f'{printable.name(out)} is there and is no {what}; name another file'
    return None


def words_of():
    words = last_catch.Words(usage=__doc__.split('Usage: ')[1].split('\n\n')[0], add_help=True,
                             description=__doc__.split('\n\n', 2)[2], formatter_class=argparse.RawDescriptionHelpFormatter)
    for name in ('program', 'world', 'book', 'observer', 'out'):
        words.add_argument(name)
    words.add_argument('--json', action='store_true')
    choosing.add_to(words)
    return words.parse_args()


def search_of(words):
    """The search with which the page begins: the filters of the call."""
    chosen = [f'{name[2:]}:{value}' for name in choosing.OPTIONS for value in getattr(words, name[2:])]
    return ' '.join(f'"{it}"' if ' ' in it else it for it in chosen)


def run_of(words):
    """The run that the words name, with its observer and its filters."""
    try:
        run = runs.Run(LAM, words.program, words.world).take(world.turns_of(runs.text_of(words.book)))
    except (OSError, ValueError, runs.NotToRun) as fault:
        sys.exit(f'timeline: this is no run ({runs.why_none(fault)}); `lam replay P W BOOK OBS` says why')
    if run.stopped is not None:
        sys.exit('timeline: this is not the book of this program and this world')
    told = telling.Telling(run)
    observer = label_of(words.observer, run.texts.tags, 'timeline')
    try:
        choice = choosing.Choice(told, words)
    except choosing.Unknown as unknown:
        sys.exit(f'timeline: {printable.name(str(unknown))}')
    line = telling.differs(run, LAM, words.world, words.book)
    if line:
        sys.exit(f'timeline: lam tells this run otherwise: {line}')
    return told, observer, choice


def main():
    words = words_of()
    why = why_not(words.out, '{', 'JSON') if words.json else why_not(words.out, '<!doctype html>', 'page')
    if why:
        sys.exit(f'timeline: {why}')
    told, observer, choice = run_of(words)
    names = (words.program, words.world, words.book)
    if words.json:
        made = run_as_data(told, observer, choice, names)
    else:
        title = ', '.join(printable.name(os.path.basename(it)) for it in names)
        made = page_of(data_of(told, observer, search_of(words)), title)
    with open(words.out, 'w', encoding='utf-8') as file:
        file.write(made)
    if len(told.run.events) > MOST and not words.json:
        print(f'timeline: the page has the first {MOST} of {len(told.run.events)} events', file=sys.stderr)


if __name__ == '__main__':
    last_catch.run(main)
