"""Which events of a run a person wants to see: by thread, file, object, tag, label and kind."""
import re

from . import paths, world

OPTIONS = {
    '--thread': ('THREAD', 'events of this thread: its number, as 2 or t2, or the name of its function'),
    '--file': ('PATH', 'events with this file, directory or pipe: a path as cal/alice, or the name of a pipe of the world'),
    '--object': ('OBJECT', 'events with this object: its text, as obj<{}/{}|{}/{}|0>, or a class'),
    '--tag': ('TAG', 'events in whose label, capabilities or refusal this tag stands'),
    '--label': ('LABEL', 'events at exactly this acting label'),
    '--kind': ('KIND', 'events of this kind: read, send, enter .., or release, declassification, endorsement, refusal, failure'),
}
KINDS = ['release', 'declassification', 'endorsement', 'refusal', 'failure']
ASKS = ['append', 'barred', 'caught', 'copy', 'cut', 'end', 'enter', 'join', 'leave', 'length', 'lock', 'make_dir', 'make_file',
        'make_pipe', 'mint', 'new', 'open_dir', 'open_file', 'read', 'read_file', 'receive', 'receive_caps', 'remove', 'say',
        'send', 'send_caps', 'spawn', 'suppressed', 'unlock', 'write']


class Unknown(Exception):
    """A filter that can fit nothing: a sentence."""


def add_to(words):
    """The options for the filters, each of which may come several times."""
    for name, (meant, told) in OPTIONS.items():
        words.add_argument(name, metavar=meant, action='append', default=[], help=told)


class Choice:
    """The filters of a call. Of one option any value fits; of several options each has to fit."""

    def __init__(self, told, words):
        self.told, self.run, self.texts = told, told.run, told.texts
        self.tests = [self.any_of([getattr(self, f'of_{name[2:]}')(value) for value in getattr(words, name[2:])])
                      for name in OPTIONS if getattr(words, name[2:])]

    @staticmethod
    def any_of(tests):
        return lambda event: any(test(event) for test in tests)

    def keeps(self, event):
        return all(test(event) for test in self.tests)

    def line(self, event):
        return f'{event.words} = {event.answer}'

    # ---- the options

    def of_thread(self, value):
        threads = self.run.world.threads
        if re.fullmatch(r't?[0-9]{1,9}', value):
            number = int(value.lstrip('t'))
            if number >= len(threads):
                raise Unknown(f'there is no thread {value}: there are {len(threads)}, from 0')
            return lambda event: event.thread == number
        numbers = {it.number for it in threads if it.unit.name == value}
        if not numbers:
            raise Unknown(f'no thread runs {value}; they run {world.listed(sorted({it.unit.name for it in threads}))}')
        return lambda event: event.thread in numbers

    def of_file(self, value):
        texts = {text for text, path in self.told.paths.items() if path == value}
        if not texts:
            known = sorted(path for path in self.told.paths.values() if path)
            raise Unknown(f'there is no file, directory or pipe {value}; there are {world.listed(known)}')
        return lambda event: not texts.isdisjoint(paths.things_in(self.line(event)))

    def of_object(self, value):
        if re.fullmatch(r'(obj|arr)<[^>]*>', value):
            return lambda event: value in paths.things_in(self.line(event))
        classes = [it.name for it in self.told.code.classes]
        if value not in classes:
            raise Unknown(f'{value} is no class and no object; the classes are {world.listed(classes)}')
        texts = {text for text, name in self.told.classes.items() if name == value}
        return lambda event: not texts.isdisjoint(paths.things_in(self.line(event)))

    def of_tag(self, value):
        if value not in self.texts.tags:
            raise Unknown(f'there is no tag {value}; the tags are {world.listed(self.texts.tags)}')
        tag, word = self.texts.tags.index(value), tag_word(value)
        return lambda event: self.has_tag(event, tag, word)

    def has_tag(self, event, tag, word):
        """Whether a tag stands in an event's label, in what was asked and answered outside of texts, or in its refusal."""
        line = plain(f'{self.texts.label(event.label)} {self.line(event)}')
        return bool(word.search(line)) or any(tag in side for side in event.by or ()) or \
            bool(event.refused) and event.refused.tag == tag

    def of_label(self, value):
        found = world.LABEL.fullmatch(value)
        sides = [[name for name in side.split(',') if name] for side in found.groups()] if found else None
        if sides is None:
            raise Unknown(f"{value} is no label: '{{a,b}}/{{c}}'")
        unknown = [name for side in sides for name in side if name not in self.texts.tags]
        if unknown:
            raise Unknown(f'there is no tag {unknown[0]}; the tags are {world.listed(self.texts.tags)}')
        label = tuple(frozenset(map(self.texts.tags.index, side)) for side in sides)
        return lambda event: event.label == label

    def of_kind(self, value):
        if value not in KINDS + ASKS:
            raise Unknown(f'{value} is no kind of event; the kinds are {world.listed(KINDS + ASKS)}')
        return lambda event: value in all_kinds(self.told, event)


def plain(line):
    """A line without what stands in its texts."""
    return re.sub(r'"(?:[^"\\]|\\.)*"', '""', line)


def tag_word(name):
    """The pattern of a tag in a label or in capabilities."""
    return re.compile(rf'[{{,]{re.escape(name)}[}},]')


def all_kinds(told, event):
    """The kinds that an event has: what was asked, and what came of it."""
    kinds = told.kinds(event)
    return [event.ask, *(['release'] if kinds else []), *kinds, *(['refusal'] if event.refused else []),
            *(['failure'] if event.answer.startswith('failed ') else [])]

