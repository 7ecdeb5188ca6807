"""What this reading of the language answers to a call of `lam`: the text and the status that the program would give.

It answers `check`, `code`, `replay`, `audit` and `walk`. The tests compare it with the program, call by call.
"""
import functools

from . import checking, labels, machine, thinning, world

DONE, WORDS, PROGRAM, WORLD, BOOK = 0, 2, 3, 4, 5


class Refused(Exception):
    """A refusal: its status and its line."""

    def __init__(self, status, line):
        super().__init__(line)
        self.status, self.line = status, f'lam: {status} {line}'


def bytes_of(name):
    with open(name, 'rb') as file:
        return file.read()


def coded(data):
    """The code of a program, or its refusal."""
    try:
        text = data.decode()
    except UnicodeDecodeError:
        raise Refused(PROGRAM, 'NotUtf8') from None
    code, fault = checking.checked(text)
    if fault:
        raise Refused(PROGRAM, fault.line(text).partition(f'lam: {PROGRAM} ')[2])
    return code


@functools.lru_cache(8)
def thinned(data):
    """What is run of a program; a test asks for it again and again."""
    return thinning.thin(coded(data))


def start_of(name, code):
    """The world at the start, or the refusal of its document."""
    try:
        return world.Start(bytes_of(name).decode(), world.functions_of(code))
    except UnicodeDecodeError:
        raise Refused(WORLD, 'NotJson') from None
    except world.Wrong as wrong:
        raise Refused(WORLD, wrong.kind) from None


def observer_of(text, tags, index):
    """The label of the observer whose word has this index."""
    found = world.LABEL.fullmatch(text)
    sides = [[name for name in side.split(',') if name] for side in found.groups()] if found else [['']]
    if not all(name in tags for side in sides for name in side):
        raise Refused(WORDS, f'word {index}')
    return tuple(frozenset(map(tags.index, side)) for side in sides)


def run_of(code, start, name):
    """The world after the turns of a book, and the events of the run."""
    try:
        turns = world.turns_of(bytes_of(name).decode(errors='surrogateescape'))
    except world.NoBook as broken:
        raise Refused(BOOK, str(broken)) from None
    state, events = machine.World(code, start), []
    for turn, thread in enumerate(turns):
        if not state.is_ready(thread):
            raise Refused(BOOK, f'NotReady turn {turn} thread {thread}')
        event = state.take(thread)
        if event:
            events.append(event)
    return events


def joined(lines):
    return ''.join(f'{line}\n' for line in lines if line is not None)


def of_check(program):
    coded(bytes_of(program))
    return 'ok\n'


def of_code(program):
    return coded(bytes_of(program)).listing()


def started(program, document):
    code = thinned(bytes_of(program))
    return code, start_of(document, code)


def of_replay(program, document, book, observer):
    code, start = started(program, document)
    label = observer_of(observer, start.tags, 4)
    texts = labels.Texts(start.tags)
    return joined(machine.seen_line(texts, it, label) for it in run_of(code, start, book))


def of_audit(program, document, book):
    code, start = started(program, document)
    texts = labels.Texts(start.tags)
    return joined(machine.noted_line(texts, it) for it in run_of(code, start, book))


def of_walk(program, document, book):
    return f'same {len(run_of(*started(program, document), book))}\n'


ANSWERS = {'check': (of_check, 1), 'code': (of_code, 1), 'replay': (of_replay, 4), 'audit': (of_audit, 3), 'walk': (of_walk, 3)}


def answer(words):
    """The text and the status of a call, or None where this reading has no answer to it."""
    given, count = ANSWERS.get(words[0], (None, 0)) if words else (None, 0)
    if not given or len(words) != count + 1:
        return None
    try:
        return given(*words[1:]), DONE
    except Refused as refused:
        return f'{refused.line}\n', refused.status
    except FileNotFoundError:
        return None
