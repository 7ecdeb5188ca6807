#!/usr/bin/env python3
"""Says to a person at a terminal more of a call that was refused, or that did not come to its end.

Usage: explain.py [--closed] PROGRAM STATUS [WORD..]

PROGRAM is the built program, which was given the WORDs and ended with STATUS; with --closed it is `lam_closed`. Where it
refused them, it has written nothing but its line, so it is asked for that line again. Then this says, on standard error:
which word fits no form; what stands at the place of a program or a world document, and what could; what the book has at the
turn that it cannot have; which file is not there; which threads of a run live, where they stand and for whom they wait; in
which region a closed run is held up; what it can mean that two runs differ. Nothing is printed where there is nothing more
to say.
"""
from lam_source import early    # pylint: disable=unused-import,wrong-import-order
import difflib
import errno
import os
import re
import sys

from lam_source import closed, faults, last_catch, pairs, places, printable, runs, world

DONE, NO_MEMORY, WORDS, PROGRAM, WORLD, BOOK, MISSING, SHELF, OUTPUT, BUDGET, WAITING, STALLED, OVER = range(13)
MANY = 200_000      # turns; of a longer book nothing is said where the program has refused nothing
SHOWN = 10          # faults of a program beside the one that `check` names

# What the words of the forms stand for.
FILES = {'FILE': 'the script', 'P': 'the program', 'W': 'the world', 'BOOK': 'the book', 'BOOKOUT': 'the book to be written',
         'W1': 'the first world', 'BOOK1': 'the first book', 'W2': 'the second world', 'BOOK2': 'the second book'}
NEXT = 'the next world, to be written'      # W2 of `next`
WRITTEN = (FILES['BOOKOUT'], NEXT)
RUNS = (('W', 'BOOK'), ('W1', 'BOOK1'), ('W2', 'BOOK2'))        # the names of a run's world and book in a form
MEANT = {'FILE': 'the name of a script', 'P': 'the name of a program', 'W': 'the name of a world document',
         'BOOK': 'the name of a book', 'OBS': "an observer's label, as '{}/{}'", 'BOOKOUT': 'a name for the book to be written',
         'W1': 'the name of the first world document', 'BOOK1': 'the name of the first book',
         'W2': 'the name of a world document', 'BOOK2': 'the name of the second book'}
RANGES = {'--workers': 'a number from 1 to 16', '--turns': 'a number from 1 to 1000000', '--base': "a label without integrity, as '{a}/{}'",
          'SEED': 'a number from 0 to 18446744073709551615', 'THREADS': 'a number from 1 to 64'}


class Call:
    """A call: the program, the words that it was given, and the form of its command, where it has one."""

    def __init__(self, program, words, is_closed=False):
        self.program, self.words, self.is_closed = program, words, is_closed
        self.forms = [line.split()[1:] for line in runs.printed(program, 'help').splitlines()]
        self.form = next((form for form in self.forms if form[:1] == words[:1]), [])

    def at(self, name):
        """The index of the word that stands where the form has this name, or None."""
        return self.form.index(name) if name in self.form and self.form.index(name) < len(self.words) else None

    def word(self, name):
        at = self.at(name)
        return None if at is None else self.words[at]

    def files(self):
        """The file names among the words, each with what the file is."""
        roles = {**FILES, 'W2': NEXT} if self.form[:1] == ['next'] else FILES
        return [(self.words[at], roles[name]) for at, name in enumerate(self.form[:len(self.words)]) if name in roles]

    def runs(self):
        """The world and the book of each run that the call has, in the order in which they are read."""
        given = [(self.word(document), self.word(book)) for document, book in RUNS]
        return [it for it in given if it[0] and (it[1] or self.form[:1] != ['next'])]

    def run(self, document=None):
        """The run of a world; `lam_closed` prints no code, so that of a closed run is compiled here."""
        return runs.Run(None if self.is_closed else self.program, self.word('P'), document or self.word('W'))

    def label(self, run, text):
        sides = world.LABEL.fullmatch(text).groups()
        return tuple(frozenset(run.start.tags.index(name) for name in side.split(',') if name) for side in sides)


# ---- words

def same_words(given, form):
    """How many of the given words agree with a form, whose words in capitals stand for any."""
    count = 0
    for word, wanted in zip(given, form):
        if word != wanted and not wanted.isupper():
            break
        count += 1
    return count


def forms_alike(forms, words):
    """The forms that agree with the most of the words, or all where none begins alike."""
    best = max((same_words(words, form) for form in forms), default=0)
    return [form for form in forms if same_words(words, form) == best] if best else forms


def split_label(words):
    """The one label that the shell has split into several of the words, and the index of the first of them, or None."""
    part = r'\{?([A-Za-z]\w*)?\}?'
    for first in range(len(words)):
        last = first
        while last < len(words) and re.fullmatch(f'{part}/{part}', words[last]) and not os.path.exists(words[last]):
            last += 1
        if last - first > 1:
            sides = [[word.split('/')[side].strip('{}') for word in words[first:last]] for side in (0, 1)]
            return first, '/'.join('{' + ','.join(dict.fromkeys(filter(None, side))) + '}' for side in sides)
    return None


def of_label(call, word):
    """Why a word is no label of an observer."""
    bare = re.sub(r'\s+', '', word)
    if bare != word and world.LABEL.fullmatch(bare):
        return f"a label has no blank: '{bare}'"
    if not world.LABEL.fullmatch(word):
        if any(map(world.LABEL.fullmatch, call.words)):
            return 'the label stands in another place of the words than that of OBS'
        return f"a label is {{SECRECY}}/{{INTEGRITY}}, with no blank: '{{a,b}}/{{c}}'; the public's is '{{}}/{{}}'"
    tags = tags_of(call)
    unknown = [name for name in re.findall(r'\w+', word) if name not in tags]
    if not unknown:
        return 'the label names a tag that is not declared'
    near = difflib.get_close_matches(unknown[0], tags, 1)
    more = f'; did you mean {near[0]}?' if near else ''
    return f'there is no tag {unknown[0]}; the tags are {world.listed(tags)}{more}'


def tags_of(call):
    """The tags that a script or a world declares."""
    try:
        if call.word('FILE'):
            return re.findall(r'^tag (\w+)', runs.text_of(call.word('FILE')), re.M)
        document = world.parts_of(runs.text_of(call.runs()[0][0]))
        names = [it.get('name') if isinstance(it, dict) else it for it in document.value['tags']]
        return [it for it in names if isinstance(it, str)]
    except (OSError, world.Wrong, KeyError, TypeError, IndexError):
        return []


def options_of(call):
    """The names of the options of a form, in their order."""
    return [word[1:] for word in call.form if word.startswith('[--')]


def of_options(call):
    """What is wrong with the options of a call, or None."""
    words, known = call.words, options_of(call)
    given = [word for word in words[:-1] if word in known]
    for name in given:
        value = words[words.index(name) + 1]
        if name == '--base':
            if not world.LABEL.fullmatch(value) or not value.endswith('/{}'):
                return f'{name} takes {RANGES[name]}'
            continue
        limit = 16 if name == '--workers' else 1_000_000
        if not re.fullmatch(r'[1-9][0-9]{0,6}', value) or int(value) > limit:
            return f'{name} takes {RANGES[name]}'
    unknown = [word for word in words if word.startswith('-') and word not in known]
    if unknown:
        has = ' and '.join(f'{name} {"LABEL" if name == "--base" else "N"}' for name in known)
        return f'there is no option {printable.name(unknown[0])}; `{call.form[0]}` has {has}'
    if given:
        form = ' '.join(call.form[call.form.index(f'[{known[0]}'):])
        return f'the options stand last: .. {call.form[call.form.index(f"[{known[0]}") - 1]} {form}, in this order'
    return None


def hint_of_words(call, index):
    """What may be wrong with words in no form, beyond the forms."""
    words, form = call.words, call.form
    split = split_label(words)
    if split:
        return f"the shell has made several words of one label; quote it: '{split[1]}'"
    if index == 0 and words:
        near = difflib.get_close_matches(words[0], [form[0] for form in call.forms], 1)
        return f'did you mean {near[0]}?' if near else None
    wanted = form[index] if index < len(form) else ''
    if words and index == len(words) and wanted in MEANT:
        return f'{wanted} is missing: {MEANT[wanted]}'
    if words and options_of(call):
        return of_options(call)
    return f'{wanted} is {RANGES[wanted]}' if wanted in RANGES and index < len(words) else None


def names_observer(call, index):
    """Whether the words are in a form, and the one of this index is the observer's label."""
    if call.at('OBS') != index or split_label(call.words):
        return False
    required = [word for word in call.form if '[' not in word and not word.endswith(']')]
    rest = call.words[len(required):]
    options = [it for it in options_of(call) if it in rest[::2]]
    return len(call.words) >= len(required) and rest[::2] == options and len(rest) % 2 == 0


def of_words(call, line):
    """Explains that the words are in no form, or that one of them names an unknown tag."""
    index = int(of_form(r'lam: 2 word (\d+)', line)[1])
    word = call.words[index] if index < len(call.words) else ''
    given = ['lam', *call.words]
    start = sum(len(word) + 1 for word in given[:index + 1])
    shown = [places.marked(' '.join(given), start, len(word))]
    if names_observer(call, index):
        form = [] if world.LABEL.fullmatch(word) else [f'the form is: lam {" ".join(call.form)}']
        return [*shown, of_label(call, word), *form]
    hint, alike = hint_of_words(call, index), forms_alike(call.forms, call.words)
    shown += [hint] if hint else []
    shown.append('the forms are:' if len(alike) > 1 else 'the form is:')
    return shown + [f'  lam {" ".join(form)}' for form in alike]


def of_form(pattern, line):
    """The parts of a line of the program."""
    found = re.fullmatch(pattern, line, re.S)
    if not found:
        raise runs.NotToRun('the program refuses something else now')
    return found


# ---- programs and scripts

def of_program(call, line):
    """Explains the refusal of a program or a script."""
    name = call.word('P') or call.word('FILE')
    with open(name, 'rb') as file:
        data = file.read()
    at = re.fullmatch(r'lam: 3 (\w+) at (\d+)', line)
    if at:
        return of_place(name, data, at[1], int(at[2]), call.words[:1] == ['check'])
    script = re.fullmatch(r'lam: 3 Script line (\d+)', line)
    if script:
        lines = data.split(b'\n')
        number = int(script[1])
        text = lines[number - 1].decode(errors='replace') if number <= len(lines) else ''
        return [f'{printable.name(name)}: line {number}', f'  {printable.name(text[:100])}',
                of_script_line(lines[:number], number <= len(lines) - 1)]
    if line == 'lam: 3 NotUtf8':
        try:
            data.decode()
        except UnicodeDecodeError as broken:
            return of_place(name, data, 'NotUtf8', broken.start)
    long = re.fullmatch(r'lam: 3 CodeTooLong (\d+)', line)
    if long:
        return [f'unit {long[1]} has more than 65,535 operations: make several functions of it '
                '(units are counted from 0, functions first)']
    return []


def of_place(name, data, kind, at, tells_all=False):
    """Explains the fault at a place of a program and, where that is asked, the other faults of the program."""
    text, start = places.characters(data, min(at, len(data)))
    if kind == 'NotUtf8':
        return [places.Place(text, start).shown(name), 'a program is UTF-8, and this byte is not']
    found = faults.faults_of(text)
    named = next((it for it in found if (it.kind, it.at) == (kind, start)), None)
    if not named:
        return [places.Place(text, start).shown(name, faults.end_of(text, start) - start)]
    others = by_lines(text, named, found) if tells_all else []
    return [*of_fault(name, text, named), *(line for it in others[:SHOWN] for line in ('', *of_fault(name, text, it))),
            *([f'\nand {len(others) - SHOWN} more'] if len(others) > SHOWN else [])]


def by_lines(text, named, found):
    """The first fault of each line, but for the line of the one that the program names: what follows it there often comes of it."""
    firsts = {text.count('\n', 0, it.at): it for it in reversed(found)}
    firsts.pop(text.count('\n', 0, named.at), None)
    return [firsts[line] for line in sorted(firsts)]


def of_fault(name, text, found):
    return [places.Place(text, found.at).shown(name, found.end - found.at), *found.said]


def of_script_line(lines, is_ended):
    """Why a line of a script is in no form."""
    if not is_ended:
        return 'the last line has no line feed'
    words = lines[-1].decode(errors='replace').split(' ')
    steps = [it for it in lines[:-1] if it.split(b' ')[0] not in (b'tag', b'actor', b'cell')]
    forms = {'tag': 'tag NAME', 'actor': 'actor NAME LABEL [CAPS]', 'cell': 'cell NAME LABEL INT'}
    if words[0] in forms:
        return 'declarations stand before all steps' if steps else \
            f'the form is {forms[words[0]]}, with names that are declared before and once, and numbers without leading zeros'
    return 'the forms of a step are ACTOR read CELL, ACTOR write CELL INT and ACTOR copy FROM TO, with declared names'


# ---- worlds

def of_world(call, line):
    """Explains the refusal of a world document, the first of a call's that breaks."""
    said = (of_document(call, document, line) for document, _ in call.runs())
    return next((it for it in said if it is not None), [])


def of_other_file(call, name, text):
    """What stands at the place of a world and is none: a book, or a program."""
    if text.startswith('lam book 1'):
        book = dict(call.runs()).get(name)
        is_world = book and os.path.isfile(book) and runs.text_of(book).lstrip().startswith('{')
        more = f'; {printable.name(book)} is a world: the world stands before the book' if is_world else ''
        return f'{printable.name(name)} is a book, and stands in the place of a world{more}'
    if re.match(r'\s*(//|fn\b|class\b)', text):
        return f'{printable.name(name)} is a program, and stands in the place of a world: the program stands before it'
    return None


def of_document(call, name, line):
    """Explains the refusal of this document, or gives None where it is in order."""
    text = runs.text_of(name)
    other = of_other_file(call, name, text)
    if other:
        return [other]
    odd = re.search(r'[\udc80-\udcff]', text)
    if odd:
        shown = places.Place(text, odd.start()).shown(name)
        return [shown, 'a world document is UTF-8, and this byte is not']
    try:
        world.Start(text, world.functions_of(runs.codes.Code(runs.text_of(call.word('P')))))
    except world.Wrong as wrong:
        if f'lam: 4 {wrong.kind}' == line:
            place = places.Place(text, min(wrong.at, len(text))).shown(name)
            return [place, (f'{wrong.where}; ' if wrong.where else '') + f'wanted: {wrong.wanted}']
        return []
    return None


# ---- books

LINES = {
    'BadHead': 'a book begins with the line `lam book 1`',
    'BadLine': 'a line of a book is THREAD COUNT, two numbers without leading zeros and one blank, and ends with a line feed',
    'SameThread': 'the line has the thread of the line before: the turns of one stretch stand in one line',
    'TooMany': 'with this line the book has more than 1,000,000 turns',
}


def of_book(call, line):
    """Explains the refusal of a book, the first of a call's that breaks."""
    for document, name in call.runs():
        try:
            turns = world.turns_of(runs.text_of(name))
        except world.NoBook as broken:
            return of_broken(name, broken) if line == f'lam: 5 {broken.kind} line {broken.line}' else []
        run = call.run(document).take(turns)
        if run.stopped is not None:
            return of_stop(run, printable.name(name), 'this world' if call.word('W') else f'the world {printable.name(document)}')
    return []


def of_broken(name, broken):
    """Explains where the text of a book is none."""
    lines, name = runs.text_of(name).split('\n'), printable.name(name)
    text = lines[broken.line - 1] if broken.line <= len(lines) else ''
    if text.endswith('\r'):
        return [f'{name}: line {broken.line}', 'its lines end with a carriage return and a line feed, and those of a book with a line feed '
                'alone: another program has changed it']
    other = 'a world document' if lines[0].lstrip().startswith('{') else 'a program' if re.match(r'\s*(//|fn\b|class\b)', lines[0]) else None
    if other:
        return [f'{name} is {other}, and stands in the place of a book']
    return [f'{name}: line {broken.line}', f'  {printable.name(text[:100])}', LINES[broken.kind],
            f'is {name} a book that `lam run` wrote?']


def of_stop(run, name, its_world):
    """Explains at which turn a book cannot go on."""
    number, threads = run.stopped, run.world.threads
    if number >= len(threads):
        why = f'there is no thread t{number} at that turn: threads are numbered from 0, and there are {len(threads)}'
    elif threads[number].result:
        why = f't{number} ({run.called(number)}) has ended before that turn'
    else:
        why = f't{number} ({run.called(number)}) {run.waiting(number)}'
    return [why, f'is {name} the book of this program and {its_world}?']


def of_short_book(call):
    """Says that a book that was replayed ends while a thread lives."""
    turns = world.turns_of(runs.text_of(call.word('BOOK')))
    if len(turns) > MANY:
        return []
    run = call.run().take(turns)
    if not run.world.lives():
        return []
    return [f'the book ends while {counted(len(run.world.lives()))}: what is printed is the beginning of a run',
            SEES_ALL, *standing(run, observer_of(call, run))]


# ---- files

def counted(number):
    return 'a thread lives' if number == 1 else f'{number} threads live'


def of_missing(call, line):
    kind, name = of_form(r'lam: 6 (\w+) (.*)', line).groups()
    role = dict(reversed(call.files())).get(name, 'a file')
    if kind == 'TooLong':
        limit = '1,048,576' if role in ('the program', 'the script') else '16,777,216'
        return [f'{printable.name(name)}, {role}, is longer than its limit of {limit} bytes']
    folder, base = os.path.split(name)
    if folder and not os.path.isdir(folder):
        return [f'{role} is not there: there is no folder {printable.name(folder)}']
    near = difflib.get_close_matches(base, os.listdir(folder or '.'), 1)
    more = f'; did you mean {printable.name(os.path.join(folder, near[0]))}?' if near else ''
    return [f'{role} is not there{more}']


def is_circle(name):
    """Whether the links of a name lead to themselves."""
    try:
        os.stat(name)
    except OSError as fault:
        return fault.errno == errno.ELOOP
    return False


def not_written(name):
    """Why a file could not be written."""
    if is_circle(name):
        return 'its links lead in a circle'
    folder = os.path.dirname(name) or '.'
    if not os.path.isdir(folder):
        return 'there is no such folder'
    if os.path.isdir(name):
        return 'it is a folder'
    return 'writing failed' if os.access(name if os.path.exists(name) else folder, os.W_OK) else 'it may not be written'


def of_shelf(call):
    """Which file could not be read or written."""
    for name, role in call.files():
        shown = printable.name(name)
        if role in WRITTEN:
            return [f'{shown}, {role}, could not be written: {not_written(name)}']
        if os.path.isdir(name) or not os.access(name, os.R_OK):
            why = 'it is a folder' if os.path.isdir(name) else 'its links lead in a circle' if is_circle(name) else 'it may not be read'
            return [f'{shown}, {role}, could not be read: {why}']
    return ['a file could not be read or written']


# ---- runs that did not end

SEES_ALL = 'from the book, which is for who may see all:'


def observer_of(call, run):
    """The observer's label; an audit has none, since it tells all."""
    if not call.word('OBS'):
        return None
    return call.label(run, call.word('OBS'))


def standing(run, observer):
    """Lines for each thread that lives: where it stands, and for whom it waits or what it asked last.

    What was asked and answered at a label that the observer does not see is left out."""
    said = []
    for thread in run.world.lives():
        number, label = thread.number, thread.context.label
        last = run.last.get(number)
        if observer is not None and not runs.machine.flows(label, observer):
            what = f'at {run.texts.label(label)}'
        elif run.waiting(number):
            what = run.waiting(number)
        elif last and (observer is None or runs.machine.flows(last.label, observer)):
            what = f'last asked {shortened(last.words)} = {shortened(last.answer)}'
        else:
            what = f'at {run.texts.label(label)}'
        said.append(f'  t{number} ({run.called(number)}), {thread.turns} turns, {what}')
        said.append(f'    {run.now_at(number)}')
    return said


def shortened(text):
    return text if len(text) <= 60 else f'{text[:57]}..'


def last_turns(turns):
    """Who took the last turns, of the last hundred."""
    turns = turns[-100:]
    counts = {thread: turns.count(thread) for thread in dict.fromkeys(reversed(turns))}
    return f'  of the last {len(turns)} turns ' + ', '.join(f't{thread} took {count}' for thread, count in counts.items())


def of_unended(call, status):
    if not call.word('P'):
        return ['all 1,000,000 turns are used up' if status == BUDGET else 'no thread that lives can go on']
    if not os.path.isfile(call.word('BOOKOUT')):
        return ['all turns are used up' if status == BUDGET else 'no thread that lives can go on']
    turns = world.turns_of(runs.text_of(call.word('BOOKOUT')))
    if len(turns) > MANY:
        head = f'all {len(turns)} turns are used up' if status == BUDGET else 'no thread that lives can go on'
        return [head, SEES_ALL, last_turns(turns)]
    run = call.run().take(turns)
    lines = standing(run, observer_of(call, run))
    if status == WAITING:
        return ['no thread that lives can go on: they wait for each other', SEES_ALL, *lines]
    head = f'all {run.world.turn} turns are used up and {counted(len(run.world.lives()))}'
    return [f'{head}; --turns N gives more, up to 1000000', SEES_ALL, *lines, last_turns(turns)]


def of_closed(call, status):
    """How a closed run ended that did not come to its end: in which region it is held up, or for whom its threads wait."""
    if not os.path.isfile(call.word('BOOKOUT')):
        return []
    turns = world.turns_of(runs.text_of(call.word('BOOKOUT')))
    run = call.run()
    base = call.label(run, call.words[call.words.index('--base') + 1]) if '--base' in call.words else runs.machine.PUBLIC
    last = next((at for at in range(len(turns) - 1, -1, -1) if turns[at] != turns[-1]), -1) + 1     # where the last stretch begins
    if last > MANY:
        return []
    run.take(turns[:last + MANY // 4])
    number = turns[-1] if turns else 0
    if status == OVER and not closed.is_inside(run.world, number, base):
        return [f'all 1,000,000 turns are used up, and {counted(len(run.world.lives()))}']
    if status in (STALLED, OVER):
        return held_up(run, number, base, status, len(turns) - last)
    observer = observer_of(call, run)
    if status == WAITING:
        return ['no thread that lives can go on: they wait for each other', SEES_ALL, *standing(run, observer)]
    return [f'all open turns are used up and {counted(len(run.world.lives()))}; --turns N gives more, up to 1000000', SEES_ALL,
            *standing(run, observer)]


def held_up(run, number, base, status, stretch):
    """In which region a thread stays, and why."""
    thread = run.world.threads[number]
    first = next(at for at, it in enumerate(thread.contexts) if not runs.machine.flows(it.label, base))
    entry = thread.contexts[first - 1].frame
    where = f't{number} ({run.called(number)}) is in the region at {run.texts.label(thread.contexts[first].label)} of ' \
            f'{run.line_of(entry.unit, entry.at - 1)}'
    why = f'it {run.waiting(number)}, at {run.now_at(number)}' if status == STALLED else \
        f'it does not come out: all 1,000,000 turns are used up, its own {stretch} last, near {run.now_at(number)}'
    return [SEES_ALL, where, why, 'by the closed schedule no other thread runs until it is out of its region',
            'wait before the region: who has done its part raises a public flag after its own region, and who needs it enters then']


def of_pair(call):
    """What it can mean that two runs differ."""
    answer = runs.printed(call.program, *call.words).strip()
    if not re.match('(turns|releases) differ ', answer):
        return []
    both, agendas = [], []
    for document, book in call.runs():
        turns = world.turns_of(runs.text_of(book))
        if len(turns) > MANY:
            return []
        both.append(call.run(document))
        agendas.append(pairs.agenda(both[-1], turns, observer_of(call, both[-1])))
    return pairs.lines(both, agendas)


def read_once(call):
    """The first input of a call that cannot be read a second time: a pipe, or another thing that is no file."""
    return next((name for name, role in call.files() if role not in WRITTEN and os.path.exists(name)
                 and not os.path.isfile(name) and not os.path.isdir(name)), None)


REFUSALS = {WORDS: of_words, PROGRAM: of_program, WORLD: of_world, BOOK: of_book, MISSING: of_missing}


def explained(program, status, words, is_closed=False):
    call = Call(program, words, is_closed)
    if read_once(call):
        return [] if status == DONE else [f'{printable.name(read_once(call))} can be read only once, so there is no more to say']
    if status in REFUSALS:
        return REFUSALS[status](call, runs.printed(program, *words).rstrip('\n'))
    if is_closed and status in (BUDGET, WAITING, STALLED, OVER):
        return of_closed(call, status)
    if status in (BUDGET, WAITING):
        return of_unended(call, status)
    if status == DONE and call.form[:1] == ['pair']:
        return of_pair(call)
    if status == DONE:
        return of_short_book(call) if call.word('BOOK') and not is_closed else []
    if status == OUTPUT:
        written = '; the book is written' if call.word('BOOKOUT') else ''
        return [f'the output could not be written to its end{written}']
    return {SHELF: of_shelf(call), NO_MEMORY: ['memory ran out; nothing is printed']}.get(status, [])


def main():
    is_closed, given = sys.argv[1:2] == ['--closed'], sys.argv[1:]
    given = given[1:] if is_closed else given
    if len(given) < 2 or not given[1].isdigit():
        return __doc__
    program, status, *words = given
    try:
        said = explained(program, int(status), words, is_closed)
    except (OSError, runs.NotToRun, ValueError, RecursionError):
        return 0        # there is nothing more to say
    if said:
        last_catch.say('\n'.join(said))
    return 0


if __name__ == '__main__':
    last_catch.run(main)
