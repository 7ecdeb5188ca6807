#!/usr/bin/env python3
"""Makes a world document from a short text, and checks one against a program.

Usage: tools/world.py make SHORT            prints the world document of a short text
       tools/world.py short WORLD           prints the short text of a world document
       tools/world.py check WORLD PROGRAM   says `ok`, or what is wrong, with the line of each fault
       tools/world.py files WORLD FOLDER    writes the files of a world into a new folder, and an index with their labels
       tools/world.py pack FOLDER           prints the short text of such a folder, its files as they are now
       tools/world.py --help                prints this
Each takes `--set NAME=VALUE`, again and again, and `--json`; `files` and `pack` do not.

WORLD is a document or a short text: a document begins with `{`. A short text has a line for each thing:

    # Ann's notes, and a thread that may read them
    tag ann
    tag vetted integrity
    dir notes {}/{}
    file notes/diary {ann}/{} "Monday: sun\\n"
    file notes/photo {ann}/{} < photo.txt
    pipe out {}/{}
    thread main(ann, out, 3, true, "some text") +{ann}-{}

A tag has the kind that stands behind its name, `read`, `export` or `integrity`, and else `read`; where one has another
kind than `read`, the document is of version 2. Tags are numbered as they come, and so are threads, files and pipes. A
directory stands before what is in it. A text is written as in JSON, or taken from a file beside the short text. An argument
is a number, `true`, `false`, a text, or the name of a tag or a pipe; where a tag and a pipe have one name it is written
`tag:NAME` or `pipe:NAME`. A thread without capabilities may leave out `+{}-{}`. Empty lines, and what follows `#` at a
line's beginning, are left out.

What `lam next` writes is of version 3: each file and directory has the label of its maker and a number, and each pair of
labels has made a number of them. A short text has these too, and contents that are no UTF-8 as digits:

    count {}/{} {}/{} 4
    dir notes {}/{} {}/{} 3
    file notes/photo {ann}/{} {}/{} 0 hex 89504e47

A document is of version 3 where there is such a line, or where a content is no UTF-8. Files and directories without a maker
and a number are numbered as they come.

`files` makes FOLDER/index, the short text in which each content is `< files/PATH`, and the files themselves below
FOLDER/files. `pack` takes that index, with the files as they are then. A file that the index does not name needs a label: a
line of its own there, or a line `below PATH LABEL`, which gives one to all that is new in a directory (`.` is the whole).

`check` looks at the form of the world, at the names of tags, directories and pipes, and at each thread: that its function
is there, gives an int, and takes arguments of these kinds. `lam check` says whether the program itself is in order.

A text may be a template. A line `hole NAME` of a short text, or `hole NAME VALUE`, declares a hole, and `${NAME}` stands
where its value goes, between `"` and `"` or outside. `--set NAME=VALUE` gives the value in place of the one of the line:

    hole alice 0110
    file cal/alice {a}/{} "${alice}"

So two worlds differ in a secret by one word of the call. In a document the holes are those that `--set` names.

With `--json`, faults are printed as `{"ok": false, "faults": [{"line": 3, "text": ".."}]}`, `check` prints `{"ok": true,
"faults": []}`, and `short` the tags, items, pipes and threads, each with its line."""
from lam_source import early    # pylint: disable=unused-import,wrong-import-order
import collections
import difflib
import json
import os
import re
import sys

from lam_source import folders, holes, last_catch, printable

NAME = re.compile(r'[A-Za-z][A-Za-z0-9_]{0,31}')
LABEL = re.compile(r'\{([^{}]*)\}/\{([^{}]*)\}')
CAPS = re.compile(r'\+\{([^{}]*)\}-\{([^{}]*)\}')
KINDS = {'int': 'int', 'bool': 'bool', 'bytes': 'text', 'tag': 'tag', 'pipe': 'pipe'}    # of an argument, by its type
PLAINLY = {'int': 'a number', 'bool': 'true or false', 'text': 'a text', 'tag': 'a tag', 'pipe': 'a pipe'}
TEXT_LIMIT, ARGUMENT_LIMIT = 1048576, 65536
WHOLE = re.compile(r'-?(0|[1-9][0-9]*)')
HEX = re.compile('([0-9a-f]{2})*')
HALF = re.compile('[\ud800-\udfff]')

TAG_KINDS = ('read', 'export', 'integrity')

Tag = collections.namedtuple('Tag', 'line name kind')
Label = collections.namedtuple('Label', 'secrecy integrity')
# A directory has the text None; a content that is no UTF-8 is bytes. A name of version 3 has a maker's label and a number.
Item = collections.namedtuple('Item', 'line path label text maker number', defaults=(None, None))
Count = collections.namedtuple('Count', 'line maker own next')         # how many files and directories a home has made
Pipe = collections.namedtuple('Pipe', 'line name label')
Argument = collections.namedtuple('Argument', 'line kind value')
Thread = collections.namedtuple('Thread', 'line run arguments plus minus')
Function = collections.namedtuple('Function', 'line parameters result')


class World:
    """What a world has, each thing with its line, and the faults that were found."""

    def __init__(self, path):
        self.path, self.tags, self.items, self.pipes, self.threads, self.faults = path, [], [], [], [], []
        self.counts, self.below = [], []        # of version 3; the labels of what is new in a directory of `pack`

    @property
    def is_saved(self):
        """Whether the document is of version 3."""
        return bool(self.counts) or any(it.maker or isinstance(it.text, bytes) for it in self.items)

    def fault(self, line, text):
        self.faults.append((line, text))


def like(name, names):
    """A name that may have been meant."""
    found = difflib.get_close_matches(name, names, 1)
    return f'; did you mean `{found[0]}`?' if found else ''


def tag_list(text):
    return [name for name in text.split(',')] if text else []


# ---- a short text

def content_of(data):
    """A content of bytes: a text where it is UTF-8."""
    try:
        return data.decode('utf-8')
    except UnicodeDecodeError:
        return data


def take_content(world, line, rest):
    """The content of a file: a text as in JSON, digits, or that of a file."""
    if rest.startswith('<'):
        path = os.path.join(os.path.dirname(world.path), rest[1:].strip())
        try:
            with open(path, 'rb') as content:
                return content_of(content.read(TEXT_LIMIT + 1))
        except (OSError, ValueError) as error:
            why = error.strerror if isinstance(error, OSError) and error.strerror else error
            world.fault(line, f'the file {path} cannot be taken: {why}')
            return ''
    word, _, digits = rest.partition(' ')
    if word != 'hex':
        return take_text(world, line, rest)
    if not HEX.fullmatch(digits):
        world.fault(line, 'after `hex` stands an even number of digits 0 to 9 and a to f')
        return ''
    return content_of(bytes.fromhex(digits))


def take_text(world, line, rest):
    """A text as in JSON."""
    try:
        value = json.loads(rest)
    except ValueError:
        value = None
    if isinstance(value, str) and HALF.search(value):
        world.fault(line, r'in this text escapes from \ud800 to \udfff do not come in pairs')
        return ''
    if not isinstance(value, str):
        world.fault(line, f'a text stands between `"` and `"`, as in JSON, or comes from a file by `< FILE`; here is `{rest}`')
        return ''
    return value


def short_label(world, line, word):
    found = LABEL.fullmatch(word)
    if not found:
        world.fault(line, f'`{word}` is no label: one is written {{SECRECY}}/{{INTEGRITY}}, as {{ann,bob}}/{{}}, without blanks')
        return Label([], [])
    return Label(tag_list(found[1]), tag_list(found[2]))


def split_arguments(text):
    """The arguments between the parentheses, by commas outside of texts."""
    return [part.strip() for part in re.findall(r'\s*((?:"(?:\\.|[^"\\])*"|[^,"])+)', text)]


def small(digits):
    """A whole number, where it has 64 bits, and else one that has more."""
    return int(digits) if len(digits) < 40 else 10 ** 40


def short_argument(world, line, word):
    kind, colon, name = word.partition(':')
    if colon and kind in ('tag', 'pipe') and NAME.fullmatch(name):
        return Argument(line, kind, name)
    if WHOLE.fullmatch(word) and word != '-0':
        return Argument(line, 'int', small(word))
    if word in ('true', 'false'):
        return Argument(line, 'bool', word == 'true')
    if word.startswith('"'):
        return Argument(line, 'text', take_text(world, line, word))
    return Argument(line, 'name', word)


def read_thread(world, line, rest):
    found = re.fullmatch(r'(\w+)\s*\((.*)\)\s*(\S*)', rest)
    if not found:
        world.fault(line, 'a thread is written `thread FUNCTION(ARGUMENTS) +{PLUS}-{MINUS}`')
        return
    caps = CAPS.fullmatch(found[3] or '+{}-{}')
    if not caps:
        world.fault(line, f'`{found[3]}` is no list of capabilities: one is written +{{PLUS}}-{{MINUS}}, as +{{ann}}-{{}}')
        return
    arguments = [short_argument(world, line, word) for word in split_arguments(found[2])]
    world.threads.append(Thread(line, found[1], arguments, tag_list(caps[1]), tag_list(caps[2])))


def short_item(world, line, word, path, label, rest):
    """A `dir` or `file` line: its path, its label, the maker and the number of version 3, and a content."""
    named = re.match(r'(\{[^{} ]*\}/\{[^{} ]*\}) +(\d+)(?: +|$)', rest)
    maker, number = (short_label(world, line, named[1]), small(named[2])) if named else (None, None)
    rest = rest[named.end():] if named else rest
    if bool(rest) != (word == 'file'):
        form = {'dir': 'PATH LABEL', 'file': 'PATH LABEL "TEXT"'}[word]
        world.fault(line, f'this line is written `{word} {form}`')
        return
    content = take_content(world, line, rest) if rest else None
    world.items.append(Item(line, path, short_label(world, line, label), content, maker, number))


def read_short(path, text):
    world = World(path)
    for line, words in enumerate(text.split('\n'), 1):
        words = words.strip()
        if not words or words.startswith('#'):
            continue
        word, first, second, third = (words.split(None, 3) + [''] * 3)[:4]
        if word == 'tag' and first and not third and (second or 'read') in TAG_KINDS:
            world.tags.append(Tag(line, first, second or 'read'))
        elif word in ('dir', 'file') and second:
            short_item(world, line, word, first, second, third)
        elif word == 'pipe' and second and not third:
            world.pipes.append(Pipe(line, first, short_label(world, line, second)))
        elif word == 'thread':
            read_thread(world, line, words[len('thread'):].strip())
        elif word == 'count' and third.isascii() and third.isdigit():
            world.counts.append(Count(line, short_label(world, line, first), short_label(world, line, second), small(third)))
        elif word == 'below' and second and not third:
            world.below.append((line, first, short_label(world, line, second)))
        elif word in FORMS_OF_LINES:
            world.fault(line, f'this line is written `{word} {FORMS_OF_LINES[word]}`')
        else:
            world.fault(line, f'a line begins with tag, dir, file, pipe or thread, and not with `{word}`')
    return world


FORMS_OF_LINES = {'tag': 'NAME KIND` or `tag NAME', 'dir': 'PATH LABEL', 'file': 'PATH LABEL "TEXT"', 'pipe': 'NAME LABEL',
                  'count': 'MAKER OWN NUMBER', 'below': 'PATH LABEL'}


# ---- a document, with the line of each value

Node = collections.namedtuple('Node', 'line value')     # of an object a dict of nodes, of a list a list of nodes


class Broken(Exception):
    """The text is no JSON: the line, and why."""


def no_constant(word):
    raise ValueError(f'`{word}` is no JSON')


class Reader:
    """Reads JSON, and notes where each value begins."""

    def __init__(self, text):
        self.text, self.at, self.line, self.counted = text, 0, 1, 0
        self.decoder = json.JSONDecoder(parse_constant=no_constant, parse_int=small)

    def skip(self):
        """Goes past white space, and gives the line."""
        while self.text[self.at:self.at + 1] in (' ', '\n', '\r', '\t'):
            self.at += 1
        self.line += self.text.count('\n', self.counted, self.at)
        self.counted = self.at
        return self.line

    def sees(self, mark):
        self.skip()
        found = self.text.startswith(mark, self.at)
        self.at += len(mark) if found else 0
        return found

    def missing(self, what):
        found = f'`{self.text[self.at]}`' if self.at < len(self.text) else 'the end'
        raise Broken(self.skip(), f'this is no JSON: here should be {what}, and is {found}')

    def needs(self, mark):
        if not self.sees(mark):
            self.missing(f'`{mark}`')

    def plain(self):
        """A number, a text or a word."""
        line = self.skip()
        try:
            value, self.at = self.decoder.raw_decode(self.text, self.at)
        except ValueError as error:
            raise Broken(line, f'this is no JSON: {error}') from error
        if isinstance(value, str) and HALF.search(value):
            raise Broken(line, r'this is no JSON: escapes from \ud800 to \udfff do not come in pairs')
        return value

    def listed(self, end, one):
        """What `one` reads, again and again with commas between, up to the end's mark."""
        if self.sees(end):
            return
        one()
        while self.sees(','):
            one()
        self.needs(end)

    def value(self):
        line = self.skip()
        if self.sees('{'):
            members = {}

            def member():
                if self.skip() and not self.text.startswith('"', self.at):
                    self.missing("a member's name in `\"`")
                name = self.plain()
                self.needs(':')
                members[name] = self.value()
            self.listed('}', member)
            return Node(line, members)
        if self.sees('['):
            items = []
            self.listed(']', lambda: items.append(self.value()))
            return Node(line, items)
        return Node(line, self.plain())

    def whole(self):
        value = self.value()
        line = self.skip()
        if self.at < len(self.text):
            raise Broken(line, f'this is no JSON: after the end stands `{self.text[self.at]}`')
        return value


def is_whole(value):
    return isinstance(value, int) and not isinstance(value, bool)


FORMS = {str: 'a text', list: 'a list', dict: 'an object', bool: 'true or false', int: 'a whole number'}


def has_form(value, form):
    return is_whole(value) if form is int else isinstance(value, form)


def member(world, node, name, form):
    """The member of an object, where it is there and of the form; None, with a fault, where it is not."""
    found = node.value.get(name)
    if found is None:
        world.fault(node.line, f'the member `{name}` is not there')
    elif not has_form(found.value, form):
        world.fault(found.line, f'`{name}` is to be {FORMS[form]}')
    else:
        return found
    return None


def objects(world, node, name):
    """The items of a list, each of which is an object."""
    found = member(world, node, name, list)
    for item in found.value if found else []:
        if isinstance(item.value, dict):
            yield item
        else:
            world.fault(item.line, f'an item of `{name}` is to be an object')


def texts(world, node, name):
    found = member(world, node, name, list)
    for item in found.value if found else []:
        if isinstance(item.value, str):
            yield item
        else:
            world.fault(item.line, f'an item of `{name}` is to be a text')


def plain_tags(world, node):
    for item in texts(world, node, 'tags'):
        yield Tag(item.line, item.value, 'read')


def kinded_tags(world, node):
    for item in objects(world, node, 'tags'):
        name, kind = member(world, item, 'name', str), member(world, item, 'kind', str)
        if kind and kind.value not in TAG_KINDS:
            world.fault(kind.line, f'`kind` is to be one of {", ".join(TAG_KINDS)}')
        if name:
            yield Tag(item.line, name.value, kind.value if kind else 'read')


def document_label(world, node, name='label'):
    found = member(world, node, name, str)
    return short_label(world, found.line, found.value) if found else Label([], [])


def document_count(world, node):
    maker, own = document_label(world, node, 'maker'), document_label(world, node, 'own')
    number = member(world, node, 'next', int)
    if number:
        world.counts.append(Count(node.line, maker, own, number.value))


def document_content(world, node, name):
    """The content of a file, or None of a directory: a text, or the digits of version 3."""
    is_dir = node.value.get('dir')
    if is_dir is not None and name not in node.value:
        if is_dir.value is not True:
            world.fault(is_dir.line, '`dir` is to be true')
        return None
    content = member(world, node, name, str)
    if is_dir is not None:
        world.fault(node.line, f'an item has `dir` or `{name}`, and not both')
    if content and name == 'hex' and not HEX.fullmatch(content.value):
        world.fault(content.line, '`hex` is to be an even number of digits 0 to 9 and a to f')
        return None
    return content and (content_of(bytes.fromhex(content.value)) if name == 'hex' else content.value)


def document_item(world, node, is_saved):
    path, label = member(world, node, 'path', str), document_label(world, node)
    maker, number = (document_label(world, node, 'maker'), member(world, node, 'number', int)) if is_saved else (None, None)
    content = document_content(world, node, 'hex' if is_saved else 'text')
    if path and (number or not is_saved):
        world.items.append(Item(node.line, path.value, label, content, maker, number and number.value))


ARGUMENTS = {'int': int, 'bool': bool, 'text': str, 'tag': str, 'pipe': str}


def document_argument(world, node):
    named = [name for name in ARGUMENTS if name in node.value]
    if len(named) != 1:
        world.fault(node.line, 'an argument has exactly one of `int`, `bool`, `text`, `tag`, `pipe`')
        return Argument(node.line, 'none', None)
    found = member(world, node, named[0], ARGUMENTS[named[0]])
    return Argument(node.line, named[0] if found else 'none', found.value if found else None)


def document_thread(world, node):
    run, caps = member(world, node, 'run', str), None
    arguments = [document_argument(world, item) for item in objects(world, node, 'args')]
    caps = member(world, node, 'caps', dict)
    plus, minus = ([item.value for item in texts(world, caps, name)] if caps else [] for name in ('plus', 'minus'))
    if run:
        world.threads.append(Thread(node.line, run.value, arguments, plus, minus))


def read_document(path, text):
    world = World(path)
    try:
        node = Reader(text).whole()
    except Broken as broken:
        world.fault(*broken.args)
        return world
    except RecursionError:
        world.fault(1, 'objects and lists stand too deep in one another')
        return world
    version = member(world, node, 'version', int)
    if version and version.value not in (1, 2, 3):
        world.fault(version.line, '`version` is to be 1, 2 or 3')
    world.tags = list((kinded_tags if version and version.value in (2, 3) else plain_tags)(world, node))
    is_saved = bool(version) and version.value == 3
    for item in objects(world, node, 'counts') if is_saved else ():
        document_count(world, item)
    for item in objects(world, node, 'tree'):
        document_item(world, item, is_saved)
    for item in objects(world, node, 'pipes'):
        name, label = member(world, item, 'name', str), document_label(world, item)
        if name:
            world.pipes.append(Pipe(item.line, name.value, label))
    for item in objects(world, node, 'threads'):
        document_thread(world, item)
    return world


# ---- what is wrong with a world

def look_at_tags(world):
    seen = {}
    for line, name, _ in world.tags:
        if not NAME.fullmatch(name):
            world.fault(line, f'`{name}` is no tag name: a letter and up to 31 letters, digits or `_`')
        if name in seen:
            world.fault(line, f'the tag `{name}` stands in line {seen[name]} already')
        seen.setdefault(name, line)
    if len(world.tags) > 65536:
        world.fault(world.tags[65536].line, 'a world has at most 65,536 tags')
    return set(seen)


def look_for_tags(world, line, names, tags):
    for name in names:
        if name not in tags:
            world.fault(line, f'there is no tag `{name}`{like(name, tags)}')


def look_at_label(world, thing, tags):
    look_for_tags(world, thing.line, thing.label.secrecy + thing.label.integrity, tags)


def is_entry(name):
    return 1 <= len(name.encode()) <= 255 and '\0' not in name and name not in ('.', '..')


def home_of(label):
    return frozenset(label.secrecy), frozenset(label.integrity)


ROOT = (home_of(Label([], [])),) * 2       # the home that has made the root


def look_at_path(world, item, dirs, seen):
    folder, _, _ = item.path.rpartition('/')
    if not all(is_entry(name) for name in item.path.split('/')):
        world.fault(item.line, f'`{item.path}` is no path: names joined by `/`, none empty, `.` or `..`')
    elif item.path in seen:
        world.fault(item.line, f'the path `{item.path}` stands in line {seen[item.path]} already')
    elif folder not in dirs:
        world.fault(item.line, f'there is no directory `{folder}` before this line{like(folder, dirs)}')
    seen.setdefault(item.path, item.line)
    return folder


def look_at_items(world, tags):
    dirs, seen, entries, homes = {''}, {}, collections.Counter(), collections.Counter({ROOT[0]: 1})
    for item in world.items:
        look_at_label(world, item, tags)
        folder = look_at_path(world, item, dirs, seen)
        entries[folder] += 1
        homes[home_of(item.label)] += 1
        if entries[folder] > 4096:
            world.fault(item.line, 'a directory has at most 4,096 entries')
        if homes[home_of(item.label)] > 65536 and not item.maker:
            world.fault(item.line, 'at most 65,536 files and directories have one label')
        if item.text is None:
            dirs.add(item.path)
        elif size_of(item.text) > TEXT_LIMIT:
            world.fault(item.line, 'a file has at most 1,048,576 bytes')
    look_at_names(world, tags)


def size_of(content):
    return len(content if isinstance(content, bytes) else content.encode('utf-8', 'surrogatepass'))


def look_at_names(world, tags):
    """The counts of homes, and the names of version 3, none of which two things have."""
    following, names = {}, {(ROOT, 0)}
    for count in world.counts:
        home = home_of(count.maker), home_of(count.own)
        look_for_tags(world, count.line, [name for label in (count.maker, count.own) for side in label for name in side], tags)
        if home in following:
            world.fault(count.line, 'this home stands in a line before already')
        if not 1 <= count.next <= 65536:
            world.fault(count.line, 'a home has made 1 to 65,536 files and directories')
        following[home] = count.next
    if world.counts and ROOT not in following:
        world.fault(world.counts[0].line, 'the home {}/{} {}/{} is not among the counts: it has made the root')
    for item in world.items:
        if not item.maker:
            continue
        home = home_of(item.maker), home_of(item.label)
        look_for_tags(world, item.line, item.maker.secrecy + item.maker.integrity, tags)
        if item.number >= following.get(home, 0):
            world.fault(item.line, f'the home {label_text(item.maker)} {label_text(item.label)} has made no number {item.number}')
        elif (home, item.number) in names:
            world.fault(item.line, f'the root or a line before has the number {item.number} of this home')
        names.add((home, item.number))


def numbered(world):
    """The items and the counts of version 3: what has no number gets the next one of its home."""
    following = {(home_of(it.maker), home_of(it.own)): it for it in world.counts}
    following.setdefault(ROOT, Count(0, Label([], []), Label([], []), 1))
    items = []
    for item in world.items:
        if not item.maker:
            home = (home_of(item.label),) * 2
            count = following.get(home) or Count(0, item.label, item.label, 0)
            following[home] = count._replace(next=count.next + 1)
            item = item._replace(maker=item.label, number=count.next)
        items.append(item)
    return items, list(following.values())


def look_at_pipes(world, tags):
    seen, homes = {}, collections.Counter()
    for pipe in world.pipes:
        look_at_label(world, pipe, tags)
        if pipe.name in seen:
            world.fault(pipe.line, f'the pipe `{pipe.name}` stands in line {seen[pipe.name]} already')
        seen.setdefault(pipe.name, pipe.line)
        home = frozenset(pipe.label.secrecy), frozenset(pipe.label.integrity)
        homes[home] += 1
        if homes[home] > 4096:
            world.fault(pipe.line, 'at most 4,096 pipes have one label')
    return set(seen)


def settled(world, argument, tags, pipes):
    """An argument whose bare name is that of a tag or of a pipe."""
    line, kind, value = argument
    if kind == 'tag':
        look_for_tags(world, line, [value], tags)
    elif kind == 'pipe' and value not in pipes:
        world.fault(line, f'there is no pipe `{value}`{like(value, pipes)}')
    elif kind == 'int' and not -2**63 <= value < 2**63:
        world.fault(line, 'this number has more than 64 bits')
    elif kind == 'text' and len(value.encode('utf-8', 'surrogatepass')) > ARGUMENT_LIMIT:
        world.fault(line, 'a text as an argument has at most 65,536 bytes')
    elif kind == 'name' and value in tags and value in pipes:
        world.fault(line, f'`{value}` is a tag and a pipe: write `tag:{value}` or `pipe:{value}`')
    elif kind == 'name' and (value in tags or value in pipes):
        return Argument(line, 'tag' if value in tags else 'pipe', value)
    elif kind == 'name':
        world.fault(line, f'`{value}` is no tag and no pipe, and a text stands between `"` and `"`{like(value, tags | pipes)}')
    return argument


def look_at(world):
    """Finds the faults of a world, and settles what its arguments are."""
    tags = look_at_tags(world)
    look_at_items(world, tags)
    pipes = look_at_pipes(world, tags)
    if not world.faults and not 1 <= len(world.threads) <= 64:
        world.fault(world.threads[64].line if world.threads else 1, f'a world has 1 to 64 threads, and not {len(world.threads)}')
    for place, thread in enumerate(world.threads):
        look_for_tags(world, thread.line, thread.plus + thread.minus, tags)
        arguments = [settled(world, argument, tags, pipes) for argument in thread.arguments]
        world.threads[place] = thread._replace(arguments=arguments)


# ---- a program's functions

TOKEN = re.compile(r'//[^\n]*|"(?:\\.|[^"\\\n])*"|\w+|\S')


def functions_of(text):
    """The functions of a program by their names, as far as the text looks like one."""
    tokens = [(found[0], found.start()) for found in TOKEN.finditer(text) if not found[0].startswith('//')]
    words, found, at = [word for word, _ in tokens], {}, 0
    while at < len(words):
        if words[at] == 'fn' and at + 2 < len(words) and words[at + 2] == '(':
            name, line = words[at + 1], text.count('\n', 0, tokens[at][1]) + 1
            close = next((n for n in range(at, len(words)) if words[n] == ')'), len(words))
            types = re.findall(r'\w+ : ([^,]+)', ' '.join(words[at + 3:close]))
            end = next((n for n in range(close, len(words)) if words[n] == '{'), len(words))
            result = ''.join(words[close + 2:end]) if words[close + 1:close + 2] == [':'] else None
            found[name] = Function(line, [kind.replace(' ', '') for kind in types], result)
            at = end
        at += 1
    return found


def look_at_arguments(world, place, thread, function, program):
    where = f'thread {place}, `{thread.run}` (line {function.line} of {program})'
    if function.result != 'int':
        gives = f'gives {function.result}' if function.result else 'has no result'
        world.fault(thread.line, f'{where}: a thread runs a function whose result is int, and this one {gives}')
    wanted = function.parameters
    if len(thread.arguments) != len(wanted):
        world.fault(thread.line, f'{where}: it takes {len(wanted)} arguments ({", ".join(wanted)}); here are {len(thread.arguments)}')
    for number, (argument, kind) in enumerate(zip(thread.arguments, wanted), 1):
        if kind not in KINDS:
            world.fault(argument.line, f'{where}: parameter {number} is of type {kind}, and a thread is given only int, bool, bytes, tag and pipe')
        elif argument.kind not in (KINDS[kind], 'none', 'name'):
            world.fault(argument.line, f'{where}: argument {number} is to be {PLAINLY[KINDS[kind]]}, and is {PLAINLY[argument.kind]}')


def look_with(world, program):
    with open(program, encoding='utf-8') as lines:
        functions = functions_of(lines.read())
    for place, thread in enumerate(world.threads):
        function = functions.get(thread.run)
        if function:
            look_at_arguments(world, place, thread, function, program)
        else:
            world.fault(thread.line, f'thread {place}: {program} has no function `{thread.run}`{like(thread.run, functions)}')


# ---- what is printed

def label_text(label):
    return f'{{{",".join(label.secrecy)}}}/{{{",".join(label.integrity)}}}'


def json_of(value):
    """A value as JSON, in which no character steers a terminal."""
    return printable.ODD.sub(lambda found: f'\\u{ord(found[0]):04x}', json.dumps(value, ensure_ascii=False))


def listed(name, items):
    if not items:
        return f'  "{name}": []'
    lines = ',\n'.join(f'    {json_of(item)}' for item in items)
    return f'  "{name}": [\n{lines}\n  ]'


def document_tags(world):
    """The members `version` and `tags`: of version 1 where every tag is of the kind `read`."""
    if all(tag.kind == 'read' for tag in world.tags) and not world.is_saved:
        return '  "version": 1', f'  "tags": {json.dumps([tag.name for tag in world.tags])}'
    return f'  "version": {3 if world.is_saved else 2}', listed('tags', [{'name': tag.name, 'kind': tag.kind} for tag in world.tags])


def bytes_of(content):
    return content if isinstance(content, bytes) else content.encode()


def count_of(it):
    return {'maker': label_text(it.maker), 'own': label_text(it.own), 'next': it.next}


def document_of(world):
    items, counts = numbered(world) if world.is_saved else (world.items, [])

    def item(it):
        content = {'dir': True} if it.text is None else {'hex': bytes_of(it.text).hex()} if world.is_saved else {'text': it.text}
        name = {'maker': label_text(it.maker), 'number': it.number} if world.is_saved else {}
        return {'path': it.path, 'label': label_text(it.label), **name, **content}

    def thread(it):
        return {'run': it.run, 'args': [{argument.kind: argument.value} for argument in it.arguments],
                'caps': {'plus': it.plus, 'minus': it.minus}}
    return '{\n' + ',\n'.join((
        *document_tags(world),
        *([listed('counts', [count_of(it) for it in counts])] if counts else []),
        listed('tree', [item(it) for it in items]),
        listed('pipes', [{'name': it.name, 'label': label_text(it.label)} for it in world.pipes]),
        listed('threads', [thread(it) for it in world.threads]))) + '\n}'


def content_words(it):
    """The content of a file in a short text."""
    return f'hex {it.text.hex()}' if isinstance(it.text, bytes) else json_of(it.text)


def short_of(world, content_of_item=content_words):
    both = {tag.name for tag in world.tags} & {pipe.name for pipe in world.pipes}

    def argument(it):
        if it.kind in ('tag', 'pipe'):
            plain = it.value not in both and NAME.fullmatch(it.value) and it.value not in ('true', 'false')
            return it.value if plain else f'{it.kind}:{it.value}'
        return json_of(it.value)
    lines = [f'tag {tag.name}' + ('' if tag.kind == 'read' else f' {tag.kind}') for tag in world.tags]
    lines += [f'count {label_text(it.maker)} {label_text(it.own)} {it.next}' for it in world.counts]
    for it in world.items:
        name = f' {label_text(it.maker)} {it.number}' if it.maker else ''
        lines.append(f'dir {it.path} {label_text(it.label)}{name}' if it.text is None else
                     f'file {it.path} {label_text(it.label)}{name} {content_of_item(it)}')
    lines += [f'pipe {it.name} {label_text(it.label)}' for it in world.pipes]
    for it in world.threads:
        caps = f' +{{{",".join(it.plus)}}}-{{{",".join(it.minus)}}}' if it.plus or it.minus else ''
        lines.append(f'thread {it.run}({", ".join(argument(each) for each in it.arguments)}){caps}')
    return '\n'.join(lines)


def without_lines(things):
    """Things of a world without the lines in which they stand."""
    return [it._replace(line=0, **({'arguments': without_lines(it.arguments)} if isinstance(it, Thread) else {})) for it in things]


def look_at_short(world):
    """Finds what no short text can hold, by reading one: a name with a blank in it, or with a mark that ends it."""
    again = read_short(world.path, short_of(world))
    look_at(again)
    for kind, mine, read in (('tag', world.tags, again.tags), ('count', world.counts, again.counts),
                             ('path', world.items, again.items),
                             ('pipe', world.pipes, again.pipes), ('thread', world.threads, again.threads)):
        if without_lines(mine) != without_lines(read):
            pairs = zip(mine, without_lines(mine), without_lines(read) + [None] * len(mine))
            line = next((it.line for it, one, other in pairs if one != other), 1)
            world.fault(line, f'a short text cannot hold this {kind}: a name has a blank, or a mark that ends it')
            return


def read_world(path, values):
    with open(path, 'rb') as content:
        content = content.read()
    try:
        text = content.decode('utf-8')
    except UnicodeDecodeError as error:
        world = World(path)
        world.fault(content.count(b'\n', 0, error.start) + 1, f'this is no UTF-8, from byte {error.start} on')
        return world
    if text.startswith('\ufeff'):
        world = World(path)
        world.fault(1, 'a byte order mark stands before the text: save it without one')
        return world
    template = holes.Template(text, values)
    text = template.whole()
    world = (read_document if text.lstrip().startswith('{') else read_short)(path, text)
    world.faults += template.faults
    look_at(world)
    return world


def faults_as_data(world):
    faults = [{'line': line, 'text': text} for line, text in sorted(world.faults, key=lambda fault: fault[0])]
    return json.dumps({'ok': not faults, 'faults': faults}, ensure_ascii=False)


def things_as_data(world):
    """What a world has, each thing with its line."""
    def plain(it):
        if isinstance(it, Item) and isinstance(it.text, bytes):
            return {**plain(it._replace(text=None)), 'hex': it.text.hex()}
        if hasattr(it, '_asdict'):
            return {name: plain(value) for name, value in it._asdict().items() if name not in ('maker', 'number') or value is not None}
        return [plain(each) for each in it] if isinstance(it, list) else it
    return json.dumps({'tags': plain(world.tags), 'items': plain(world.items), 'pipes': plain(world.pipes),
                       'threads': plain(world.threads)}, ensure_ascii=False, indent=1)


def tell_faults(path, world, is_check, as_data):
    """Prints what is wrong: of `check`, and as data, to the output."""
    if as_data:
        print(faults_as_data(world))
        return
    for line, text in sorted(world.faults, key=lambda fault: fault[0]):
        print(printable.name(f'{path}:{line}: {text}' if line else f'{path}: {text}'), file=sys.stdout if is_check else sys.stderr)


WORDS = 'world.py: the forms are `make SHORT`, `short WORLD` and `check WORLD PROGRAM`, with `--set NAME=VALUE` and `--json`, ' \
        '`files WORLD FOLDER` and `pack FOLDER`; --help says more'
LENGTHS = {'make': 2, 'short': 2, 'check': 3, 'files': 3, 'pack': 2}
MAKING = {'make': document_of, 'short': short_of, 'check': lambda _: 'ok', 'pack': short_of}
MAKING_DATA = {'make': document_of, 'short': things_as_data, 'check': faults_as_data}


def main():
    words = sys.argv[1:]
    if not words or words[0] in ('--help', '-h', 'help'):
        print(__doc__)
        return 0
    try:
        words, values = holes.settings_of(words)
    except ValueError as error:
        last_catch.say(f'world.py: {error}')
        return 2
    as_data, words = '--json' in words, [word for word in words if word != '--json']
    if not words or LENGTHS.get(words[0]) != len(words) or as_data and words[0] in ('files', 'pack'):
        print(WORDS, file=sys.stderr)
        return 2
    try:
        world = taken(words, values, as_data)
        if words[0] == 'files' and not world.faults:
            folders.write(world.items, short_of(world, folders.reference), words[2])
    except (OSError, UnicodeError, folders.Refused) as error:
        last_catch.say(f'world.py: {printable.name(told(error))}')
        return 2
    if world.faults:
        tell_faults(os.path.join(words[1], folders.INDEX) if words[0] == 'pack' else words[1], world, words[0] == 'check', as_data)
        return 1
    if words[0] != 'files':
        print((MAKING_DATA if as_data else MAKING)[words[0]](world))
    return 0


def told(error):
    return f'{error.strerror}: {error.filename}' if isinstance(error, OSError) and error.strerror and error.filename else str(error)


def taken(words, values, as_data):
    """The world of a call, with its faults."""
    if words[0] == 'pack':
        return packed(words[1], values)
    world = read_world(words[1], values)
    if words[0] == 'check':
        look_with(world, words[2])
    elif words[0] in ('short', 'files') and not as_data and not world.faults:
        look_at_short(world)
    return world


def packed(folder, values):
    """The world of a folder: that of its index, and what is new in it at the labels that the index gives."""
    world = read_world(os.path.join(folder, folders.INDEX), values)
    known = {it.path for it in world.items}
    for path, is_dir in folders.listed(folder):
        label = next((label for _, above, label in sorted(world.below, key=lambda it: -len(it[1]))
                      if above == '.' or path.startswith(f'{above}/')), None)
        if path in known:
            continue
        if label is None:
            word, content = ('dir', '') if is_dir else ('file', f' < {folders.FILES}/{path}')
            world.fault(0, f'the index gives {path} no label: a line `{word} {path} LABEL{content}`, or `below . LABEL`')
            continue
        content = None if is_dir else content_of(folders.content(folder, path, TEXT_LIMIT))
        world.items.append(Item(0, path, label, content))
    if not world.faults:
        world.items.sort(key=lambda it: it.path.count('/') if it.line == 0 else 0)
        look_at(world)
        look_at_short(world)
    return world


if __name__ == '__main__':
    last_catch.run(main)
