"""World documents and books, for the tools that help a person: what a document says, and the place of each part of it.

What a document is, the proved program says (docs/FORMATS.md). This reads the same form and looks at its members in the
same order, so that a refusal can be given its line, its column and what was wanted there.
"""
import contextlib
import json
import math
import re

from .printable import name as printable

NAME = re.compile(r'[A-Za-z][A-Za-z0-9_]{0,31}')
LABEL = re.compile(r'\{([^{}]*)\}/\{([^{}]*)\}')
PIECES = re.compile(r'\s*("(?:[^"\\]|\\.)*"|-?[0-9][0-9.eE+-]*|true|false|null|[][{}:,])', re.S)
TAG_KINDS = ['read', 'export', 'integrity']
MOST_TURNS, MOST_THREADS = 1_000_000, 4096
TURNS = re.compile(r'(0|[1-9][0-9]{0,3}) ([1-9][0-9]*)')
HALF = re.compile('[\ud800-\udfff]')
ORDER = ['version', 'tags', 'counts', 'tree', 'pipes', 'threads']     # `counts` in version 3 alone
PUBLIC = (frozenset(), frozenset())


class Part:
    """A part of a document: its value, its place, and its own parts by name or by index."""

    def __init__(self, value, at, parts=None, whole=True):
        self.value, self.at, self.parts, self.whole = value, at, parts or {}, whole


class Wrong(Exception):
    """The first break: its line without `lam: 4 `, its place, and what was wanted."""

    def __init__(self, kind, at, wanted):
        super().__init__(kind)
        self.kind, self.at, self.wanted, self.where = kind, at, wanted, None


def is_whole(part, least, most):
    """Whether a part is a whole number of a range."""
    return isinstance(part.value, int) and not isinstance(part.value, bool) and part.whole and least <= part.value <= most


class Item:
    def __init__(self, **parts):
        self.__dict__.update(parts)


# ---- JSON with places

class Places:
    def __init__(self, text):
        self.text, self.at = text, 0

    def piece(self):
        found = PIECES.match(self.text, self.at)
        if not found:       # a word that Python takes for a number, and JSON has not
            at = self.at + len(self.text[self.at:]) - len(self.text[self.at:].lstrip())
            raise Wrong('NotJson', at, json_wanted('Expecting value'))
        self.at = found.end()
        return found[1], found.start(1)

    def part(self, given=None):
        piece, at = given or self.piece()
        if piece == '{':
            return self.of_object(at)
        if piece == '[':
            return self.of_list(at)
        whole = not re.match(r'-?[0-9]+[.eE]', piece)
        value = loaded(piece)
        if isinstance(value, str) and HALF.search(value):
            raise Wrong('NotJson', at, r'a text whose escapes from \ud800 to \udfff come in pairs')
        if type(value) in (int, float) and math.isinf(float(piece)):
            raise Wrong('NotJson', at, 'a number below 1e308')
        return Part(value, at, whole=whole)

    def of_object(self, at):
        parts, value = {}, {}
        piece = self.piece()
        while piece[0] != '}':
            name = self.part(piece).value
            self.piece()
            parts[name] = self.part()
            value[name] = parts[name].value
            piece = self.piece()
            if piece[0] == ',':
                piece = self.piece()
        return Part(value, at, parts)

    def of_list(self, at):
        parts = {}
        piece = self.piece()
        while piece[0] != ']':
            parts[len(parts)] = self.part(piece)
            piece = self.piece()
            if piece[0] == ',':
                piece = self.piece()
        return Part([it.value for it in parts.values()], at, parts)


def small(digits):
    """A whole number; one with more digits than any limit has is as wrong as the greatest here."""
    return int(digits) if len(digits) < 40 else 10 ** 40 * (-1 if digits[0] == '-' else 1)


def loaded(text):
    return json.loads(text, parse_int=small)


def parts_of(text):
    try:
        loaded(text)
    except json.JSONDecodeError as broken:
        raise Wrong('NotJson', broken.pos, json_wanted(broken.msg)) from None
    except RecursionError:
        raise Wrong('NotJson', 0, 'less nesting') from None
    return Places(text).part()


def json_wanted(message):
    """What JSON wants at a place, by what the library says."""
    wants = {"Expecting ',' delimiter": 'a `,` before this, or the end of the list or object before',
             "Expecting ':' delimiter": 'a `:` after the name of a member',
             'Expecting property name': 'the name of a member between `"`; after the last member stands no `,`',
             'Expecting value': 'a value; after the last item of a list stands no `,`, and texts stand between `"`',
             'Illegal trailing comma': 'no `,` after the last item or member',
             'Unexpected UTF-8 BOM': 'no byte order mark before the document',
             'Extra data': 'the end of the document', 'Unterminated string': 'a `"` at the end of this text',
             'Invalid \\escape': r'one of the escapes of JSON: \n \t \\ \" \uHHHH'}
    return next((wanted for head, wanted in wants.items() if message.startswith(head)), 'JSON')


# ---- what a document says

class Start:
    """The world at the start: tags, tree, pipes, threads."""

    def __init__(self, text, functions):
        self.functions = functions
        self.tags, self.kinds, self.counts, self.tree, self.pipes, self.threads = [], [], {}, [], [], []
        document = parts_of(text)
        if not isinstance(document.value, dict):
            raise Wrong('BadMember version', document.at, 'an object with version, tags, tree, pipes and threads')
        for name in ORDER:
            if name != 'counts' or self.version == 3:
                part = self.member(document, name)
                getattr(self, f'read_{name}')(part)

    @staticmethod
    def member(part, name, wanted=None):
        if name not in part.parts:
            raise Wrong(f'NoMember {name}', part.at, wanted or f'a member "{name}" in this object')
        return part.parts[name]

    @staticmethod
    def is_list(part, name, wanted):
        if not isinstance(part.value, list):
            raise Wrong(f'BadMember {name}', part.at, wanted)
        return part.parts.values()

    @staticmethod
    def is_object(part, name):
        if not isinstance(part.value, dict):
            wanted = {'caps': '{"plus": [..], "minus": [..]} with names of tags'}.get(name, 'an object: { .. }')
            raise Wrong(f'BadMember {name}', part.at, wanted)
        return part

    @staticmethod
    @contextlib.contextmanager
    def within(where):
        """What breaks inside stands in this item of the document."""
        try:
            yield
        except Wrong as wrong:
            wrong.where = wrong.where or where
            raise

    def text(self, part, name):
        if not isinstance(part.value, str):
            raise Wrong(f'BadMember {name}', part.at, 'a text: ".."')
        return part.value

    def read_version(self, part):
        if not is_whole(part, 1, 3):
            raise Wrong('BadMember version', part.at, 'the number 1, 2 or 3')
        self.version = part.value

    def read_tags(self, part):
        if len(self.is_list(part, 'tags', 'a list of tags')) > 65536:
            raise Wrong('BadMember tags', part.at, 'at most 65,536 tags')
        for it in self.is_list(part, 'tags', 'a list of tags'):
            tag, member = it, 'tags'
            if self.version == 1 and isinstance(it.value, dict):
                raise Wrong('BadMember tags', it.at, 'the name of a tag, ".."; in "version": 2 a tag is an object with a kind')
            if self.version > 1:
                self.is_object(it, 'tags')
                tag, member = self.member(it, 'name'), 'name'
            if not isinstance(tag.value, str) or not NAME.fullmatch(tag.value):
                raise Wrong(f'BadMember {member}', tag.at, 'a tag name: a letter and up to 31 letters, digits or _')
            if tag.value in self.tags:
                raise Wrong('BadMember tags', tag.at, 'another name: this tag is there already')
            self.tags.append(tag.value)
            self.kinds.append(self.kind(it) if self.version > 1 else 'read')

    def kind(self, it):
        kind = self.member(it, 'kind')
        if kind.value not in TAG_KINDS:
            raise Wrong('BadMember kind', kind.at, f'one of {listed(TAG_KINDS)}')
        return kind.value

    @property
    def public(self):
        """The capabilities that count as held by all, by the kinds of the tags."""
        return tuple(frozenset(at for at, kind in enumerate(self.kinds) if kind == known) for known in TAG_KINDS[1:])

    def label(self, part, name='label'):
        value = self.text(part, name)
        found = LABEL.fullmatch(value)
        sets = [piece.split(',') if piece else [] for piece in found.groups()] if found else []
        if not found or not all(NAME.fullmatch(name) for names in sets for name in names):
            raise Wrong(f'BadMember {name}', part.at, 'a label without blanks, {SECRECY}/{INTEGRITY}: "{a,b}/{c}"')
        return tuple(frozenset(self.tag(tag, part) for tag in names) for names in sets)

    def tag(self, name, part):
        if name not in self.tags:
            raise Wrong(f'NoTag {name}', part.at, f'a tag of the list "tags", which has {listed(self.tags)}')
        return self.tags.index(name)

    def read_counts(self, part):
        for index, it in enumerate(self.is_list(part, 'counts', 'a list of homes')):
            with self.within(f'item {index} of "counts"'):
                self.count(it)
        if (PUBLIC, PUBLIC) not in self.counts:
            raise Wrong('BadMember counts', part.at, 'an item with "maker": "{}/{}" and "own": "{}/{}": this home has made the root')

    def count(self, it):
        self.is_object(it, 'counts')
        home = tuple(self.label(self.member(it, name), name) for name in ('maker', 'own'))
        if home in self.counts:
            raise Wrong('BadMember counts', it.at, 'a home that no earlier item has')
        following = self.member(it, 'next')
        if not is_whole(following, 1, 65536):
            raise Wrong('BadMember next', following.at, 'a whole number from 1 to 65,536')
        self.counts[home] = following.value

    def read_tree(self, part):
        made, full = {'': [None, 0]}, {PUBLIC: 1}
        self.names = {(PUBLIC, PUBLIC, 0)}
        for index, it in enumerate(self.is_list(part, 'tree', 'a list of files and directories')):
            with self.within(f'item {index} of "tree"'):
                self.read_item(index, it, made, full)

    def read_item(self, index, it, made, full):
        self.is_object(it, 'tree')
        path = self.text(self.member(it, 'path'), 'path')
        above, _, entry = path.rpartition('/')
        bad = not 1 <= len(entry.encode(errors='surrogatepass')) <= 255 or '\0' in entry or entry in ('.', '..')
        place = it.parts['path'].at
        if bad or path.startswith('/'):
            raise Wrong(f'BadPath {index}', place, 'names joined by /, none of them empty, . or ..')
        if above not in made:
            item = f'{{"path": "{printable(above)}", "label": .., "dir": true}}'
            raise Wrong(f'BadPath {index}', place, f'a directory "{printable(above)}" earlier in the list: {item}')
        if made[above][0] == 'file':
            raise Wrong(f'BadPath {index}', place, f'a directory before the last /, and "{printable(above)}" is a file')
        if path in made:
            raise Wrong(f'PathTwice {index}', place, 'a path that no earlier item has')
        label = self.label(self.member(it, 'label'))
        if self.version == 3:
            self.take_name(it, label)
        text = self.content(it)
        made[above][1] += 1
        full[label] = full.get(label, 0) + 1
        if made[above][1] > 4096 or full[label] > 65536 and self.version < 3:
            raise Wrong(f'BadPath {index}', place, 'room: a directory has at most 4,096 entries, and at one label there '
                                                   'are at most 65,536 files and directories')
        made[path] = ['dir' if text is None else 'file', 0]
        self.tree.append(Item(path=path, label=label, text=text, at=it.at))

    def take_name(self, it, label):
        """The name of an item of version 3, which nothing else has."""
        maker = self.label(self.member(it, 'maker'), 'maker')
        number = self.member(it, 'number')
        if not is_whole(number, 0, self.counts.get((maker, label), 0) - 1):
            raise Wrong('BadMember number', number.at, 'a whole number below the "next" of the home with this "maker" and this "label" as its "own"')
        if (maker, label, number.value) in self.names:
            raise Wrong('BadMember number', number.at, 'a number that neither the root nor an earlier item of this home has')
        self.names.add((maker, label, number.value))

    def content(self, it):
        name = 'hex' if self.version == 3 else 'text'
        if 'dir' in it.parts:
            if it.parts['dir'].value is not True:
                raise Wrong('BadMember dir', it.parts['dir'].at, 'true')
            if name in it.parts:
                raise Wrong('BadMember dir', it.parts['dir'].at, f'either "dir" or "{name}": an item is a directory or a file')
            return None
        if name not in it.parts:
            raise Wrong(f'NoMember {name}', it.at, f'a "{name}" where the item is a file, or "dir": true')
        text = self.text(it.parts[name], name).encode()
        if name == 'hex':
            return self.digits(it.parts['hex'], text)
        if len(text) > 1048576:
            raise Wrong('BadMember text', it.parts['text'].at, 'at most 1,048,576 bytes')
        return text

    @staticmethod
    def digits(part, text):
        if len(text) > 2097152 or not re.fullmatch(b'([0-9a-f]{2})*', text):
            raise Wrong('BadMember hex', part.at, 'an even number of digits 0 to 9 and a to f, at most 2,097,152')
        return bytes.fromhex(text.decode())

    def read_pipes(self, part):
        count = {}
        for index, it in enumerate(self.is_list(part, 'pipes', 'a list of pipes')):
            with self.within(f'item {index} of "pipes"'):
                self.pipe(it, count)

    def pipe(self, it, count):
        self.is_object(it, 'pipes')
        name = self.text(self.member(it, 'name'), 'name')
        if name in [pipe.name for pipe in self.pipes]:
            raise Wrong('BadMember name', it.parts['name'].at, 'a name that no earlier pipe has')
        label = self.label(self.member(it, 'label'))
        count[label] = count.get(label, 0) + 1
        if count[label] > 4096:
            raise Wrong('BadMember pipes', it.at, 'at most 4,096 pipes at one label')
        self.pipes.append(Item(name=name, label=label))

    def read_threads(self, part):
        items = list(self.is_list(part, 'threads', 'a list of 1 to 64 threads'))
        if not 1 <= len(items) <= 64:
            raise Wrong('BadMember threads', part.at, 'a list of 1 to 64 threads')
        if not all(isinstance(it.value, dict) for it in items):
            it = next(it for it in items if not isinstance(it.value, dict))
            raise Wrong('BadMember threads', it.at, 'an object: { .. }')
        for index, it in enumerate(items):
            with self.within(f'thread {index}'):
                self.threads.append(self.thread(it))

    def thread(self, it):
        run = self.member(it, 'run')
        known = {name: takes for name, takes in self.functions}
        if run.value not in known:
            raise Wrong('BadMember run', run.at, f'a function of the program that gives an int; it has {listed(list(known))}')
        arguments = self.arguments(self.member(it, 'args'), known[run.value], run.value)
        caps = self.is_object(self.member(it, 'caps'), 'caps')
        sets = []
        for name in ('plus', 'minus'):
            held = self.is_list(self.member(caps, name), name, 'a list of tag names')
            sets.append(frozenset(self.held(tag, name) for tag in held))
        return Item(run=run.value, arguments=arguments, caps=tuple(sets), at=it.at)

    def held(self, part, member):
        """A tag of a list of capabilities."""
        value = self.text(part, member)
        if not NAME.fullmatch(value):
            wanted = 'the name of a tag'
            if NAME.fullmatch(value[:-1]) and value[-1] in '+-':
                wanted += f' without its sign: "{value[:-1]}"; the tags of "{member}" are held with {"+" if member == "plus" else "-"}'
            raise Wrong(f'BadMember {member}', part.at, wanted)
        return self.tag(value, part)

    def arguments(self, part, takes, run):
        parts = list(self.is_list(part, 'args', f'a list of {len(takes)} objects'))
        wanted = ', '.join(f'{{"{KINDS.get(kind, kind)}": ..}}' for kind in takes)
        wanted = f'as many and of such kinds as {run} takes: [{wanted}]'
        if len(parts) != len(takes):
            raise Wrong('BadMember args', part.at, wanted)
        return [self.argument(it, kind, wanted) for it, kind in zip(parts, takes)]

    def argument(self, it, kind, wanted):
        kinds = [name for name in CONTENTS if isinstance(it.value, dict) and name in it.parts]
        if len(kinds) != 1:
            raise Wrong('BadMember args', it.at, wanted)
        given = kinds[0]
        content = it.parts[given]
        self.content_of(given, content)
        if given != KINDS.get(kind, kind):
            raise Wrong('BadMember args', it.at, wanted)
        if given == 'text':
            return given, content.value.encode()
        if given == 'tag':
            return given, self.tag(content.value, content)
        if given == 'pipe' and content.value not in [pipe.name for pipe in self.pipes]:
            known = listed([it.name for it in self.pipes])
            raise Wrong('BadMember pipe', content.at, f'a pipe of the list "pipes", which has {known}')
        return given, content.value

    def content_of(self, kind, content):
        """That a content is of its own kind."""
        value = content.value
        good = isinstance(value, str)
        if kind == 'int':
            good = isinstance(value, int) and not isinstance(value, bool) and content.whole and -2 ** 63 <= value < 2 ** 63
        elif kind == 'bool':
            good = isinstance(value, bool)
        elif kind == 'tag':
            good = good and bool(NAME.fullmatch(value))
        elif kind == 'text':
            good = good and len(value.encode()) <= 65536
        if not good:
            raise Wrong(f'BadMember {kind}', content.at, CONTENTS[kind])


CONTENTS = {'int': 'a whole number of 64 bits without quotes', 'bool': 'true or false', 'text': 'a text of at most 65,536 bytes: ".."',
            'tag': 'the name of a tag', 'pipe': 'the name of a pipe'}
KINDS = {'bytes': 'text'}


def listed(names):
    return ', '.join(map(printable, names)) if names else 'none'


def functions_of(code):
    """The functions that a thread may run: their names and the types of their parameters."""
    return [(it.name, [local.type for local in it.locals]) for it in code.functions if it.type == 'int']


# ---- books

class NoBook(ValueError):
    """The first break of a text that is no book: its kind and its line, as `lam` has them."""

    def __init__(self, kind, line):
        super().__init__(f'{kind} line {line}')
        self.kind, self.line = kind, line


def turns_of(text):
    """The turns of a book, thread by thread. Raises NoBook where the text is none."""
    found, last = [], None
    head, *lines = text.split('\n')
    if head != 'lam book 1' or not lines:
        raise NoBook('BadHead', 1)
    for number, line in enumerate(lines[:-1] + [it for it in lines[-1:] if it], 2):
        stretch = TURNS.fullmatch(line)
        if not stretch or int(stretch[1]) >= MOST_THREADS or number == len(lines) + 1:
            raise NoBook('BadLine', number)
        thread, count = small(stretch[1]), small(stretch[2])
        if thread == last:
            raise NoBook('SameThread', number)
        if len(found) + count > MOST_TURNS:
            raise NoBook('TooMany', number)
        found += [thread] * count
        last = thread
    return found
