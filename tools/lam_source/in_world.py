"""What stands at a place of a world document or of a short text, and what could be typed there, for an editor.

A text that is being typed is seldom whole, so this goes by its pieces alone: each with the members and the places of the lists
round it, as `threads`, 0, `caps`, `plus`, 1."""
import json
import re

from . import pointing

PIECE = re.compile(r'"(?:[^"\\\n]|\\.)*"?|[][{}:,]|[^\s][^][{}:,"\s]*')
WORD = re.compile(r'[A-Za-z_]\w*')
VALUE, FUNCTION, FIELD, VARIABLE = 12, 3, 5, 6      # kinds of completions in the protocol
MEMBERS = {(): ['version', 'tags', 'counts', 'tree', 'pipes', 'threads'], ('tags',): ['name', 'kind'],
           ('tree',): ['path', 'label', 'text', 'dir', 'maker', 'number', 'hex'], ('pipes',): ['name', 'label'],
           ('counts',): ['maker', 'own', 'next'], ('threads',): ['run', 'args', 'caps'],
           ('threads', 'args'): ['int', 'bool', 'text', 'tag', 'pipe'], ('threads', 'caps'): ['plus', 'minus']}
KINDS = {'read': 'only a holder may use its plus or its minus', 'export': 'everybody may use its plus, a holder alone its minus',
         'integrity': 'everybody may use its minus, a holder alone its plus'}
LABELS = ('label', 'maker', 'own')


class Piece:
    """A text, a number or a word of a world: its value, its place, and its path; `what` is `name` of a member's name."""

    def __init__(self, value, at, end, path, what='value'):
        self.value, self.at, self.end, self.path, self.what = value, at, end, path, what
        self.member = next((it for it in reversed(path) if isinstance(it, str)), None)

    @property
    def names(self):
        """The names of the path, without places in lists."""
        return tuple(it for it in self.path if isinstance(it, str))


# ---- documents

class Document:
    """The pieces of a world document, however whole it is."""

    def __init__(self, text):
        self.text, self.pieces = text, []
        stack, name, is_name = [], None, False
        self.stacks = []        # where each mark stands, and what is open behind it
        for found in PIECE.finditer(text):
            mark, at = found[0], found.start()
            if mark in '{[':
                stack.append([mark, 0, name])
                name, is_name = None, mark == '{'
            elif mark in '}]':
                stack = stack[:-1]
                name = None
            elif mark == ',':
                name, is_name = None, bool(stack) and stack[-1][0] == '{'
                if stack and stack[-1][0] == '[':
                    stack[-1][1] += 1
            elif mark == ':':
                is_name = False
            else:
                value = loaded(mark)
                path = path_of(stack, None if is_name else name)
                self.pieces.append(Piece(value, at, found.end(), path, 'name' if is_name else 'value'))
                name = value if is_name else name
            self.stacks.append((found.end(), [list(it) for it in stack] if mark in '{[,:}]' else None, name, is_name))

    def strings(self, *names):
        """The texts whose path has these names."""
        return [it for it in self.pieces if it.what == 'value' and it.names == names and isinstance(it.value, str)]

    def at(self, place):
        return next((it for it in self.pieces if it.at <= place <= it.end), None)

    def tags(self):
        """The tags with their kinds."""
        found = {}
        for it in self.strings('tags') + self.strings('tags', 'name'):
            kind = next((other.value for other in self.strings('tags', 'kind') if other.path[:2] == it.path[:2]), 'read')
            found.setdefault(it.value, kind)
        return found

    def pipes(self):
        return {it.value: self.beside(it, 'label') for it in self.strings('pipes', 'name')}

    def beside(self, piece, member):
        """The value of another member of the object that a piece is a member of."""
        path = (*piece.path[:-1], member)
        return next((it.value for it in self.pieces if it.what == 'value' and it.path == path), None)

    def holders(self, tag):
        """Who holds which capabilities of a tag: texts."""
        for it in self.strings('threads', 'caps', 'plus') + self.strings('threads', 'caps', 'minus'):
            if it.value == tag:
                yield f'thread {it.path[1]} holds {tag}{"+" if it.member == "plus" else "-"}'

    def role(self, piece):
        """What a piece is: `tag`, `label`, `run`, `pipe`, `argument` or another member."""
        names = piece.names
        if piece.what == 'name':
            return 'argument' if names[:2] == ('threads', 'args') else 'member'
        if names in (('tags',), ('tags', 'name'), ('threads', 'caps', 'plus'), ('threads', 'caps', 'minus'), ('threads', 'args', 'tag')):
            return 'tag'
        if names in (('pipes', 'name'), ('threads', 'args', 'pipe')):
            return 'pipe'
        return 'label' if piece.member in LABELS else 'run' if names == ('threads', 'run') else \
            'argument' if names[:2] == ('threads', 'args') else piece.member

    def thread_of(self, piece):
        """The function that the thread of a piece runs, and which of its arguments the piece is."""
        run = next((it.value for it in self.strings('threads', 'run') if it.path[1:2] == piece.path[1:2]), None)
        number = piece.path[3] if len(piece.path) > 3 and isinstance(piece.path[3], int) else None
        return run, number

    # ---- what could be typed

    def context(self, place):
        """What is open at a place: a piece that stands for what is typed there."""
        here = self.at(place)
        if here and here.at < place:
            return here
        stack, name, is_name = [], None, False
        for end, open_now, last, naming in self.stacks:
            if end > place:
                break
            if open_now is not None:
                stack = open_now
            name, is_name = last, naming
        return Piece('', place, place, path_of(stack, None if is_name else name), 'name' if is_name else 'value')


def path_of(stack, name):
    path = []
    for mark, count, before in stack:
        path += [before] if before is not None else []
        path += [count] if mark == '[' else []
    return tuple(path + ([name] if name is not None else []))


def loaded(mark):
    try:
        return json.loads(mark)
    except ValueError:
        return mark.strip('"')


# ---- short texts

# The words of a line, as members of which list of a document.
LINES = {'tag': ('tags', 'name', 'kind'), 'dir': ('tree', 'path', 'label', 'maker'), 'file': ('tree', 'path', 'label', 'maker'),
         'pipe': ('pipes', 'name', 'label'), 'count': ('counts', 'maker', 'own'), 'below': ('below', 'path', 'label')}


class Short:
    """The pieces of a short text: words of its lines, with paths as those of a document have them."""

    def __init__(self, text):
        self.text, self.pieces, self.counts = text, [], dict.fromkeys(('thread', *LINES), 0)
        at = 0
        for line in text.split('\n'):
            if not line.lstrip().startswith('#'):
                self.read(line, at)
            at += len(line) + 1

    def put(self, value, at, path, what='value'):
        self.pieces.append(Piece(value, at, at + len(value), path, what))

    def read(self, line, start):
        words = list(re.finditer(r'\S+', line))
        kind = words[0][0] if words else ''
        if kind not in self.counts:
            return
        number, self.counts[kind] = self.counts[kind], self.counts[kind] + 1
        self.put(kind, start + words[0].start(), (kind, number), 'name')
        if kind == 'thread':
            self.thread(line, start, words[0].end(), number)
            return
        of, *members = LINES[kind]
        for word, member in zip(words[1:], members):
            if member != 'maker' or word[0].startswith('{'):        # else it is a content
                self.put(word[0], start + word.start(), (of, number, member))

    def thread(self, line, start, end, number):
        run = WORD.search(line, end)
        if not run:
            return
        self.put(run[0], start + run.start(), ('threads', number, 'run'))
        caps = re.search(r'\)\s*(\+\{([^{}]*)\}?-?\{?([^{}]*)\}?)?\s*$', line)
        last = caps.start() if caps else len(line)
        for count, word in enumerate(re.finditer(r'"(?:\\.|[^"\\])*"?|[^,()\s]+', line[run.end():last])):
            kind = 'argument' if WORD.fullmatch(word[0]) else 'value'
            self.put(word[0], start + run.end() + word.start(), ('threads', number, 'args', count, kind))
        for group, member in ((2, 'plus'), (3, 'minus')):
            for word in WORD.finditer(line, *(caps.span(group) if caps and caps[group] else (0, 0))):
                self.put(word[0], start + word.start(), ('threads', number, 'caps', member))

    strings, at, beside, holders, thread_of = (
        Document.strings, Document.at, Document.beside, Document.holders, Document.thread_of)

    def tags(self):
        return {it.value: self.beside(it, 'kind') or 'read' for it in self.strings('tags', 'name')}

    pipes = Document.pipes

    def role(self, piece):
        if piece.names[-1:] == ('argument',):
            return 'tag' if piece.value in self.tags() else 'pipe' if piece.value in self.pipes() else 'argument'
        return 'line' if piece.what == 'name' else Document.role(self, piece)

    def context(self, place):
        here = self.at(place)
        if here and here.at < place:
            return here
        start = self.text.rfind('\n', 0, place) + 1
        line = self.text[start:place]
        words = line.split()
        kind = words[0] if words else ''
        if not words:
            return Piece('', place, place, ('line',), 'name')
        if kind == 'thread':
            path = ('threads', 0, 'caps', 'plus') if re.search(r'\)\s*\+', line) else \
                ('threads', 0, 'args', 0, 'argument') if '(' in line else ('threads', 0, 'run')
            return Piece('', place, place, path)
        of, *members = LINES.get(kind, ('', ''))
        return Piece('', place, place, (of, 0, members[min(len(words), len(members)) - 1]))


def read(text):
    return Document(text) if text.lstrip().startswith('{') else Short(text)


# ---- hover

def word_in(text, piece, at):
    """The name at a place inside a piece, where it is a label."""
    return next((it for it in WORD.finditer(text, piece.at, piece.end) if it.start() <= at <= it.end()), None)


def told(world, at, program):
    """A line and sentences on what stands at a place, with from and to; None where there is nothing to say.

    `program` is the document of the world's program, or None."""
    piece = world.at(at)
    role = piece and world.role(piece)
    if role == 'label':
        word = word_in(world.text, piece, at)
        if word and word[0] in world.tags():
            return of_tag(world, word[0]), word.start(), word.end()
        return (f'{piece.value}', ['The label: secrecy before the `/`, integrity behind it.']), piece.at, piece.end
    found = {'tag': of_tag, 'pipe': of_pipe}.get(role)
    if found:
        return found(world, piece.value), piece.at, piece.end
    if role in ('run', 'argument') and program:
        said = of_thread(world, piece, program)
        return said and (said, piece.at, piece.end)
    if role == 'kind' and piece.value in KINDS:
        return (f'kind {piece.value}', [f'Of such a tag {KINDS[piece.value]}.']), piece.at, piece.end
    return None


def of_tag(world, name):
    kind = world.tags().get(name)
    if kind is None:
        return f'{name}', ['No tag of this name is declared.']
    held = list(world.holders(name))
    return f'tag {name}: {kind}', [f'Of a tag of this kind {KINDS.get(kind, "nothing is known")}.',
                                   f'{"; ".join(held) if held else "no thread holds a capability of it"}.'.capitalize()]


def of_pipe(world, name):
    label = world.pipes().get(name)
    return (f'pipe {name}: {label}', []) if label else (f'{name}', ['No pipe of this name is declared.'])


def of_thread(world, piece, program):
    """The function that a thread runs, or its parameter."""
    run, number = world.thread_of(piece)
    item = program.typing.functions.get(run)
    if not item:
        return None
    if number is None or number >= len(item.parameters):
        return pointing.head_of(item), ['A thread runs it.']
    it = item.parameters[number]
    return f'{it.name}: {pointing.written(it.of)}', [f'Argument {number + 1} of {pointing.head_of(item)}.']


# ---- completion

def completions(world, at, program):
    """What could be typed at a place: label, kind and detail of each."""
    piece = world.context(at)
    role = world.role(piece)
    tags = [(name, VARIABLE, kind) for name, kind in world.tags().items()]
    pipes = [(name, VARIABLE, label) for name, label in world.pipes().items()]
    if role in ('member', 'line'):
        names = [*LINES, 'thread', 'hole'] if role == 'line' else MEMBERS.get(piece.names, [])
        return [(name, FIELD, None) for name in names]
    if role == 'run':
        items = program.typing.functions.values() if program else ()
        return [(it.name, FUNCTION, pointing.head_of(it)) for it in items if it.result and pointing.written(it.result) == 'int']
    if role == 'argument' and piece.what == 'name':
        return [(name, FIELD, None) for name in MEMBERS['threads', 'args']]
    if role == 'argument':
        return tags + pipes
    if role in ('tag', 'label'):
        return tags
    if role == 'pipe':
        return pipes
    return [(name, VALUE, told_kind) for name, told_kind in KINDS.items()] if role == 'kind' else []
