"""Programs as trees with places: the tokens and the grammar of docs/LANGUAGE.md, for the tools that help a person.

What a program is, the proved program says. This reads the same language, so that a tool can find what stands at a place,
what could stand there, and which part of the source an operation of the code comes from.
"""
import re
import sys

RESERVED = set('class fn let if else while return throw sync region catch new spawn true false null int bool bytes tag '
               'label caps file dir pipe thread'.split())
TYPES = ['int', 'bool', 'bytes', 'tag', 'label', 'caps', 'file', 'dir', 'pipe', 'thread']
PIECES = re.compile(r'(?P<space>[ \t\r\n]+|//[^\n]*)|(?P<name>(?a:[A-Za-z_]\w*))|(?P<number>[0-9]+)'
                    r'|(?P<text>"(?:[^"\\\n]|\\.)*")|(?P<mark>==|!=|<=|>=|&&|\|\||[{}()\[\],;:.=<>+\-*/%!])')
BINARY = [['||'], ['&&'], ['==', '!=', '<', '<=', '>', '>='], ['+', '-'], ['*', '/', '%']]
OPERATORS = {op for ops in BINARY for op in ops}
COMPARING = 2
SORTS = {'name': ('a name',), 'number': ('a number',), 'text': ('a text',), 'end': ('the end of the program',)}
DEEPEST = 128       # rules that are open in each other, with the operators that were read in them


class Broken(Exception):
    """The text is no program: what the token at a place would have to be."""

    def __init__(self, token, wanted):
        super().__init__(token.text)
        self.token, self.wanted = token, wanted


class TooDeep(Broken):
    """The first token at which too much is open."""


class Token:
    __slots__ = ('kind', 'text', 'at', 'end')

    def __init__(self, kind, text, at):
        self.kind, self.text, self.at = kind, text, at
        self.end = at + len(text)


class Node:
    """A part of a program: what it is, where it begins and ends in the text, and its own parts."""

    def __init__(self, kind, at, end=None, **parts):
        self.kind, self.at, self.end = kind, at, end if end is not None else at
        self.type = None
        self.__dict__.update(parts)


def end_of_name(text, at):
    """Where the name that begins at a place ends, or the place itself where none begins."""
    if not text[at].isidentifier():
        return at
    while at < len(text) and ('a' + text[at]).isidentifier():
        at += 1
    return at


def tokens_of(text):
    """The tokens of a text, in order, up to the first piece that is none; the last one is the end."""
    found, at, plain = [], 0, text.isascii()
    while at < len(text):
        piece = PIECES.match(text, at)
        kind, end = (piece.lastgroup, piece.end()) if piece else ('bad', at + 1)
        if not plain and kind in ('name', 'bad') and end_of_name(text, at) > at:
            kind, end = 'name', end_of_name(text, at)
        if kind != 'space':
            word = text[at:end]
            found.append(Token('word' if kind == 'name' and word in RESERVED else kind, word, at))
        if kind == 'bad':
            break
        at = end
    found.append(Token('end', '', len(text)))
    return found


def bytes_of(text):
    """What a text between quotes means."""
    plain = {'n': b'\n', 't': b'\t', '\\': b'\\', '"': b'"'}
    def meant(piece):
        if piece[0] != '\\':
            return piece.encode()
        return bytes([int(piece[2:], 16)]) if piece[1] == 'x' else plain.get(piece[1], b'')
    return b''.join(map(meant, re.findall(r'\\x[0-9A-Fa-f]{2}|\\.|[^\\]+', text[1:-1])))


def opened(rule):
    """A rule that counts while it is open, with the operators that were read in it."""
    def within(self):
        before = self.depth
        self.depth += 1
        found = rule(self)
        self.depth = before
        return found
    return within


class Reader:
    """Reads a program by the next token alone, and remembers what that could have been."""

    def __init__(self, text, tokens=None):
        self.text, self.tokens, self.at, self.depth = text, tokens or tokens_of(text), 0, 0
        self.missed = []        # what was looked for at the next token and is not there

    @property
    def wanted(self):
        """What the next token could have been, in the order in which it was looked for."""
        return list(dict.fromkeys(it for texts in self.missed for it in texts))

    @property
    def next(self):
        return self.tokens[self.at]

    @property
    def before(self):
        return self.tokens[self.at - 1]

    # ---- single tokens

    def sees(self, *texts):
        token = self.tokens[self.at]
        if token.text in texts and token.kind in ('mark', 'word'):
            return True
        self.missed.append(texts)
        return False

    def sees_a(self, kind):
        self.missed.append(SORTS[kind])
        return self.tokens[self.at].kind == kind

    def go_on(self):
        token = self.tokens[self.at]
        if self.depth > DEEPEST:
            raise TooDeep(token, self.wanted)
        self.at += 1
        self.missed = []
        return token

    def take(self, *texts):
        if not self.sees(*texts):
            raise Broken(self.next, self.wanted)
        return self.go_on()

    def took(self, *texts):
        return self.go_on() if self.sees(*texts) else None

    def name(self):
        if not self.sees_a('name'):
            raise Broken(self.next, self.wanted)
        return self.go_on()

    # ---- items

    def program(self):
        items = []
        while not self.sees_a('end'):
            items.append(self.a_class() if self.sees('class') else self.function())
        return items

    def a_class(self):
        start = self.take('class')
        name, fields = self.name(), []
        self.take('{')
        while not self.sees('}'):
            field = self.name()
            self.take(':')
            fields.append(Node('field', field.at, name=field.text, of=self.type()))
            self.take(';')
        return Node('class', start.at, self.take('}').end, name=name.text, name_at=name.at, fields=fields)

    def function(self):
        start = self.take('fn')
        name, parameters = self.name(), []
        self.take('(')
        if not self.sees(')'):
            parameters = self.list_of(self.parameter)
        self.take(')')
        result = self.type() if self.took(':') else None
        body = self.block()
        return Node('fn', start.at, body.end, name=name.text, name_at=name.at, parameters=parameters, result=result,
                    body=body)

    def parameter(self):
        name = self.name()
        self.take(':')
        return Node('parameter', name.at, name=name.text, of=self.type())

    def list_of(self, part):
        found = [part()]
        while self.took(','):
            found.append(part())
        return found

    @opened
    def type(self):
        if self.took('['):
            start = self.before
            inner = self.type()
            return Node('array', start.at, self.take(']').end, of=inner)
        if self.sees(*TYPES) or self.sees_a('name'):
            token = self.go_on()
            return Node('type', token.at, token.end, name=token.text)
        raise Broken(self.next, self.wanted)

    # ---- statements

    @opened
    def block(self):
        start, statements = self.take('{'), []
        while not self.sees('}'):
            statements.append(self.statement())
        return Node('block', start.at, self.take('}').end, statements=statements)

    def statement(self):
        for word in ('let', 'if', 'while', 'return', 'throw', 'sync', 'region'):
            if self.sees(word):
                return getattr(self, f'a_{word}')(self.go_on())
        target = self.expr()
        if self.sees('='):
            if target.kind not in ('name', 'member', 'element'):
                raise Broken(self.next, [it for it in self.wanted if it != '='])
            self.go_on()
            value = self.expr()
            return Node('assign', target.at, self.take(';').end, target=target, value=value)
        return Node('expr', target.at, self.take(';').end, value=target)

    def a_let(self, start):
        name = self.name()
        self.take(':')
        of = self.type()
        self.take('=')
        value = self.expr()
        return Node('let', start.at, self.take(';').end, name=name.text, name_at=name.at, of=of, value=value)

    def in_parentheses(self):
        self.take('(')
        value = self.expr()
        self.take(')')
        return value

    def a_if(self, start):
        test, then = self.in_parentheses(), self.block()
        other = self.other_block() if self.took('else') else None
        return Node('if', start.at, (other or then).end, test=test, then=then, other=other)

    def other_block(self):
        return self.block()

    def a_while(self, start):
        test, body = self.in_parentheses(), self.block()
        return Node('while', start.at, body.end, test=test, body=body)

    def a_return(self, start):
        value = None if self.sees(';') else self.expr()
        return Node('return', start.at, self.take(';').end, value=value)

    def a_throw(self, start):
        value = self.expr()
        return Node('throw', start.at, self.take(';').end, value=value)

    def a_sync(self, start):
        thing, body = self.in_parentheses(), self.block()
        return Node('sync', start.at, body.end, thing=thing, body=body)

    def a_region(self, start):
        self.take('(')
        label = self.expr()
        self.take(',')
        caps = self.expr()
        self.take(')')
        self.take('[')
        captures = [] if self.sees(']') else self.list_of(self.name)
        self.take(']')
        body = self.block()
        word, name, catch = self.a_catch()
        return Node('region', start.at, catch.end, label=label, caps=caps, captures=captures, body=body,
                    catch=catch, catch_at=word.at, name=name.text, name_at=name.at)

    def a_catch(self):
        word = self.take('catch')
        self.take('(')
        name = self.name()
        self.take(')')
        return word, name, self.block()

    # ---- expressions

    @opened
    def expr(self):
        return self.between(0)

    def between(self, level):
        """Operands with operators between them, of a level or of those that bind stronger."""
        left, here = self.unary(), len(BINARY) - 1
        while here >= level:
            if self.tokens[self.at].text not in OPERATORS:      # the same as to look for each in turn
                self.missed += reversed(BINARY[level:here + 1])
                break
            if not self.sees(*BINARY[here]):
                here -= 1
                continue
            op = self.go_on()
            self.depth += 1
            right = self.between(here + 1)
            left = Node('binary', left.at, right.end, op=op.text, op_at=op.at, left=left, right=right)
            here -= here == COMPARING
        return left

    @opened
    def unary(self):
        if self.sees('!', '-'):
            op = self.go_on()
            self.depth += 1
            value = self.unary()
            return Node('unary', op.at, value.end, op=op.text, value=value)
        return self.postfix()

    def postfix(self):
        value = self.primary()
        while self.sees('.', '['):
            if self.go_on().text == '.':
                name = self.name()
                value = Node('member', value.at, name.end, of=value, name=name.text, name_at=name.at)
            else:
                index = self.expr()
                value = Node('element', value.at, self.take(']').end, of=value, index=index)
            self.depth += 1
        return value

    def primary(self):
        for kind in ('number', 'text'):
            if self.sees_a(kind):
                token = self.go_on()
                value = int(token.text) if kind == 'number' else bytes_of(token.text)
                return Node(kind, token.at, token.end, value=value)
        if self.sees('true', 'false', 'null'):
            token = self.go_on()
            return Node('constant', token.at, token.end, value=token.text)
        if self.took('('):
            start = self.before
            value = self.expr()
            end = self.take(')').end
            value.outer = (start.at, end)
            return value
        if self.sees_a('name'):
            name = self.go_on()
            if self.sees('('):
                arguments, end = self.arguments('(', ')')
                return Node('call', name.at, end, name=name.text, arguments=arguments)
            return Node('name', name.at, name.end, name=name.text)
        for word in ('new', 'label', 'caps', 'spawn'):
            if self.sees(word):
                return getattr(self, f'made_by_{word}')(self.go_on())
        raise Broken(self.next, self.wanted)

    def arguments(self, opens, closes):
        self.take(opens)
        found = [] if self.sees(closes) else self.list_of(self.expr)
        return found, self.take(closes).end

    def made_by_new(self, start):
        if self.took('['):
            of = self.type()
            self.take(']')
            self.take('(')
            length = self.expr()
            return Node('new array', start.at, self.take(')').end, of=of, length=length)
        name = self.name()
        self.take('(')
        return Node('new', start.at, self.take(')').end, name=name.text, name_at=name.at)

    def made_by_label(self, start):
        self.take('{')
        secrecy = [] if self.sees(';') else self.list_of(self.expr)
        self.take(';')
        integrity = [] if self.sees('}') else self.list_of(self.expr)
        return Node('label', start.at, self.take('}').end, secrecy=secrecy, integrity=integrity)

    def made_by_caps(self, start):
        self.take('{')
        items = [] if self.sees('}') else self.list_of(self.capability)
        return Node('caps', start.at, self.take('}').end, items=items)

    def capability(self):
        name = self.name()
        return name, self.take('+', '-')

    def made_by_spawn(self, start):
        caps, name = self.in_parentheses(), self.name()
        arguments, end = self.arguments('(', ')')
        return Node('spawn', start.at, end, caps=caps, name=name.text, name_at=name.at, arguments=arguments)


def read(text):
    """The items of a program. Raises Broken at the first token that continues none."""
    sys.setrecursionlimit(max(sys.getrecursionlimit(), 40 * DEEPEST))
    return Reader(text).program()
