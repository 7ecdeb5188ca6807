"""Trees of a program that may have faults: the grammar is read on behind a broken statement, and each fault is noted.

The first fault is the one that `grammar.read` raises. What could not be read of a statement is a part of the kind
`broken`, with the blocks that stand in it and the names that it seems to declare."""
from . import grammar
from .grammar import Broken, Node, Token, TooDeep

STARTS = ('let', 'if', 'while', 'return', 'throw', 'sync', 'region')
ABROAD = ('for', 'try', 'foreach', 'loop', 'switch', 'do')      # words of other languages before a block
ITEMS = ('fn', 'class')


class Reader(grammar.Reader):
    """Reads on behind what is broken. `faults` has each Broken, one at most for a token."""

    def __init__(self, text, tokens=None):
        super().__init__(text, tokens)
        self.faults = []
        self.unread = []        # the names of items that could not be read

    def note(self, broken):
        if not self.faults or self.faults[-1].token.at < broken.token.at:
            broken.index = self.at
            self.faults.append(broken)

    def is_at_item(self):
        return self.next.kind == 'end' or self.next.kind == 'word' and self.next.text in ITEMS

    # ---- items

    def program(self):
        items = []
        while not self.sees_a('end'):
            self.depth, first = 0, self.at
            try:
                items.append(self.a_class() if self.sees('class') else self.function())
            except Broken as broken:
                self.note(broken)
                self.unread += self.tokens[first + 1:first + 2]
                self.at += not self.is_at_item()
                while not self.is_at_item():
                    self.at += 1
        return items

    def a_class(self):
        start, name, fields = self.take('class'), self.name(), []
        self.take('{')
        while not self.sees('}'):
            try:
                self.field(fields)
            except TooDeep:
                raise
            except Broken as broken:
                self.note(broken)
                if self.is_at_item():
                    break
                while not self.is_at_item() and self.next.text != '}' and self.go_by().text != ';':
                    pass
        end = self.next.at if self.is_at_item() else self.go_on().end
        return Node('class', start.at, end, name=name.text, name_at=name.at, fields=fields)

    def go_by(self):
        """The next token, which is not read."""
        self.at, self.missed = self.at + 1, []
        return self.before

    def field(self, fields):
        name = self.name()
        self.take(':')
        fields.append(Node('field', name.at, name=name.text, of=self.type()))
        self.take(';')

    def function(self):
        first = self.at
        try:
            return super().function()
        except TooDeep:
            raise
        except Broken as broken:
            return self.vague_function(first, broken)

    def vague_function(self, first, broken):
        """A function whose head is broken: what its body says all the same."""
        self.note(broken)
        start, name = self.tokens[first], self.tokens[min(first + 1, len(self.tokens) - 1)]
        while not self.is_at_item() and self.next.text != '{':
            self.go_by()
        if start.text != 'fn' or name.kind != 'name' or self.next.text != '{':
            raise broken
        names = [it for it in self.tokens[first + 2:self.at] if it.kind == 'name']
        self.depth = 0
        body = self.block()
        return Node('fn', start.at, body.end, name=name.text, name_at=name.at, parameters=[], result=None, body=body, names=names)

    def take(self, *texts):
        """As it is, but a `;` that a line lacks at its end is noted alone."""
        if texts == (';',) and not self.sees(';') and (self.is_on_later_line() or self.next.text == '}'):
            self.note(Broken(self.next, self.wanted))
            return Token('mark', '', self.before.end)
        return super().take(*texts)

    def is_on_later_line(self):
        return self.at > 0 and '\n' in self.text[self.before.end:self.next.at]

    # ---- statements

    def block(self):
        before = self.depth
        self.depth += 1
        start, statements = self.take('{'), []
        while not self.sees('}'):
            first = self.at
            try:
                statements.append(self.statement())
            except TooDeep:
                raise
            except Broken as broken:
                self.note(broken)
                if self.is_at_item():
                    break
                self.depth = before + 1
                statements.append(self.rest_of(first, broken))
        end = self.next.at if self.is_at_item() else self.go_on().end
        self.depth = before
        return Node('block', start.at, end, statements=statements)

    def rest_of(self, first, broken):
        """Goes to the end of a statement that is broken, and reads the blocks on the way."""
        words, blocks = self.tokens[first:self.at], []
        braces = sum(it.text == '{' for it in words) - sum(it.text == '}' for it in words)
        is_abroad = self.tokens[first].text in ABROAD and self.tokens[first].kind == 'name'
        if self.at == first and self.next.text != '{':
            words.append(self.go_by())
        while not self.is_at_item() and not self.ends_here(braces):
            if self.next.text == '{' and self.next.kind == 'mark' and self.before.text not in ('label', 'caps'):
                blocks.append(self.block())
                if not self.sees('catch', 'else'):
                    break
                continue
            token = self.go_by()
            words.append(token)
            if token.kind == 'mark':
                braces += (token.text == '{') - (token.text == '}')
                if token.text == ';' and not is_abroad and braces < 1:
                    break
        self.missed = []
        return Node('broken', self.tokens[first].at, self.before.end, blocks=blocks, names=list(names_in(words)))

    def ends_here(self, braces):
        """Whether the next token belongs to what is behind the statement."""
        token = self.next
        if braces > 0 or token.kind not in ('mark', 'word'):
            return False
        return token.text == '}' or token.kind == 'word' and token.text in STARTS and \
            (self.is_on_later_line() or self.before.text in (';', '{', '}'))

    def other_block(self):
        """As it is, but `else if` is noted and read on."""
        if not self.sees('{') and self.next.text == 'if' and self.next.kind == 'word':
            self.note(Broken(self.next, self.wanted))
            start = self.next.at
            statement = self.statement()
            return Node('block', start, statement.end, statements=[statement])
        return self.block()

    def a_catch(self):
        """As it is, but a region without a catch block is noted and taken."""
        if self.sees('catch'):
            return super().a_catch()
        self.note(Broken(self.next, self.wanted))
        at = self.before.end
        return Token('word', '', at), Token('name', '', at), Node('block', at, at, statements=[])


def names_in(tokens):
    """The names that a broken statement seems to declare, outside of its blocks."""
    for at, token in enumerate(tokens[:-1]):
        if token.text == '{' and tokens[at - 1].text not in ('label', 'caps'):
            return
        after = tokens[at + 1]
        if token.text in ('let', 'var', 'catch') and token.kind in ('word', 'name'):
            after = tokens[at + 2] if after.text == '(' and at + 2 < len(tokens) else after
            if after.kind == 'name':
                yield after
        elif token.kind == 'name' and after.text == ':' and (at == 0 or tokens[at - 1].text in ('(', ',')):
            yield token
