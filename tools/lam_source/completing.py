"""What could be typed at a place of a program: fields after a point, else names, calls, types and words.

A program that is being typed is seldom whole, so this goes by the tokens before the place alone."""
from . import calls, grammar, pointing

FUNCTION, FIELD, VARIABLE, CLASS, KEYWORD = 3, 5, 6, 7, 14     # kinds of completions in the protocol
OPENS, CLOSES = {'(': ')', '[': ']', '{': '}'}, {')': '(', ']': '[', '}': '{'}


class Tokens:
    """The tokens of a chunk before a place, and what the whole text declares."""

    def __init__(self, whole, at):
        chunk = whole.chunk_at(at)
        self.typing = whole.typing
        self.before = [it for it in chunk.tokens if it.end <= at - chunk.base and it.kind != 'end']
        self.before = self.before[:-1] if self.before and self.before[-1].kind in ('name', 'word') and \
            self.before[-1].end == at - chunk.base else self.before

    def texts(self, at, count):
        return [it.text for it in self.before[at:at + count]]

    def fields(self, of):
        """The fields of a class with their types."""
        item = self.typing.classes.get(of)
        return {it.name: pointing.written(it.of) for it in item.fields} if item else {}

    def functions(self):
        """The result's type of each function, or None."""
        return {name: pointing.written(it.result) if it.result else None for name, it in self.typing.functions.items()}

    def variables(self):
        """The variables of the function that is typed that are in scope, with their types."""
        start = max((at for at, it in enumerate(self.before) if it.kind == 'word' and it.text in ('fn', 'class')), default=0)
        scopes, at = [{}], start
        while at < len(self.before):
            text = self.before[at].text
            if text == '{':
                scopes.append({})
            elif text == '}' and len(scopes) > 1:
                scopes.pop()
            elif self.before[at].kind == 'name' and self.texts(at + 1, 1) == [':']:
                scopes[-1][text] = self.type_at(at + 2)
            elif text == 'catch' and len(self.texts(at, 3)) == 3:
                scopes.append({self.before[at + 2].text: 'int'})      # of its block, which is one more
            at += 1
        return {name: of for scope in scopes for name, of in scope.items()}

    def type_at(self, at):
        """The type that is written at a token."""
        end = at
        while end < len(self.before) and (self.before[end].text in '[]' or self.before[end].kind in ('name', 'word')):
            end += 1
        return ''.join(it.text for it in self.before[at:end])

    # ---- the thing before a point

    def chain(self):
        """The tokens of the thing before the point that stands last, or None."""
        if not self.before or self.before[-1].text != '.':
            return None
        end = at = len(self.before) - 1
        while at > 0:
            text = self.before[at - 1].text
            if text in CLOSES:
                at = self.opening(at - 1)
            elif self.before[at - 1].kind == 'name' or text in ('.', 'new'):
                at -= 1
            else:
                break
        return self.before[at:end]

    def opening(self, at):
        """The index of the bracket that a closing one belongs to."""
        depth = 0
        for here in range(at, -1, -1):
            text = self.before[here].text
            depth += (text in CLOSES) - (text in OPENS)
            if depth == 0:
                return here
        return 0

    def type_of(self, chain):
        """The type of a thing: a name, a call or `new C()`, and then fields and elements."""
        texts, at = [it.text for it in chain], 0
        if texts[:1] == ['new']:
            of, at = (texts + [''])[1], 2
        elif texts:
            called = texts[1:2] == ['(']
            result = self.functions().get(texts[0]) or self.built_in(texts)
            of, at = result if called else self.variables().get(texts[0]), 1
        while of and at < len(texts):
            if texts[at] == '.':
                of, at = self.fields(of).get((texts + [''])[at + 1]), at + 2
            else:
                of, at = of[1:-1] if texts[at] == '[' else of, matching(texts, at) + 1
        return of

    def built_in(self, texts):
        """The result's type of a built-in call; that of `copy` is the type of what is copied."""
        if texts[0] == 'copy' and len(texts) > 2:
            return self.variables().get(texts[2])
        return calls.CALLS[texts[0]][0].rpartition(': ')[2] if texts[0] in calls.CALLS else None


def matching(texts, at):
    """The index of the bracket that closes the one at an index."""
    depth = 0
    for here in range(at, len(texts)):
        depth += (texts[here] in OPENS) - (texts[here] in CLOSES)
        if depth == 0:
            return here
    return len(texts)


def item(label, kind, detail=None, told=None):
    found = {'label': label, 'kind': kind, 'detail': detail, 'documentation': told}
    return {name: value for name, value in found.items() if value}


def completions(whole, at):
    """What could be typed at a place."""
    tokens = Tokens(whole, at)
    chain = tokens.chain()
    if chain is not None:
        return [item(name, FIELD, of) for name, of in (tokens.fields(tokens.type_of(chain)) if chain else {}).items()]
    classes = [item(name, CLASS) for name in tokens.typing.classes]
    if tokens.before and tokens.before[-1].text == ':':
        return [item(name, KEYWORD) for name in grammar.TYPES] + classes
    if tokens.before and tokens.before[-1].text == 'new':
        return classes
    return [*(item(name, VARIABLE, of) for name, of in tokens.variables().items()),
            *(item(name, FUNCTION, signature, ' '.join(calls.tests_of(tests, faults)))
              for name, (signature, tests, faults) in calls.CALLS.items()),
            *(item(name, FUNCTION, of) for name, of in tokens.functions().items()),
            *(item(word, KEYWORD) for word in sorted(grammar.RESERVED - set(grammar.TYPES)))]
