"""Small programs, worlds and schedules that are drawn from a number, to try this reading of the language with.

A drawn program keeps all rules of types and regions; what it does in its world is refused or faults often enough.
"""
import itertools
import json
import random

from . import types

CLASSES = {'Pair': [('left', 'int'), ('right', 'bytes')], 'Node': [('count', 'int'), ('next', 'Node'), ('marks', '[int]')]}
PLAIN = ['int', 'bool', 'bytes', 'label', 'Pair', 'Node', '[int]', '[Pair]']
RARE = ['file', 'dir', 'caps', 'pipe', 'thread', 'tag']
ENTRIES = ['f', 'g', 'd', 'new', '.', 'a/b']
TAKES = ['pipe', 'tag', 'tag', 'int']       # each function takes a pipe, two tags and a number
LABELS = ['{}/{}', '{a}/{}', '{a,b}/{}', '{}/{v}', '{b}/{v}']
KINDS = ['read', 'export', 'integrity']
DEEPEST, LONGEST = 3, 4


class Drawn:
    """One drawn program; `scope` has the variables that may be used, by name, with their types."""

    def __init__(self, die):
        self.die, self.scope, self.count, self.depth, self.callable = die, {}, 0, 0, 0

    def one(self, *among):
        return self.die.choice(among)

    def chance(self, part):
        return self.die.random() < part

    def name(self):
        self.count += 1
        return f'v{self.count}'

    def variables(self, of):
        return [name for name, known in self.scope.items() if known == of]

    # ---- the program

    def program(self):
        parts = ['class {} {{ {} }}'.format(name, ' '.join(f'{field}: {of};' for field, of in fields))
                 for name, fields in CLASSES.items()]
        for number in range(self.die.randint(2, 3)):
            self.callable = number
            parts.append(self.function(number))
        return '\n'.join(parts) + '\n'

    def function(self, number):
        names = [self.name() for _ in TAKES]
        self.scope = dict(zip(names, TAKES))
        takes = ', '.join(f'{name}: {of}' for name, of in self.scope.items())
        thing = self.name()
        self.scope[thing] = 'Pair'
        body = self.block(self.die.randint(4, 7), f'return {self.of("int")};')
        return f'fn f{number}({takes}): int {{ let {thing}: Pair = new Pair(); {body[2:]}'

    def block(self, count, last=''):
        """Some statements between braces; what they declare is in scope there alone."""
        outer, self.depth = dict(self.scope), self.depth + 1
        said = [self.guarded() if self.depth == 1 else self.statement() for _ in range(count)]
        self.scope, self.depth = outer, self.depth - 1
        return '{ ' + ' '.join([*said, last]) + ' }'

    # ---- statements

    def guarded(self):
        """A statement of a function, often in a region of the same label, so that a fault does not end the function."""
        if self.chance(0.25):
            return self.a_let(self.one(*PLAIN[:5]))
        outer = dict(self.scope)
        body, name = self.statement(), self.name()
        if body.startswith('let') and self.chance(0.3):
            return body
        self.scope = outer
        return f'region (my_label(), my_caps()) [{", ".join(outer)}] {{ {body} }} ' \
               f'catch ({name}) {{ say(text({name})); }}'

    def statement(self):
        shallow = self.depth <= DEEPEST
        forms = [self.a_let] * 5 + [self.an_assignment] * 4 + [self.a_say] * 4 + [self.a_call] * 4
        forms += [self.a_region] * 3 + [self.an_if, self.a_while, self.a_sync] if shallow else []
        forms += [self.a_throw] if self.chance(0.1) else []
        return self.die.choice(forms)()

    def a_let(self, of=None):
        of = of or self.die.choice(PLAIN * 2 + RARE)
        value, name = self.of(of), self.name()
        self.scope[name] = of
        return f'let {name}: {of} = {value};'

    def an_assignment(self):
        pairs, lists = self.variables('Pair'), self.variables('[int]')
        own = [name for name in self.scope if self.scope[name] in PLAIN]
        forms = [lambda: f'{self.one(*pairs)}.left = {self.of("int")};', lambda: twice(self.one(*pairs))] if pairs else []
        forms += [lambda: f'{self.one(*lists)}[{self.of("int")}] = {self.of("int")};'] if lists else []
        if own:
            name = self.one(*own)
            forms.append(lambda: f'{name} = {self.of(self.scope[name])};')
        return self.die.choice(forms)() if forms else self.a_say()

    def a_say(self):
        """Something that shows: bytes, a number, or a message that waits."""
        forms = [f'say({self.of("bytes")});', f'say(text({self.arithmetic()}));', f'say(text({self.of("int")}));']
        pipes = self.variables('pipe')
        return self.one(*forms, *([f'say(receive({self.one(*pipes)}));'] if pipes else []))

    def arithmetic(self):
        """A sum with signs and sizes that matter."""
        left, right = (self.one('7', '(-7)', '3', '(-3)', '(-1)', '0', '9223372036854775807', '9223372036854775807') for _ in 'lr')
        return f'{left} {self.one("+", "-", "*", "/", "/", "%", "%")} {right}'
    def a_call(self):
        name = self.one('send', 'send_caps', 'append', 'cut', 'remove', 'receive', 'receive_caps', 'read', 'join', 'copy', 'length')
        return f'{self.call(name)};'

    def a_throw(self):
        return f'throw {self.of("int")};'

    def an_if(self):
        other = f' else {self.block(1)}' if self.chance(0.5) else ''
        return f'if ({self.of("bool")}) {self.block(2)}{other}'

    def a_while(self):
        name = self.name()
        return f'let {name}: int = 0; while ({name} < {self.die.randint(1, 3)}) ' + self.block(2, f'{name} = {name} + 1;')

    def a_sync(self):
        return f'sync ({self.one(*self.variables("Pair")) if self.variables("Pair") else "new Pair()"}) {self.block(2)}'

    def a_region(self):
        label, caps, outer = self.of('label'), self.of('caps'), self.scope
        taken = [name for name in outer if self.chance(0.6)]
        self.scope = {name: outer[name] for name in taken}
        body, name = self.block(self.die.randint(1, LONGEST)), self.name()
        self.scope[name] = 'int'
        catch = self.block(self.die.randint(0, 1))
        self.scope = outer
        return f'region ({label}, {caps}) [{", ".join(taken)}] {body} catch ({name}) {catch}'

    # ---- expressions

    def of(self, of, depth=2):
        """An expression of a type."""
        known = self.variables(of)
        if known and self.chance(0.6):
            return self.one(*known)
        return getattr(self, 'some_' + {'[int]': 'list', '[Pair]': 'pairs'}.get(of, of))(depth)

    def call(self, name, depth=1):
        given = {'[]': '[int]', 'a thing': 'Pair', 'what is labelled': self.one('Pair', 'file', 'pipe')}
        takes = types.BUILTINS[name][0]
        return f'{name}({", ".join(self.argument(given.get(of, of), depth) for of in takes)})'

    def argument(self, of, depth):
        if of == 'bytes' and self.chance(0.6):
            return f'"{self.one(*ENTRIES)}"'
        return self.one('0', '1') if of == 'int' and self.chance(0.7) else self.of(of, depth - 1)

    def some_int(self, depth):
        if depth <= 0 or self.chance(0.4):
            return self.one('0', '0', '1', '1', '2') if self.chance(0.9) else self.one('-1', '70', '9223372036854775807')
        two = f'{self.one("+", "+", "-", "*", "/", "%")} {self.of("int", depth - 1)}'
        forms = [f'({self.of("int", depth - 1)} {two})', f'(-{self.of("int", depth - 1)})', self.call('len', depth),
                 self.call('size', depth), self.call('byte', depth), f'number({self.one(chr(34) + "12" + chr(34), "text(3)", self.of("bytes", 0))})',
                 f'{self.of("Pair", depth - 1)}.left', f'{self.of("[int]", depth - 1)}[{self.of("int", depth - 1)}]']
        if self.callable and self.chance(0.5):
            forms.append(self.call_own(depth))
        return self.die.choice(forms)

    def call_own(self, depth):
        return f'f{self.die.randrange(self.callable)}({", ".join(self.of(it, depth - 1) for it in TAKES)})'

    def some_bool(self, depth):
        if depth <= 0:
            return self.one('true', 'false')
        left, right = self.of('int', depth - 1), self.of('int', depth - 1)
        return self.one(f'{left} {self.one("<", "<=", "==", "!=", ">", ">=")} {right}', f'!({self.of("bool", depth - 1)})',
                        f'({self.of("bool", depth - 1)} {self.one("&&", "||")} {self.of("bool", depth - 1)})',
                        f'{self.of("Node", depth - 1)}.next {self.one("==", "!=")} null',
                        f'{self.of("label", depth - 1)} == {self.of("label", depth - 1)}')

    def some_bytes(self, depth):
        if depth <= 0 or self.chance(0.4):
            return self.one('"x"', '"12"', '"\\n\\x00\\\\é"', '""')
        return self.call(self.one('cat', 'slice', 'text', 'text', 'receive', 'read'), depth)

    def some_label(self, _):
        tags = self.variables('tag')
        if not tags or self.chance(0.2):
            return self.one('label{;}', 'my_label()')
        sides = [', '.join(tag for tag in tags[:2] if self.chance(part)) for part in (0.4, 0.2)]
        return f'label{{{sides[0]}; {sides[1]}}}'

    def some_caps(self, _):
        tags = self.variables('tag')
        if not tags or self.chance(0.3):
            return self.one('caps{}', 'my_caps()')
        return 'caps{' + ', '.join(f'{tag}{self.one("+", "-")}' for tag in tags[:2] if self.chance(0.5)) + '}'

    def some_tag(self, _):
        return 'mint()'

    def some_Pair(self, depth):
        return self.call('copy', depth) if depth > 0 and self.chance(0.2) else 'new Pair()'

    def some_Node(self, depth):
        return f'{self.of("Node", depth - 1)}.next' if depth > 0 and self.chance(0.2) else 'new Node()'

    def some_list(self, _):
        return f'new [int]({self.one("0", "1", "3")})'

    def some_pairs(self, _):
        return f'new [Pair]({self.one("1", "2")})'

    def some_file(self, depth):
        if self.chance(0.3):
            return self.call('make_file', depth)
        return f'open_file({self.of("dir", depth - 1) if self.chance(0.3) else "root()"}, "{self.one(*ENTRIES[:2])}")'

    def some_dir(self, depth):
        return self.call(self.one('open_dir', 'make_dir'), depth) if depth > 0 and self.chance(0.4) else 'root()'

    def some_pipe(self, depth):
        return self.call('make_pipe', depth)

    def some_thread(self, depth):
        if not self.callable:
            return 'null'
        caps = self.of('caps', depth - 1)
        return f'spawn({caps}) {self.call_own(depth)}'


def twice(name):
    """Accesses of one thing, of which the later ones need no barrier."""
    return f'{name}.left = {name}.left + {name}.left + 1; say(text({name}.left));'


def world(die):
    """A world document for a drawn program."""
    kinds = [die.choice(KINDS) for _ in 'abv']
    whole = die.random() < 0.5
    tags = list('abv') if whole else [{'name': name, 'kind': kind} for name, kind in zip('abv', kinds)]
    held = [sorted(die.sample('abv', die.randint(0, 3))) for _ in range(6)]
    def thread(at):
        given = [{'pipe': die.choice('pq')}, {'tag': die.choice('abv')}, {'tag': die.choice('abv')}, {'int': die.randint(-2, 5)}]
        return {'run': f'f{die.randint(0, 1)}', 'args': given, 'caps': {'plus': held[2 * at], 'minus': held[2 * at + 1]}}
    return json.dumps({
        'version': 1 if whole else 2, 'tags': tags,
        'tree': [{'path': 'd', 'label': die.choice(LABELS[:2]), 'dir': True},
                 {'path': 'f', 'label': die.choice(LABELS), 'text': 'some text'},
                 {'path': 'd/g', 'label': die.choice(LABELS), 'text': '42'}],
        'pipes': [{'name': name, 'label': die.choice(LABELS)} for name in 'pq'],
        'threads': [thread(at) for at in range(die.randint(1, 3))]}, indent=1)


def turns(die, state, most):
    """Turns of a run from a world's start, which it takes meanwhile: stretches of threads that are drawn."""
    taken = []
    while len(taken) < most:
        ready = [it.number for it in state.lives() if state.is_ready(it.number)]
        if not ready:
            break
        thread = die.choice(ready)
        for _ in range(die.choice((1, 1, 3, 10, 40))):
            if len(taken) == most or not state.is_ready(thread):
                break
            state.take(thread)
            taken.append(thread)
    return taken


def book(turns_taken):
    """The text of the book of these turns."""
    return 'lam book 1\n' + ''.join(f'{thread} {len(list(same))}\n' for thread, same in itertools.groupby(turns_taken))


def broken(die, text, tokens):
    """A program with one token left out, doubled, or in the place of another."""
    one, other = die.choice(tokens[:-1]), die.choice(tokens[:-1])
    put = die.choice(['', f'{one.text} {one.text}', other.text, other.text, die.choice(
        ['&', '"', '"\\q"', '99999999999999999999', '1x', '!', '(', 'return', 'region', 'null', '0', 'true', 'my_label()'])])
    return text[:one.at] + put + text[one.end:]


def drawn(number):
    """The die, the program and the world document of a number."""
    die = random.Random(number)
    return die, Drawn(die).program(), world(die)
