"""The code of a program with the part of the source that each operation comes from, by the scheme of docs/LANGUAGE.md.

`lam code P` prints the code that counts. This makes the same one from the tree, so that it is known where each operation
comes from; who uses it compares the two.
"""
from . import grammar, regions, types

OPERATIONS = {'+': 'add', '-': 'sub', '*': 'mul', '/': 'div', '%': 'rem', '==': 'eq', '!=': 'ne', '<': 'lt', '<=': 'le',
              '>': 'gt', '>=': 'ge'}


class Op:
    """An operation: its name and operands as they are printed, and the place in the text that it comes from."""

    def __init__(self, name, operands, at, end):
        self.name, self.operands, self.at, self.end = name, operands, at, end

    def text(self):
        return ' '.join([self.name, *map(str, self.operands)])


class Unit:
    def __init__(self, number, kind, name, node):
        self.number, self.kind, self.name, self.node = number, kind, name, node
        self.ops, self.locals, self.names = [], 0, []
        self.takes, self.catch = 0, None


def regions_in(node, found):
    """The regions of a part of a program in the order of their words."""
    if isinstance(node, list):
        for part in node:
            regions_in(part, found)
    elif isinstance(node, grammar.Node):
        if node.kind == 'region':
            found.append(node)
        for name in ('body', 'statements', 'then', 'other', 'catch'):
            regions_in(getattr(node, name, None), found)
    return found


class Emitter:
    def __init__(self, items):
        self.items = items
        self.classes = [it for it in items if it.kind == 'class']
        self.functions = [it for it in items if it.kind == 'fn']
        self.regions = [it for item in self.functions for it in regions_in(item.body, [])]
        self.class_numbers = {it.name: at for at, it in enumerate(self.classes)}
        self.numbers = {it.name: at for at, it in enumerate(self.functions)}
        self.unit, self.slots, self.open = None, {}, []

    def units(self):
        made = [self.function(number, it) for number, it in enumerate(self.functions)]
        return made + [self.region(len(made) + number, number, it) for number, it in enumerate(self.regions)]

    # ---- units

    def begin(self, unit, locals_, names):
        self.unit, self.slots, self.open = unit, {}, []
        for local, name in zip(locals_, names):
            self.slots[local] = self.slot(name)
        unit.takes = unit.locals

    def slot(self, name):
        self.unit.locals += 1
        self.unit.names.append(name)
        return self.unit.locals - 1

    def slot_of(self, local, at, kind='OuterRead'):
        """The slot of a local, which a region has only of its own ones and of those that it captured."""
        if local not in self.slots:
            raise types.Break(kind, at, name=local.name)
        return self.slots[local]

    def function(self, number, it):
        unit = Unit(number, 'fn', it.name, it)
        self.begin(unit, it.locals, [local.name for local in it.locals])
        self.block(it.body)
        self.put('const', 'null', at=it.body.end - 1)
        self.put('ret', at=it.body.end - 1)
        return unit

    def region(self, number, region, it):
        unit = Unit(number, 'region', region, it)
        self.begin(unit, it.captured, [local.name for local in it.captured])
        self.block(it.body)
        self.put('leave', at=it.body.end - 1)
        unit.catch = len(unit.ops)
        self.slots[it.local] = self.slot(it.name)
        self.put('store', self.slots[it.local], at=it.catch_at, end=it.catch_at + 5)
        self.block(it.catch)
        self.put('leave', at=it.catch.end - 1)
        return unit

    def put(self, name, *operands, at, end=None):
        self.unit.ops.append(Op(name, list(operands), at, end if end is not None else at + 1))
        return self.unit.ops[-1]

    def here(self):
        return len(self.unit.ops)

    # ---- statements

    def block(self, block):
        for statement in block.statements:
            getattr(self, f'of_{statement.kind}')(statement)

    def of_let(self, it):
        self.expr(it.value)
        self.slots[it.local] = self.slot(it.name)
        self.put('store', self.slots[it.local], at=it.at, end=it.end)

    def of_if(self, it):
        self.expr(it.test)
        past = self.put('jumpf', 0, at=it.at, end=it.at + 2)
        self.block(it.then)
        if it.other:
            out = self.put('jump', 0, at=it.then.end - 1)
            past.operands = [self.here()]
            self.block(it.other)
            out.operands = [self.here()]
        else:
            past.operands = [self.here()]

    def of_while(self, it):
        again = self.here()
        self.expr(it.test)
        past = self.put('jumpf', 0, at=it.at, end=it.at + 5)
        self.block(it.body)
        self.put('jump', again, at=it.body.end - 1)
        past.operands = [self.here()]

    def of_return(self, it):
        if it.value is None:
            self.put('const', 'null', at=it.at, end=it.end)
        else:
            self.expr(it.value)
        for slot in reversed(self.open):
            self.put('load', slot, at=it.at, end=it.end)
            self.put('mleave', at=it.at, end=it.end)
        self.put('ret', at=it.at, end=it.end)

    def of_throw(self, it):
        self.expr(it.value)
        self.put('throw', at=it.at, end=it.end)

    def of_sync(self, it):
        self.expr(it.thing)
        slot = self.slot('')
        head = {'at': it.at, 'end': it.body.at}
        self.put('store', slot, **head)
        self.put('load', slot, **head)
        self.put('menter', **head)
        self.open.append(slot)
        self.block(it.body)
        self.open.pop()
        self.put('load', slot, at=it.end - 1)
        self.put('mleave', at=it.end - 1)

    def of_region(self, it):
        self.expr(it.label)
        self.expr(it.caps)
        for local, name in zip(it.captured, it.captures):
            self.put('load', self.slot_of(local, name.at), at=name.at, end=name.end)
        self.put('enter', self.regions.index(it), at=it.at, end=it.body.at)

    def of_expr(self, it):
        self.expr(it.value)
        self.put('pop', at=it.at, end=it.end)

    def of_assign(self, it):
        target = it.target
        if target.kind == 'name':
            self.expr(it.value)
            self.put('store', self.slot_of(target.local, target.at, 'OuterWrite'), at=it.at, end=it.end)
        elif target.kind == 'member':
            self.expr(target.of)
            self.expr(it.value)
            self.put('wbar', 1, at=it.at, end=it.end)
            self.put('put', target.place, at=it.at, end=it.end)
        else:
            self.expr(target.of)
            self.expr(target.index)
            self.expr(it.value)
            self.put('wbar', 2, at=it.at, end=it.end)
            self.put('puta', at=it.at, end=it.end)

    # ---- expressions

    def expr(self, node):
        getattr(self, 'is_' + node.kind.replace(' ', '_'))(node, {'at': node.at, 'end': node.end})

    def is_number(self, node, place):
        self.put('const', node.value, **place)

    def is_text(self, node, place):
        self.put('const', shown_bytes(node.value), **place)

    def is_constant(self, node, place):
        self.put('const', node.value, **place)

    def is_name(self, node, place):
        self.put('load', self.slot_of(node.local, node.at), **place)

    def is_unary(self, node, place):
        self.expr(node.value)
        self.put('not' if node.op == '!' else 'neg', **place)

    def is_binary(self, node, place):
        self.expr(node.left)
        if node.op not in ('&&', '||'):
            self.expr(node.right)
            self.put(OPERATIONS[node.op], **place)
            return
        first = self.put('jumpf', 0, **place)
        if node.op == '&&':
            self.expr(node.right)
            out = self.put('jump', 0, **place)
            first.operands = [self.here()]
            self.put('const', 'false', **place)
        else:
            self.put('const', 'true', **place)
            out = self.put('jump', 0, **place)
            first.operands = [self.here()]
            self.expr(node.right)
        out.operands = [self.here()]

    def is_member(self, node, place):
        self.expr(node.of)
        self.put('rbar', 0, **place)
        self.put('get', node.place, **place)

    def is_element(self, node, place):
        self.expr(node.of)
        self.expr(node.index)
        self.put('rbar', 1, **place)
        self.put('geta', **place)

    def is_new(self, node, place):
        self.put('new', self.class_numbers[node.name], **place)

    def is_new_array(self, node, place):
        self.expr(node.length)
        of = node.type[1]
        self.put('newa', of if of in ('int', 'bool') else 'null', **place)

    def is_label(self, node, place):
        for item in node.secrecy + node.integrity:
            self.expr(item)
        self.put('label', len(node.secrecy), len(node.integrity), **place)

    def is_caps(self, node, place):
        self.put('caps0', **place)
        for local, (name, sign) in zip(node.locals, node.items):
            self.put('load', self.slot_of(local, name.at), **place)
            self.put('capp' if sign.text == '+' else 'capm', **place)

    def is_spawn(self, node, place):
        self.expr(node.caps)
        for argument in node.arguments:
            self.expr(argument)
        self.put('spawn', self.numbers[node.name], **place)

    def is_call(self, node, place):
        for argument in node.arguments:
            self.expr(argument)
        if node.name in types.BUILTINS:
            self.put('sys', node.name, **place)
        else:
            self.put('call', self.numbers[node.name], **place)


def shown_bytes(value):
    """Bytes as the lines of `lam` have them."""
    def shown(byte):
        if byte in b'"\\':
            return '\\' + chr(byte)
        return chr(byte) if 32 <= byte <= 126 else f'\\x{byte:02x}'
    return '"' + ''.join(map(shown, value)) + '"'


def legal_items(text):
    """The items of a program with their types. Raises Broken or Break at its first fault."""
    items = grammar.read(text)
    types.typed(items)
    regions.look(items)
    return items


class Code:
    """The units of a program, and the names of what it declares.

    With a listing, the operations are those that `lam code` printed, each with the place of the one that the scheme has.
    Who has read the text already, and found it legal, gives its items."""

    def __init__(self, text, listing=None, legal=None):
        items = legal or legal_items(text)
        emitter = Emitter(items)
        self.text, self.units = text, emitter.units()
        self.classes, self.functions = emitter.classes, emitter.functions
        self.of_regions = self.units[len(self.functions):]
        if listing is not None and listing != self.listing():
            self.follow(listing)

    def listing(self):
        """What `lam code` prints."""
        lines = []
        for unit in self.units:
            kind = unit.name if unit.kind == 'fn' else f'region {unit.name}'
            catch = '' if unit.catch is None else f' catch {unit.catch}'
            lines.append(f'unit {unit.number} {kind} locals {unit.locals}{catch}')
            lines += [f'{at} {op.text()}' for at, op in enumerate(unit.ops)]
        return ''.join(f'{line}\n' for line in lines)

    def follow(self, listing):
        """Takes the operations of a listing, which may lack barriers that the scheme has."""
        found = None
        for line in listing.splitlines():
            words = line.split(' ')
            if words[0] == 'unit':
                unit = self.units[int(words[1])]
                found, unit.ops = iter(unit.ops), []
                if 'catch' in words:
                    unit.catch = int(words[-1])
                continue
            scheme = next(op for op in found if op.name == words[1] or op.name not in ('rbar', 'wbar'))
            operands = [' '.join(words[2:])] if words[1] == 'const' else words[2:]
            unit.ops.append(Op(words[1], list(map(operand, operands)), scheme.at, scheme.end))


def operand(text):
    return int(text) if text.lstrip('-').isdigit() else text
