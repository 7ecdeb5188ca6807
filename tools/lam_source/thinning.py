"""Leaves out the barriers of a program's code that test again, as every run of `lam` does (docs/LANGUAGE.md).

What is known at each address of a unit are marks: for which rules each operand and each local was tested, and of which
local an operand is a copy. Where paths meet, what both know stays. A barrier whose operand has the mark of its rule
already always passes. The code of a program has no break (that is proved), so kinds of values play no part here.
"""
from . import types

RULES = {'rbar': 'reading', 'wbar': 'writing'}
# How many operands each operation takes, and how many it gives.
TRADES = {'const': (0, 1), 'pop': (1, 0), 'neg': (1, 1), 'not': (1, 1), 'jump': (0, 0), 'jumpf': (1, 0), 'ret': (1, 0),
          'throw': (1, 0), 'get': (1, 1), 'put': (2, 0), 'geta': (2, 1), 'puta': (3, 0), 'new': (0, 1), 'newa': (1, 1),
          'caps0': (0, 1), 'capp': (2, 1), 'capm': (2, 1), 'menter': (1, 0), 'mleave': (1, 0), 'leave': (0, 0)}
TRADES.update((name, (2, 1)) for name in 'add sub mul div rem eq ne lt le gt ge'.split())
ENDING = ('ret', 'throw', 'leave')
UNTESTED = frozenset()


class Known:
    """What is known at an address: of each operand its marks and the local that it copies, of each local its marks."""

    def __init__(self, stack, locals_):
        self.stack, self.locals = stack, locals_

    def __eq__(self, other):
        return (self.stack, self.locals) == (other.stack, other.locals)

    def met(self, other):
        """What is left where two paths meet."""
        both = [(marks & more, copies if copies == same else None)
                for (marks, copies), (more, same) in zip(self.stack, other.stack)]
        return Known(both, [marks & more for marks, more in zip(self.locals, other.locals)])

    def is_tested(self, op):
        """Whether the operand of a barrier has the mark of its rule already."""
        return RULES[op.name] in self.stack[-1 - op.operands[0]][0]

    def tested(self, op):
        """After a barrier: its operand is tested, with the local that it copies and all copies of that local."""
        mark = {RULES[op.name]}
        at = len(self.stack) - 1 - op.operands[0]
        local = self.stack[at][1]
        stack = [(marks | mark, copies) if here == at or local is not None and copies == local else (marks, copies)
                 for here, (marks, copies) in enumerate(self.stack)]
        return Known(stack, [marks | mark if number == local else marks for number, marks in enumerate(self.locals)])

    def stored(self, slot):
        """After a store: the local has the marks of the top, and no operand copies it any more."""
        locals_ = list(self.locals)
        locals_[slot] = self.stack[-1][0]
        return Known([(marks, None if copies == slot else copies) for marks, copies in self.stack[:-1]], locals_)

    def after(self, code, op):
        if op.name in RULES:
            return self.tested(op)
        if op.name == 'load':
            return Known([*self.stack, (self.locals[op.operands[0]], op.operands[0])], self.locals)
        if op.name == 'store':
            return self.stored(op.operands[0])
        takes, gives = trade(code, op)
        return Known(self.stack[:len(self.stack) - takes] + [(UNTESTED, None)] * gives, self.locals)


def trade(code, op):
    """How many operands an operation takes and gives."""
    if op.name == 'call':
        return code.units[op.operands[0]].takes, 1
    if op.name == 'spawn':
        return code.units[op.operands[0]].takes + 1, 1
    if op.name == 'enter':
        return code.of_regions[op.operands[0]].takes + 2, 0
    if op.name == 'label':
        return sum(op.operands), 1
    if op.name == 'sys':
        return len(types.BUILTINS[op.operands[0]][0]), 1
    return TRADES[op.name]


def following(op, at):
    """The addresses that may come next."""
    if op.name == 'jump':
        return [op.operands[0]]
    return [] if op.name in ENDING else [at + 1] + ([op.operands[0]] if op.name == 'jumpf' else [])


def known_in(code, unit):
    """What is known at each address of a unit that a path reaches."""
    empty = [UNTESTED] * unit.locals
    found, waiting = {}, [(0, Known([], empty))]
    if unit.catch is not None:
        waiting.append((unit.catch, Known([(UNTESTED, None)], empty)))
    while waiting:
        at, known = waiting.pop()
        known = found[at].met(known) if at in found else known
        if at not in found or known != found[at]:
            found[at] = known
            after = known.after(code, unit.ops[at])
            waiting += [(to, after) for to in following(unit.ops[at], at)]
    return found


def thin(code):
    """Leaves them all out at once; what goes to an address goes to the next operation that stayed."""
    units = [(unit, known_in(code, unit)) for unit in code.units]
    for unit, known in units:
        stays = [op.name not in RULES or at not in known or not known[at].is_tested(op) for at, op in enumerate(unit.ops)]
        moved = [sum(stays[:at]) for at in range(len(stays) + 1)]
        unit.ops = [op for op, stay in zip(unit.ops, stays) if stay]
        for op in unit.ops:
            if op.name in ('jump', 'jumpf'):
                op.operands = [moved[op.operands[0]]]
        unit.catch = None if unit.catch is None else moved[unit.catch]
    return code
