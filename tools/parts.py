"""Divides the code of a program, as LLVM's text, into parts that can be compiled beside each other.

The functions that the start reaches stand in the order in which it reaches them, and a part is a row of them, so most calls
stay in their part. Each part has copies of its own of the small functions and of the constants that it uses. A function that
another part calls is seen by the linker, and all others only by their part. The fills of fresh variables, which show a use
of what was never written, are left out, and so is what the check of each access to memory would need.
"""
import re

START = b'main'
SMALL = 40          # lines; a function of no more is copied to each part that uses it
NAME = re.compile(rb'@("[^"]*"|[\w.$-]+)')
FILL = re.compile(rb'(\n  (%\w+) = alloca [^\n]*)\n  call void @llvm\.memset\.p0\.i64\(ptr \2, i8 -86, i64 \d+, i1 false\)')
CHECKED = re.compile(rb' sanitize_address\b')
CONSTANT = re.compile(rb'@\S+ = private unnamed_addr constant ')
VARIABLE = re.compile(rb'(@\S+ = )private global (\[\d+ x i8\]) ')
FUNCTION = re.compile(rb'define (internal )?')


class NotRead(Exception):
    """The text has a form that this does not know."""


class Code:
    """The functions, constants, variables and declarations of a text, by their names, and what stands around them."""

    def __init__(self, text):
        self.functions, self.values, self.declared, self.head, self.tail = {}, {}, {}, [], []
        *pieces, end = text.split(b'\n}\n')
        for piece in pieces:
            at = piece.find(b'\ndefine ')
            if at < 0:
                raise NotRead('a function without a head')
            self.take(piece[:at], self.tail if self.functions else self.head)
            self.functions[NAME.search(piece, at)[1]] = FILL.sub(rb'\1', piece[at + 1:]) + b'\n}\n'
        self.take(end, self.tail)
        self.uses = {}

    def take(self, text, others):
        """Takes the lines that stand between functions."""
        for line in filter(None, text.split(b'\n')):
            if CONSTANT.match(line) or VARIABLE.match(line):
                self.values[NAME.match(line)[1]] = line
            elif line.startswith(b'declare '):
                self.declared[NAME.search(line)[1]] = line
            elif line.startswith(b'@'):
                raise NotRead(line[:80].decode(errors='replace'))
            elif not line.startswith(b';'):
                others.append(CHECKED.sub(b'', line))

    def used(self, name):
        """The names that a definition uses."""
        if name not in self.uses:
            found = set(NAME.findall(self.functions.get(name) or self.values.get(name, b'')))
            self.uses[name] = [it for it in found if it in self.functions or it in self.values or it in self.declared]
        return self.uses[name]

    def reached(self, names, stops=frozenset()):
        """All that these names use, themselves included, and what these use; what is in `stops` is reached and not gone through."""
        seen, left = set(), list(names)
        while left:
            name = left.pop()
            if name not in seen:
                seen.add(name)
                left += [] if name in stops else self.used(name)
        return seen


def rows(sizes, count):
    """Names with their sizes, in rows of about the same size."""
    found, total, so_far = [set() for _ in range(count)], sum(sizes.values()), 0
    for name, size in sizes.items():
        found[(2 * so_far + size) * count // (2 * total)].add(name)
        so_far += size
    return found


def head_of(function):
    """A function's first line, as a declaration of it."""
    return FUNCTION.sub(b'declare hidden ', function[:function.index(b'\n')], count=1).removesuffix(b' {')


def of_value(line, holds):
    """A constant or a variable as it stands in a part; a variable is defined in the part that holds them all."""
    variable = VARIABLE.match(line)
    if variable and not holds:
        return variable[1] + b'external hidden global ' + variable[2]
    return line.replace(b'private global', b'hidden global', 1) if variable else line


def part(code, reached, own, seen, holds):
    """The text of a part: its own functions, and those of others that it reaches as declarations."""
    lines = list(code.head)
    lines += [of_value(line, holds) for name, line in code.values.items() if name in reached or holds and VARIABLE.match(line)]
    lines += [line for name, line in code.declared.items() if name in reached]
    for name, function in code.functions.items():
        if name in own:
            lines.append(FUNCTION.sub(b'define hidden ', function, count=1) if name in seen else function)
        elif name in reached:
            lines.append(head_of(function))
    return b'\n'.join([*lines, *code.tail, b''])


def divided(text, count):
    """The texts of at most this many parts."""
    code = Code(text)
    if START not in code.functions:
        raise NotRead('no start')
    reached = code.reached([START])
    sizes = {name: function.count(b'\n') for name, function in code.functions.items() if name in reached}
    large = {name: size for name, size in sizes.items() if size > SMALL or name == START}
    found = []
    for row in filter(None, rows(large, count)):
        stops = frozenset(large.keys() - row)
        all_here = code.reached(row, stops)
        found.append((all_here, all_here - stops, all_here & stops))
    seen = set().union(*(others for _, _, others in found))
    return [part(code, here, own, seen, at == 0) for at, (here, own, _) in enumerate(found)]
