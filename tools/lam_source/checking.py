"""What `lam check` and `lam format` say of a program, by this reading: its first fault, in the order of docs/LANGUAGE.md."""
from . import code, grammar, regions, spelling, types

LONGEST_UNIT = 65535


class Fault:
    """A fault of a program: its kind and its place by characters; of a unit that is too long, its number."""

    def __init__(self, kind, at, unit=None):
        self.kind, self.at, self.unit = kind, at, unit

    def line(self, text):
        """The line by which a command refuses the program."""
        if self.unit is not None:
            return f'lam: 3 {self.kind} {self.unit}'
        return f'lam: 3 {self.kind} at {len(text[:self.at].encode())}'


def read(text):
    """The items of a program and None, or None and its first fault."""
    broken = spelling.first_fault(text)
    if broken:
        return None, Fault(*broken)
    try:
        return grammar.read(text), None
    except grammar.Broken as found:
        return None, Fault('TooDeep' if isinstance(found, grammar.TooDeep) else 'Unexpected', found.token.at)


def checked(text):
    """The code of a program and None, or None and its first fault."""
    items, fault = read(text)
    if fault:
        return None, fault
    try:
        types.typed(items)
        regions.look(items)
    except types.Break as found:
        return None, Fault(found.kind, found.at)
    made = code.Code(text, legal=items)
    for unit in made.units:
        if len(unit.ops) > LONGEST_UNIT:
            return None, Fault('CodeTooLong', 0, unit.number)
    return made, None
