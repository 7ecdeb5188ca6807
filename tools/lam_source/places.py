"""Lines of a text with a mark under a place."""
from . import printable

WIDTH = 110


def marked(text, start, width=1):
    """A line and, under a part of it, a mark; of a long line what stands round the place."""
    beyond, width = max(0, start - len(text)), len(printable.name(text[start:start + width]))
    start, text = len(printable.name(text[:start])) + beyond, printable.name(text)
    if len(text) > WIDTH:
        first = max(0, start - WIDTH // 2)
        part = ('.. ' if first else '') + text[first:first + WIDTH] + (' ..' if first + WIDTH < len(text) else '')
        start, text = start - first + (3 if first else 0), part
    return f'  {text}\n  {" " * start}{"^" * max(width, 1)}'


class Place:
    """A place in a text, by characters: its line and its column, from 1."""

    def __init__(self, text, at):
        first = text.rfind('\n', 0, at) + 1
        end = text.find('\n', at)
        self.number, self.column = text.count('\n', 0, at) + 1, at - first + 1
        self.line = text[first:end if end >= 0 else len(text)].replace('\t', ' ').rstrip('\r')

    def shown(self, name, width=1):
        width = max(1, min(width, len(self.line) - self.column + 1))
        return f'{printable.name(name)}: line {self.number}, column {self.column}\n{marked(self.line, self.column - 1, width)}'


def characters(data, at):
    """The text of bytes, and how many characters stand before a place in bytes."""
    return data.decode(errors='replace'), len(data[:at].decode(errors='replace'))
