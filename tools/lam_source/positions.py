"""Places of a text as an editor counts them: by line and by UTF-16 unit within the line, both from 0."""
import bisect
import re


def units(text):
    return len(text.encode('utf-16-le', 'surrogatepass')) // 2


class Positions:
    def __init__(self, text):
        self.text = text
        self.starts = [0] + [end.end() for end in re.finditer(r'\r\n|\n|\r', text)]

    def line_of(self, at):
        return bisect.bisect_right(self.starts, at) - 1

    def place(self, at):
        """The place of a character."""
        line = self.line_of(at)
        return {'line': line, 'character': units(self.text[self.starts[line]:at])}

    def range(self, start, end):
        return {'start': self.place(start), 'end': self.place(end)}

    def at(self, place):
        """The index of the character at a place; past the end of a line it is the line's end."""
        if place['line'] >= len(self.starts):
            return len(self.text)
        at, left = self.starts[place['line']], place['character']
        while left > 0 and at < len(self.text) and self.text[at] not in '\r\n':
            left -= units(self.text[at])
            at += 1
        return at

    def line(self, number):
        """The range of a line, from 0, without the blanks round it."""
        number = min(max(number, 0), len(self.starts) - 1)
        start = self.starts[number]
        end = self.starts[number + 1] if number + 1 < len(self.starts) else len(self.text)
        whole = self.text[start:end]
        first = start + len(whole) - len(whole.lstrip())
        return self.range(first, max(first, start + len(whole.rstrip())))

    def whole(self):
        return self.range(0, len(self.text))
