"""Text that is safe to print: control characters, bytes that are no UTF-8 and marks that turn text round stand as escapes."""
import re

# Control characters, marks that change the direction of text, other line ends, and halves of surrogate pairs.
ODD = re.compile('[\0-\x1f\x7f-\x9f\u061c\u200e\u200f\u2028-\u202e\u2066-\u2069\ufeff\ud800-\udfff]')
PLAIN = {'\n': r'\n', '\t': r'\t', '\r': r'\r'}


def escape(character):
    number = ord(character)
    if 0xdc80 <= number <= 0xdcff:      # a byte that is no UTF-8, as Python keeps it in names and texts
        number -= 0xdc00
    return PLAIN.get(character) or (f'\\x{number:02x}' if number < 256 else f'\\u{number:04x}')


def name(text):
    """A name, or another part of one line."""
    return ODD.sub(lambda found: escape(found[0]), text)


def lines(text):
    """A text of several lines; its tabs and the ends of its lines stay."""
    return ODD.sub(lambda found: found[0] if found[0] in '\n\t' else escape(found[0]), text)
