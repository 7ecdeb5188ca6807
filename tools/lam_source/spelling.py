"""The first piece of a program's text that is no token, by docs/LANGUAGE.md: its kind and its place."""
import re

from .grammar import PIECES, end_of_name

LARGEST = 2 ** 63 - 1
LONGEST = 65536     # bytes of a text
SOUND = re.compile(r'"(?:[^"\\\n]|\\[nt\\"]|\\x[0-9A-Fa-f]{2})*"')
PART = re.compile(r'\\[nt\\"]|\\x[0-9A-Fa-f]{2}|[^\\\n]')


def first_fault(text):
    """The kind and the place, by characters, of the first piece that is no token; None where there is none."""
    at = 0
    while at < len(text):
        end, fault = piece_at(text, at)
        if fault:
            return fault
        at = end
    return None


def piece_at(text, at):
    """Where the piece at a place ends, and its fault."""
    if text[at] == '"':
        return of_text(text, at)
    name = end_of_name(text, at)
    if name > at:
        return name, None
    piece = PIECES.match(text, at)
    if not piece:
        return at, ('BadChar', at)
    if piece.lastgroup == 'number':
        end = piece.end()
        joined = end < len(text) and ('a' + text[end]).isidentifier()
        # so many digits are no number of 64 bits, and Python would not read more than 4,300
        large = len(piece[0].lstrip('0')) > 19 or int(piece[0].lstrip('0') or '0') > LARGEST
        return end, ('BadNumber', at) if joined or large else None
    return piece.end(), None


def of_text(text, start):
    """A text between quotes: the first fault in reading order."""
    whole = SOUND.match(text, start)
    if whole and len(whole[0].encode(errors='surrogatepass')) <= LONGEST:
        return whole.end(), None
    at, count = start + 1, 0
    while at < len(text) and text[at] not in '"\n':
        part = PART.match(text, at)
        if not part:
            return at, ('BadEscape', at)
        count += 1 if part[0][0] == '\\' else len(part[0].encode(errors='surrogatepass'))
        if count > LONGEST:
            return at, ('OpenText', start)
        at = part.end()
    closed = at < len(text) and text[at] == '"'
    return at + 1, None if closed else ('OpenText', start)
