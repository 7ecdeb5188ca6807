"""The tokens of a text that may have faults, and these faults, by the rules of docs/LANGUAGE.md."""
import re

from . import grammar, spelling

TAIL = re.compile(r'\w*')
ROUGH = re.compile(r'"(?:[^"\\\n]|\\[^\n])*"?')      # a text, however it is broken


def look(text):
    """The tokens in order, the last one the end, and the faults in order: each a kind and a place."""
    return quick(text) or slow(text)


def quick(text):
    """What `look` gives where nothing is odd, which most texts are; else None."""
    if not text.isascii():
        return None
    found, at = [], 0
    for piece in grammar.PIECES.finditer(text):
        kind, word = piece.lastgroup, piece[0]
        if piece.start() != at or kind == 'text' and is_odd(word) or kind == 'number' and is_odd_number(text, piece):
            return None
        if kind != 'space':
            found.append(grammar.Token('word' if kind == 'name' and word in grammar.RESERVED else kind, word, at))
        at = piece.end()
    return (found + [grammar.Token('end', '', at)], []) if at == len(text) else None


def is_odd(word):
    return len(word) > spelling.LONGEST or '\\' in word and not spelling.SOUND.fullmatch(word)


def is_odd_number(text, piece):
    after = text[piece.end():piece.end() + 1]
    return len(piece[0]) > 18 or after.isalnum() or after == '_'


def slow(text):
    found, faults, at = [], [], 0
    while at < len(text):
        end, fault = spelling.piece_at(text, at)
        if fault:
            kind, end, more = broken(text, at, end, fault)
            faults += more
        else:
            kind = kind_of(text, at, end)
        if kind:
            found.append(grammar.Token(kind, text[at:end], at))
            if fault and kind == 'number':
                found[-1].text = '0'
        at = end
    return found + [grammar.Token('end', '', len(text))], faults


def kind_of(text, at, end):
    """What a sound piece is; None where it is no token."""
    piece = grammar.PIECES.match(text, at)
    if piece and piece.end() == end:
        kind = piece.lastgroup
        return None if kind == 'space' else 'word' if kind == 'name' and piece[0] in grammar.RESERVED else kind
    return 'text' if text[at] == '"' else 'name'


def broken(text, at, end, fault):
    """What a broken piece was meant as, or None; where it ends; and its faults."""
    if fault[0] == 'BadChar':
        return None, at + 1, [fault]
    if fault[0] == 'BadNumber':
        return 'number', TAIL.match(text, end).end(), [fault]
    faults, end = [fault], ROUGH.match(text, at).end()
    here = fault[1] + 2 if fault[0] == 'BadEscape' else end
    while here < end - 1:
        part = spelling.PART.match(text, here)
        if not part:
            faults.append(('BadEscape', here))
        here = part.end() if part else here + 2
    return 'text', end, faults
