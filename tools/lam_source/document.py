"""A program's text that changes, with all that is known of it: nothing is computed anew for a part that stays.

A line that begins with `fn` or `class` begins an item whatever stands before it, since no token goes over a line's end. So
the text is cut into chunks there. Each is read alone, with places from its own beginning, and kept until it changes. What is
known of a chunk's types is kept until the head of an item changes that it names, or that such a head names."""
import bisect
import re
import sys

from . import grammar, judging, lexing, recovering, types
from .positions import Positions

BEGINS = re.compile(r'^[ \t]*(fn|class)(?=[ \t\r\n])', re.M)
MOST_REGIONS = types.MOST['region']


class Chunk:
    """A part of the text, read by itself; `following` is the word with which the next one begins."""

    def __init__(self, text, following):
        self.text, self.base, self.judged = text, 0, None
        self.tokens, self.odd = lexing.look(text)
        self.tokens[-1].text = following
        self.starts = [it.at for it in self.tokens]
        reader = recovering.Reader(text, self.tokens)
        self.items, self.broken, self.unread = reader.program(), reader.faults, reader.unread
        for broken in self.broken:
            broken.chunk = self
        self.names = {it.text for it in self.tokens if it.kind == 'name'}
        for item in self.items:
            end = item.end if item.kind == 'class' else item.body.at
            item.chunk, item.head = self, self.text[item.at:end]
            item.names_of_head = {it.text for it in self.tokens if it.kind == 'name' and item.at <= it.at < end}
        self.regions = sum(it.text == 'region' and it.kind == 'word' for it in self.tokens)

    def tokens_at(self, at):
        """The tokens that a place touches, at most two."""
        first = max(0, bisect.bisect_right(self.starts, at) - 2)
        return [it for it in self.tokens[first:first + 3] if it.at <= at <= it.end and it.kind != 'end']


def cuts_of(text):
    """Where chunks begin, and the words with which they begin."""
    found = [(it.start(1), it[1]) for it in BEGINS.finditer(text)]
    return found if found and found[0][0] == 0 else [(0, ''), *found]


def heads_of(typing):
    """By each name that is declared: the heads of its items, and the names in them."""
    found = {name: (('unread',), ()) for name in typing.unread}
    for table in (typing.classes, typing.functions):
        for name, item in table.items():
            heads, names = found.get(name, ((), ()))
            found[name] = (*heads, item.head), {*names, *item.names_of_head}
    return found


def reached(names, heads):
    """The heads that these names lead to, by their names."""
    found, left = {}, [name for name in names if name in heads]
    while left:
        name = left.pop()
        if name not in found:
            found[name], more = heads[name]
            left += [it for it in more if it in heads and it not in found]
    return found


class Document:
    def __init__(self, text):
        self.chunks, self.text = [], None
        sys.setrecursionlimit(max(sys.getrecursionlimit(), 60 * grammar.DEEPEST))
        self.take(text)

    def take(self, text):
        """Takes another text. What is known of a chunk that it has too is kept."""
        if text == self.text:
            return
        kept = {}
        for chunk in self.chunks:
            kept.setdefault((chunk.text, chunk.tokens[-1].text), []).append(chunk)
        self.text, self.chunks, cuts = text, [], [*cuts_of(text), (len(text), '')]
        for (start, _), (end, following) in zip(cuts, cuts[1:]):
            key = text[start:end], following
            chunk = kept[key].pop() if kept.get(key) else Chunk(*key)
            chunk.base = start
            self.chunks.append(chunk)
        self.bases = [chunk.base for chunk in self.chunks]
        self.known = {}

    def once(self, name, make):
        """What `make` gives, once for this text."""
        if name not in self.known:
            self.known[name] = make()
        return self.known[name]

    @property
    def positions(self):
        return self.once('positions', lambda: Positions(self.text))

    @property
    def items(self):
        return self.once('items', lambda: [item for chunk in self.chunks for item in chunk.items])

    # ---- types

    @property
    def typing(self):
        """What is declared, and the breaks of these declarations."""
        return self.once('typing', self.declared)

    def declared(self):
        typing = judging.Typing(self.items)
        typing.unread = {it.text for chunk in self.chunks for it in chunk.unread if it.kind == 'name'}
        typing.declare_all()
        typing.declaring, typing.found = typing.found, []
        count, many = 0, sum(chunk.regions for chunk in self.chunks) > MOST_REGIONS
        heads = heads_of(typing)
        typing.keys = {}
        for chunk in self.chunks:
            typing.keys[chunk] = reached(chunk.names, heads), count if many else 0
            count += chunk.regions
        return typing

    def judge(self, chunk):
        """Types the items of a chunk, and gives the breaks in them."""
        typing = self.typing
        key = typing.keys[chunk]
        if not chunk.judged or chunk.judged[0] != key:
            typing.found, typing.regions = [], key[1]
            for item in chunk.items:
                typing.of_item(item)
            chunk.judged = key, typing.found, [it for item in chunk.items for it in judging.legal(item)]
        return chunk.judged[1:]

    def breaks(self):
        """All breaks of the type rules, and of the region rules, in the order in which they are looked for."""
        both = [self.judge(chunk) for chunk in self.chunks]
        return self.typing.declaring + [it for found, _ in both for it in found], [it for _, found in both for it in found]

    # ---- places

    def chunk_at(self, at):
        return self.chunks[max(0, bisect.bisect_right(self.bases, at) - 1)]

    def item_at(self, at):
        """The item round a place, or None."""
        chunk = self.chunk_at(at)
        return next((it for it in chunk.items if it.at <= at - chunk.base <= it.end), None)

    def line(self, at):
        """The line of a place, from 1."""
        return self.positions.line_of(at) + 1
