"""What an editor shows beside a program's text: the call that is being typed, folds, and labels of regions."""
import re

from . import calls, pointing

OPENS, CLOSES = '([{', ')]}'
COMMENTS = re.compile(r'(?:^[ \t]*//[^\n]*\n){2,}', re.M)


# ---- the call round a place

def call_at(chunk, at):
    """The index of the name of the innermost call that is open at a place, and how many commas stand before the place."""
    depth, commas = 0, 0
    before = [it for it in chunk.tokens if it.end <= at and it.kind != 'end']
    for index in range(len(before) - 1, 0, -1):
        text = before[index].text if before[index].kind == 'mark' else ''
        if text in (';', '{', '}') and depth == 0 and text:
            return None
        if text and text in CLOSES:
            depth += 1
        elif text and text in OPENS:
            if depth == 0 and text == '(' and is_callable(before[index - 1]):
                return index - 1, commas
            if depth == 0:
                commas = 0      # these were commas of a group inside
            depth = max(0, depth - 1)
        elif text == ',' and depth == 0:
            commas += 1
    return None


def is_callable(token):
    return token.kind == 'name' or token.text == 'region' and token.kind == 'word'


def signature_of(whole, name):
    """How a call of this name is written, and what it tests."""
    if name == 'region':
        return 'region (l: label, c: caps)', calls.tests_of(*calls.FORMS['region'])
    if name in calls.CALLS:
        signature, tests, faults = calls.CALLS[name]
        return signature, calls.tests_of(tests, faults)
    item = whole.typing.functions.get(name)
    return (pointing.head_of(item), []) if item else None


def signature(whole, at):
    """The signature of the call that is typed at a place, for the protocol."""
    chunk = whole.chunk_at(at)
    found = call_at(chunk, at - chunk.base)
    told = found and signature_of(whole, chunk.tokens[found[0]].text)
    if not told:
        return None
    label, said = told
    first = label.index('(') + 1
    inside = label[first:label.rindex(')')]
    parameters, start = [], first
    for part in inside.split(', ') if inside else []:
        parameters.append({'label': [start, start + len(part)]})
        start += len(part) + 2
    active = min(found[1], max(len(parameters) - 1, 0))
    return {'signatures': [{'label': label, 'documentation': ' '.join(said), 'parameters': parameters}],
            'activeSignature': 0, 'activeParameter': active}


# ---- folds

def blocks_of(chunk):
    """The places of the blocks of a chunk: of each `{` and its `}`."""
    open_at, before = [], ''
    for token in chunk.tokens:
        if token.kind == 'mark' and token.text == '{':
            open_at.append(None if before in ('label', 'caps') else token.at)
        elif token.kind == 'mark' and token.text == '}' and open_at:
            start = open_at.pop()
            if start is not None:
                yield start, token.at
        before = token.text


def folds(whole):
    """The lines that can be folded: blocks, and comments of several lines."""
    line, found = whole.positions.line_of, []
    for chunk in whole.chunks:
        for start, end in blocks_of(chunk):
            first, last = line(chunk.base + start), line(chunk.base + end) - 1
            if last > first:
                found.append({'startLine': first, 'endLine': last})
    for it in COMMENTS.finditer(whole.text):
        found.append({'startLine': line(it.start()), 'endLine': line(it.end() - 1), 'kind': 'comment'})
    return found


# ---- labels of regions

def label_text(sides):
    return '/'.join('{' + ','.join(names) + '}' for names in sides)


def regions_in(node, outer=None):
    """The regions of a part of a program, each with the one round it."""
    for part in pointing.parts_of(node):
        if part.kind == 'region':
            yield part, outer
            for block in (part.body, part.catch):
                yield from regions_in(block, part)
        else:
            yield from regions_in(part, outer)


def hints(whole, start, end):
    """The label at which each region's blocks act, behind their `{`, where it is written out: places and texts.

    Of a region in another one whose label is written out, it also says which tags come on and go off."""
    for chunk in whole.chunks:
        if chunk.base > end or chunk.base + len(chunk.text) < start or not chunk.regions:
            continue
        for item in chunk.items:
            for region, outer in regions_in(item):
                sides = pointing.sides_of(region.label)
                if sides is None:
                    continue
                text = label_text(sides) + change(outer, sides)
                for block, told in ((region.body, text), (region.catch, label_text(sides))):
                    if block.end > block.at and start <= chunk.base + block.at <= end:
                        yield chunk.base + block.at + 1, told


def change(outer, sides):
    before = pointing.sides_of(outer.label) if outer else None
    told = [f'{sign}{kind} {", ".join(names)}' for sign, kind, names, _ in pointing.changes(before, sides) if names] \
        if before else []
    return f': {"; ".join(told)}' if told else ''
