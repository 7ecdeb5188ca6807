"""Quick fixes: what could be typed to take a fault away, as edits of the text."""
import bisect

from . import wording


class Fix:
    """A title, and edits: from, to and the text that goes there."""

    def __init__(self, title, *edits):
        self.title, self.edits = title, edits


def fixes_of(found):
    """The quick fixes of a fault."""
    broken = found.broken
    if broken is None:
        return []
    if found.kind in ('NoName', 'NoField'):
        return [Fix(f'Write {name}', (found.at, found.at + len(broken.name), name)) for name in wording.near(
            broken.item.chunk.text, broken)]
    if found.kind == 'OuterRead':
        return [taken_along(broken)]
    return of_token(found) if found.kind == 'Unexpected' else []


def taken_along(broken):
    """A name is added to the `[ ]` of each region that lacks it."""
    chunk, edits = broken.item.chunk, []
    base = broken.item.chunk.base
    for region in broken.lacking:
        end = chunk.tokens[bisect.bisect_left(chunk.starts, region.body.at) - 1]     # the `]`
        edits.append((base + end.at, base + end.at, f', {broken.name}' if region.captures else broken.name))
    lists = 'the [ ]' if len(edits) == 1 else f'the [ ] of {len(edits)} regions'
    return Fix(f'Add {broken.name} to {lists}', *edits)


def of_token(found):
    """What helps where a token cannot stand."""
    broken = found.broken
    chunk = broken.chunk
    here = wording.Here(chunk.text, chunk.tokens, broken.index)
    end = chunk.base + here.before.end if broken.index else found.at
    if broken.wanted == ['catch']:
        name = new_name(chunk)
        return [Fix('Add a catch block', (end, end, f' catch ({name}) {{ }}'))]
    meant = wording.misspelt(here)
    if meant:
        first = first_token(here)
        return [Fix(f'Write {meant}', (chunk.base + first.at, chunk.base + first.end, meant))]
    if ';' in broken.wanted and wording.on_later_line(here, broken.token):
        return [Fix('Add a ;', (end, end, ';'))]
    return []


def first_token(here):
    """The token with which the statement begins in which a token cannot stand."""
    at = here.at
    while at > 0 and here.tokens[at - 1].text not in (';', '{', '}'):
        at -= 1
    return here.tokens[at]


def new_name(chunk):
    """A name for a fault that the chunk does not have yet."""
    names = {it.text for it in chunk.tokens}
    return next(name for name in [*'efghk', *(f'e{number}' for number in range(len(names) + 1))] if name not in names)

