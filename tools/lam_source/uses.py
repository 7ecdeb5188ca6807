"""Where a program uses what it declares: references, highlights and renames for an editor."""
from . import faults, grammar, pointing, types

DECLARED, WRITTEN, READ = 'declared', 'written', 'read'


class Use:
    """A place in a chunk where a thing is named: what the thing is, and how it is used there."""

    def __init__(self, thing, at, name, how=READ):
        self.thing, self.at, self.name, self.how = thing, at, name, how


def of_node(node, item, written):
    """The uses that a part of a program is by itself. A local is known by its object, all else by its names."""
    kind = node.kind
    if kind == 'let' or kind == 'region' and node.name:
        yield Use(node.local, node.name_at, node.name, DECLARED)
    if kind == 'name':
        yield Use(node.local, node.at, node.name, WRITTEN if node in written else READ)
    elif kind == 'region':
        yield from (Use(local, name.at, name.text) for local, name in zip(node.captured, node.captures))
    elif kind == 'caps':
        yield from (Use(local, name.at, name.text) for local, (name, _) in zip(node.locals, node.items))
    elif kind == 'parameter':
        yield from (Use(local, node.at, node.name, DECLARED) for local in item.locals if local.at == node.at)
    elif kind in ('fn', 'class'):
        yield Use((kind, node.name), node.name_at, node.name, DECLARED)
    elif kind in ('call', 'spawn'):
        yield Use(('fn', node.name), node.at if kind == 'call' else node.name_at, node.name)
    elif kind == 'type' and node.name not in grammar.TYPES or kind == 'new':
        yield Use(('class', node.name), node.at if kind == 'type' else node.name_at, node.name)
    elif kind == 'field':
        yield Use(('field', item.name, node.name), node.at, node.name, DECLARED)
    elif kind == 'member' and isinstance(node.of.type, str):
        yield Use(('field', node.of.type, node.name), node.name_at, node.name, WRITTEN if node in written else READ)


def in_item(item):
    written, parts = set(), [item]
    for node in parts:      # it grows meanwhile
        parts += pointing.parts_of(node)
        if node.kind == 'assign':
            written.add(node.target)
    for node in parts:
        try:
            yield from of_node(node, item, written)
        except AttributeError:
            continue        # this part has no types, since it was not read


def in_chunk(whole, chunk):
    """All uses in a chunk, found once while its types stay."""
    whole.judge(chunk)
    if getattr(chunk, 'used', (None,))[0] is not chunk.judged:
        chunk.used = chunk.judged, [use for item in chunk.items for use in in_item(item)]
    return chunk.used[1]


def thing_at(place):
    """The thing that the word of a place names, or None."""
    if not place.token:
        return None
    found = [it.thing for it in in_chunk(place.whole, place.chunk) if it.at == place.token.at and it.name == place.token.text]
    return found[0] if found else None


def is_declared(whole, thing):
    if isinstance(thing, types.Local):
        return thing.type is not None
    if thing[0] == 'field':
        of = whole.typing.classes.get(thing[1])
        return bool(of) and any(it.name == thing[2] for it in of.fields)
    return thing[1] in (whole.typing.functions if thing[0] == 'fn' else whole.typing.classes)


def all_of(place):
    """The uses of the thing that a place names: each with the base of its chunk, in the order of the text."""
    thing = thing_at(place)
    if thing is None:
        return []
    chunks = [place.chunk] if isinstance(thing, types.Local) else place.whole.chunks
    found = [(chunk.base, use) for chunk in chunks for use in in_chunk(place.whole, chunk) if use.thing == thing]
    return sorted(found, key=lambda it: it[0] + it[1].at)


# ---- another name

class NoRename(Exception):
    """Why a name cannot be another one."""


def is_name(text):
    tokens = grammar.tokens_of(text)
    return len(tokens) == 2 and tokens[0].kind == 'name' and tokens[0].text == text


def to_rename(place):
    """The uses that another name would change. Raises NoRename where there are none."""
    thing = thing_at(place)
    if thing is None or not is_declared(place.whole, thing):
        built_in = place.token and place.token.text in types.BUILTINS
        raise NoRename(f'{place.token.text} is a built-in call' if built_in else 'no name that this program declares stands here')
    return all_of(place)


def renamed(whole, found, name):
    """The text with another name at these uses."""
    parts, end = [], 0
    for base, use in found:
        parts += [whole.text[end:base + use.at], name]
        end = base + use.at + len(use.name)
    return ''.join(parts) + whole.text[end:]


def why_not(whole, found, name):
    """Why these uses cannot have another name: the text would have other faults then. None where they can."""
    old = whole.text
    before = sorted(it.kind for it in faults.of_document(whole))
    whole.take(renamed(whole, found, name))
    new = faults.of_document(whole)
    told = next((it for it in new if before.count(it.kind) < sum(it.kind == one.kind for one in new)), None)
    line = whole.line(told.at) if told and told.at is not None else 0
    whole.take(old)
    if told:
        return f'with the name {name} line {line} has the fault {told.kind}'
    return None if len(new) == len(before) else f'another thing of this text has the name {name}'
