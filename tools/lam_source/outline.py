"""What a program or a world document declares, as an outline for an editor."""
from . import grammar, pointing, world

FUNCTION, CLASS, FIELD, OBJECT, FILE, EVENT, KEY = 12, 5, 8, 19, 1, 24, 20    # kinds of symbols in the protocol


def symbol(positions, name, kind, whole, chosen, detail='', children=()):
    return {'name': name, 'detail': detail, 'kind': kind, 'range': positions.range(*whole),
            'selectionRange': positions.range(*chosen), 'children': list(children)}


class Shifted:
    """The positions of a chunk, whose places are counted from its base."""

    def __init__(self, positions, chunk):
        self.positions, self.base, self.text = positions, chunk.base, chunk.text

    def range(self, start, end):
        return self.positions.range(self.base + start, self.base + end)


def of_program(whole):
    """The classes with their fields, and the functions with their regions."""
    found = []
    for item in whole.items:
        positions = Shifted(whole.positions, item.chunk)
        chosen = item.name_at, item.name_at + len(item.name)
        kind, children = (CLASS, fields_of(positions, item)) if item.kind == 'class' else \
            (FUNCTION, regions_of(positions, item.body))
        found.append(symbol(positions, item.name, kind, (item.at, item.end), chosen, pointing.head_of(item), children))
    return found


def fields_of(positions, item):
    return [symbol(positions, it.name, FIELD, (it.at, it.of.end), (it.at, it.at + len(it.name)), pointing.written(it.of))
            for it in item.fields]


def regions_of(positions, node):
    """The regions in a part of a program, each with those that it has inside."""
    for part in pointing.parts_of(node):
        if part.kind == 'region':
            label = ' '.join(positions.text[part.label.at:part.label.end].split())
            children = [*regions_of(positions, part.body), *regions_of(positions, part.catch)]
            yield symbol(positions, f'region {label}', EVENT, (part.at, part.end), (part.at, part.at + 6), children=children)
        elif isinstance(part, grammar.Node):
            yield from regions_of(positions, part)


# ---- worlds

def of_world(positions):
    """The tags, files, pipes and threads of a world document."""
    try:
        document = world.parts_of(positions.text)
    except world.Wrong:
        return []
    lists = (('tags', 'name', KEY), ('tree', 'path', FILE), ('pipes', 'name', OBJECT), ('threads', 'run', FUNCTION))
    return [it for name, member, kind in lists for it in items_of(positions, document, name, member, kind)]


def items_of(positions, document, name, member, kind):
    part = document.parts.get(name)
    for it in part.parts.values() if part and isinstance(part.value, list) else []:
        named = it.parts.get(member, it)
        if isinstance(named.value, str):
            at = named.at, named.at + len(named.value) + 2
            label = it.parts['label'].value if 'label' in it.parts else ''
            yield symbol(positions, named.value, kind, at, at, label if isinstance(label, str) else '')
