"""Labels, capabilities and values, the rules between them, and how they are printed."""
from . import code as codes

PUBLIC = (frozenset(), frozenset())
NO_CAPS = (frozenset(), frozenset())


class Value:
    """A value that is no number, truth, bytes or null: its kind, and what it leads to."""

    def __init__(self, kind, *parts):
        self.kind, self.parts = kind, parts

    def __eq__(self, other):
        return isinstance(other, Value) and (self.kind, self.parts) == (other.kind, other.parts)

    def __hash__(self):
        return hash((self.kind, self.parts))

    @property
    def name(self):
        return self.parts[0]

    @property
    def own(self):
        return self.parts[0][1]


class Fault(Exception):
    """A private fault of an operation."""


class Refused(Exception):
    def __init__(self, rule, tag):
        super().__init__(rule)
        self.rule, self.tag = rule, tag


# ---- the rules

def flows(x, y):
    return x[0] <= y[0] and y[1] <= x[1]


def fails(rule, tags):
    if tags:
        raise Refused(rule, min(tags))


def may_read(p, x):
    fails('ReadS', x[0] - p[0])
    fails('ReadI', p[1] - x[1])


def may_write(p, x):
    fails('WriteS', p[0] - x[0])
    fails('WriteI', x[1] - p[1])


def may_change(caps, old, new):
    fails('AddS', new[0] - old[0] - caps[0])
    fails('DropS', old[0] - new[0] - caps[1])
    fails('AddI', new[1] - old[1] - caps[0])
    fails('DropI', old[1] - new[1] - caps[1])


def covers(caps, wanted):
    fails('Caps', wanted[0] - caps[0])
    fails('Caps', wanted[1] - caps[1])


def same(p, x):
    fails('Same', p[0] ^ x[0])
    fails('Same', p[1] ^ x[1])


# ---- texts

class Texts:
    """How labels, capabilities and values are printed."""

    def __init__(self, tags):
        self.tags = tags

    def tag(self, number):
        return self.tags[number] if number < len(self.tags) else f'#{number}'

    def set(self, tags):
        return '{' + ','.join(map(self.tag, sorted(tags))) + '}'

    def label(self, label):
        return f'{self.set(label[0])}/{self.set(label[1])}'

    def caps(self, caps):
        return f'+{self.set(caps[0])}-{self.set(caps[1])}'

    def name(self, kind, name):
        return f'{kind}<{self.label(name[0])}|{self.label(name[1])}|{name[2]}>'

    def value(self, v):
        if v is None or v is True or v is False:
            return {None: 'null', True: 'true', False: 'false'}[v]
        if isinstance(v, int):
            return str(v)
        if isinstance(v, bytes):
            return codes.shown_bytes(v)
        if v.kind == 'arr':
            return f'{self.name("arr", v.name)}[{v.parts[1]}]'
        if v.kind in ('thread', 'tag', 'label', 'caps'):
            return {'thread': lambda t: f't{t}', 'tag': self.tag, 'label': self.label, 'caps': self.caps}[v.kind](v.parts[0])
        return self.name(v.kind, v.name)

    def values(self, vs):
        return ','.join(map(self.value, vs))
