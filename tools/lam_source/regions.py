"""The region rules of docs/LANGUAGE.md: which names a region may use, over a tree that has its types."""
from .grammar import Node
from .types import Break

PARTS = {'binary': ['left', 'right'], 'unary': ['value'], 'member': ['of'], 'element': ['of', 'index'], 'new array': ['length'],
         'label': ['secrecy', 'integrity'], 'call': ['arguments'], 'spawn': ['caps', 'arguments'], 'let': ['value'],
         'if': ['test', 'then', 'other'], 'while': ['test', 'body'], 'throw': ['value'], 'sync': ['thing', 'body'],
         'expr': ['value'], 'block': ['statements'], 'fn': ['body'], 'broken': ['blocks']}


class Walk:
    """A walk over a function in source order. `own` has the locals of the region that is walked, or None outside of all."""

    def __init__(self):
        self.own = None

    def breaks(self, kind, at, name=None):
        """A rule is broken."""
        raise Break(kind, at, name=name)

    def uses(self, local, at, kind='OuterRead'):
        if self.own is not None and local not in self.own:
            self.breaks(kind, at, local.name)

    def over(self, part):
        if isinstance(part, list):
            for it in part:
                self.over(it)
        elif isinstance(part, Node):
            of = getattr(self, 'of_' + part.kind.replace(' ', '_'), None)
            if of:
                of(part)
            else:
                for name in PARTS.get(part.kind, ()):
                    self.over(getattr(part, name))

    def declares(self, local):
        if self.own is not None:
            self.own.append(local)

    def of_let(self, it):
        self.over(it.value)
        self.declares(it.local)

    def of_name(self, it):
        self.uses(it.local, it.at)

    def of_caps(self, it):
        for local, (name, _) in zip(it.locals, it.items):
            self.uses(local, name.at)

    def of_assign(self, it):
        if it.target.kind == 'name':
            self.uses(it.target.local, it.target.at, 'OuterWrite')
        else:
            self.over(it.target)
        self.over(it.value)

    def of_return(self, it):
        if self.own is not None:
            self.breaks('ReturnInRegion', it.at)
        self.over(it.value)

    def of_region(self, it):
        self.over(it.label)
        self.over(it.caps)
        taken = []
        for local, name in zip(it.captured, it.captures):
            self.uses(local, name.at)
            if local in taken:
                self.breaks('CaptureTwice', name.at, name.text)
            taken.append(local)
        self.inside(it, taken)

    def inside(self, it, taken):
        """The blocks of a region that has taken these locals."""
        around, self.own = self.own, taken
        self.over(it.body)
        self.declares(it.local)
        self.over(it.catch)
        self.own = around


def look(items):
    """Raises the first Break of the region rules."""
    for item in items:
        Walk().over(item)
