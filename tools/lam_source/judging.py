"""All breaks of the type rules and the region rules of a program that may have faults."""
from . import regions, types
from .types import UNKNOWN, Break


class Typing(types.Typing):
    """Goes on behind a break. `found` has each, with the item in whose head or body it stands and the names in scope."""

    def __init__(self, items):
        super().__init__(items)
        self.found, self.item, self.unread = [], None, set()

    def breaks(self, kind, at, want=None, got=None, name=None):
        broken = Break(kind, at, want, got, name)
        broken.item, broken.scopes = self.item, [dict(scope) for scope in self.scopes]
        self.found.append(broken)

    def declare_item(self, item, kind, table):
        self.item = item
        super().declare_item(item, kind, table)

    def of_item(self, item):
        self.item, self.scopes = item, []
        super().of_item(item)

    def of_function(self, item):
        names = getattr(item, 'names', None)
        if names is None:
            super().of_function(item)
            return
        self.scopes, self.slots, self.result = [{}], 0, UNKNOWN
        item.locals = [self.declare(name.text, UNKNOWN, name.at) for name in names]
        self.statements(item.body)

    def ends(self, block):
        last = block.statements[-1] if block.statements else None
        return last is not None and last.kind == 'broken' or super().ends(block)

    def of_broken(self, it):
        for name in it.names:
            if not self.local(name.text):
                self.declare(name.text, UNKNOWN, name.at)
        for block in it.blocks:
            self.statements(block)

    def new(self, name, at):
        if name:        # the catch block of a region that has none has no name
            super().new(name, at)

    def type_of(self, node):
        return UNKNOWN if getattr(node, 'name', None) in self.unread else super().type_of(node)

    def declared_type(self, node):
        return UNKNOWN if getattr(node, 'name', None) in self.unread else super().declared_type(node)

    def is_vague(self, name):
        return name in self.unread or hasattr(self.functions.get(name), 'names')

    def is_call(self, node):
        return self.vague_call(node) if self.is_vague(node.name) else super().is_call(node)

    def is_spawn(self, node):
        if not self.is_vague(node.name):
            return super().is_spawn(node)
        self.wants(node.caps, types.CAPS)
        self.vague_call(node)
        return types.THREAD

    def vague_call(self, node):
        self.any_arguments(node)
        return UNKNOWN

    def is_new(self, node):
        return UNKNOWN if node.name in self.unread else super().is_new(node)


class Walk(regions.Walk):
    """Goes on behind a break. Each has the regions that would have to take the name along."""

    def __init__(self, item):
        super().__init__()
        self.item, self.found, self.around = item, [], []

    def breaks(self, kind, at, name=None):
        broken = Break(kind, at, name=name)
        broken.item, broken.lacking = self.item, []
        self.found.append(broken)

    def uses(self, local, at, kind='OuterRead'):
        if local.type != UNKNOWN and self.own is not None and local not in self.own:
            super().uses(local, at, kind)
            self.found[-1].lacking = self.lacking(local)

    def lacking(self, local):
        """The regions round that would have to take a name along, the innermost first."""
        found = []
        for it, own in reversed(self.around):
            if local in own:
                break
            found.append(it)
        return found

    def inside(self, it, taken):
        self.around.append((it, taken))
        super().inside(it, taken)
        self.around.pop()


def legal(item):
    """The breaks of the region rules in an item that has its types."""
    walk = Walk(item)
    walk.over(item)
    return walk.found
