"""What stands at a place of a program: its part of the tree, what there is to say of it, and where it is declared."""
from . import calls, grammar, types

HIDDEN = ('local', 'locals', 'captured', 'type', 'kind', 'name')


def parts_of(node):
    """The parts of a part of a program."""
    for name, value in vars(node).items():
        if name not in HIDDEN:
            for it in value if isinstance(value, list) else [value]:
                if isinstance(it, grammar.Node):
                    yield it


def end_of(node):
    """Where a part ends; a parameter and a field end with their type."""
    return node.of.end if node.kind in ('parameter', 'field') else node.end


def path_to(items, at):
    """The parts round a place, the outermost first."""
    path, inside = [], items
    while True:
        found = [it for it in inside if it.at <= at < end_of(it)]
        if not found:
            return path
        path.append(min(found, key=lambda it: end_of(it) - it.at))
        inside = list(parts_of(path[-1]))


class Place:
    """A place of a program: the word there, and the parts round it. Places are those of its chunk, from the base on."""

    def __init__(self, whole, at):
        self.whole, self.typing, self.chunk = whole, whole.typing, whole.chunk_at(at)
        self.text, self.base = self.chunk.text, self.chunk.base
        whole.judge(self.chunk)
        tokens = self.chunk.tokens_at(at - self.base)
        self.token = next((it for it in reversed(tokens) if it.kind in ('name', 'word')), tokens[-1] if tokens else None)
        self.path = path_to(self.chunk.items, self.token.at) if self.token else []
        self.node = self.path[-1] if self.path else None

    def is_at(self, name):
        """Whether the word is at this place of its part, as `name_at`."""
        return getattr(self.node, name, None) == self.token.at

    def line(self, at):
        return self.whole.line(self.base + at)

    def line_of(self, item):
        return self.whole.line(item.chunk.base + item.name_at)

    # ---- where it is declared

    def local(self):
        """The variable that the word names."""
        node, token = self.node, self.token
        if node.kind in ('let', 'region') and self.is_at('name_at') or node.kind == 'name':
            local = getattr(node, 'local', None)
            return None if node.kind == 'name' and local and local.at == node.at else local     # it is not declared
        if node.kind == 'region':
            return named(zip(node.captures, getattr(node, 'captured', [])), token)
        if node.kind == 'caps':
            return named(((name, it) for (name, _), it in zip(node.items, getattr(node, 'locals', []))), token)
        if node.kind == 'parameter' and self.is_at('at'):
            return next((it for it in getattr(self.path[0], 'locals', []) if it.at == token.at), None)
        return None

    def field(self):
        """The field that the word names, and its class."""
        node = self.node
        if node.kind == 'field' and self.is_at('at'):
            return node, self.path[-2]
        if node.kind == 'member' and self.is_at('name_at'):
            of = self.typing.classes.get(node.of.type)
            for field in of.fields if of else []:
                if field.name == node.name:
                    return field, of
        return None

    def item(self):
        """The function or the class that the word names."""
        node, name = self.node, self.token.text
        if node.kind == 'call' and self.is_at('at') or node.kind in ('spawn', 'fn') and self.is_at('name_at'):
            return self.typing.functions.get(name)
        if node.kind == 'type' or node.kind in ('new', 'class') and self.is_at('name_at'):
            return self.typing.classes.get(name)
        return None

    def declared(self):
        """Where the word is declared in the whole text: from and to, or None."""
        if not self.node:
            return None
        local, field, item = self.local(), self.field(), self.item()
        if local:
            return self.base + local.at, self.base + local.at + len(local.name)
        if not field and not item:
            return None
        start = field[1].chunk.base + field[0].at if field else item.chunk.base + item.name_at
        return start, start + len((field[0] if field else item).name)

    # ---- what there is to say

    def told(self):
        """A line of the language for the word, and sentences on it; None where there is nothing to say."""
        if not self.node:
            return None
        found = self.of_name() or self.of_form() or self.of_value()
        if not found:
            return None
        head, said = found
        region = self.region_round()
        if region:
            said = [*said, f'Here the acting label is that of the region of line {self.line(region.at)}: '
                           f'`{self.source(region.label)}`.']
        return head, said

    def of_name(self):
        local, field, item = self.local(), self.field(), self.item()
        if local:
            return f'{local.name}: {shown(local.type)}', [f'Declared at line {self.line(local.at)}.']
        if field:
            tests = self.of_access() if self.node.kind == 'member' else []
            return f'{field[0].name}: {written(field[0].of)}', [f'A field of {field[1].name}.', *tests]
        if item:
            return head_of(item), [f'Declared at line {self.line_of(item)}.'] + \
                (calls.tests_of(*calls.FORMS['new']) if self.node.kind == 'new' else [])
        if self.node.kind == 'call' and self.is_at('at') and self.token.text in calls.CALLS:
            signature, tests, faults = calls.CALLS[self.token.text]
            return signature, calls.tests_of(tests, faults)
        return None

    def of_access(self):
        """Which rule an access tests: a part before `=` is written. A field has no index that could be outside."""
        before = self.path[-2] if len(self.path) > 1 else None
        is_target = before is not None and before.kind == 'assign' and before.target is self.node
        form = ('put' if is_target else 'get') + (' element' if self.node.kind == 'element' else '')
        return calls.tests_of(*calls.FORMS[form])

    def of_form(self):
        node, word = self.node, self.token.text
        if node.kind == 'region' and word == 'region' or node.kind in ('label', 'caps') and self.is_head():
            return self.of_region(node if node.kind == 'region' else self.path[-2])
        if node.kind == 'region' and word == 'catch':
            return f'catch ({node.name})', [f'{node.name} gets the number of the fault that ended the region.']
        if node.kind in ('spawn', 'sync', 'new') and word == node.kind:
            return f'{word} ..', calls.tests_of(*calls.FORMS[word])
        return None

    def is_head(self):
        """Whether the part is the label or the capabilities of a region."""
        before = self.path[-2] if len(self.path) > 1 else None
        return before is not None and before.kind == 'region' and self.node in (before.label, before.caps)

    def source(self, node):
        return ' '.join(self.text[node.at:node.end].split())

    def of_region(self, region):
        taken = ', '.join(it.text for it in region.captures)
        head = f'region ({self.source(region.label)}, {self.source(region.caps)}) [{taken}]'
        return head, self.change_of(region) + calls.tests_of(*calls.FORMS['region'])

    def change_of(self, region):
        """Which tags a region adds and takes off, where its label and the one round it are written out."""
        outer = self.region_round(region)
        sides, before = sides_of(region.label), None
        if outer:
            before = sides_of(outer.label)
        elif not self.is_called():
            before = [], []
        if sides is None or before is None:
            return []
        said = [f'{sign}{kind} {", ".join(names)}, by {", ".join(name + cap for name in names)}'
                for sign, kind, names, cap in changes(before, sides) if names]
        where = f'the region of line {self.line(outer.at)}' if outer else '{}/{}'
        return [f'From {where} it {"; it ".join(said)}.'] if said else []

    def is_called(self):
        """Whether a function calls this one; else threads alone run it, which begin at {}/{}."""
        return self.path[0].name in self.whole.once('called', lambda: called_in(self.whole))

    def region_round(self, inner=None):
        """The innermost region in whose blocks the word stands, or that has this other region in them."""
        path = self.path[:self.path.index(inner)] if inner is not None else self.path
        for at in range(len(path) - 1, -1, -1):
            inside = path[at + 1] if at + 1 < len(path) else inner
            if path[at].kind == 'region' and inside is not None and inside in (path[at].body, path[at].catch):
                return path[at]
        return None

    def of_value(self):
        of = self.node.type
        if self.node.kind in ('fn', 'class', 'field', 'parameter', 'type', 'block') or not of:
            return None
        said = self.of_access() if self.node.kind in ('member', 'element') else []
        return f'{self.source(self.node)}: {shown(of)}', said


def named(pairs, token):
    return next((local for name, local in pairs if name.at == token.at), None)


def called_in(whole):
    """The names that stand before a `(`: of each function that is called, and of some more."""
    return {one.text for chunk in whole.chunks for before, one, other in
            zip([None, *chunk.tokens], chunk.tokens, chunk.tokens[1:])
            if one.kind == 'name' and other.text == '(' and (before is None or before.text not in ('fn', ')'))}


def sides_of(label):
    """The names of the tags of a label that is written out, secrecy and integrity, or None."""
    if label.kind != 'label' or not all(it.kind == 'name' for it in label.secrecy + label.integrity):
        return None
    return [it.name for it in label.secrecy], [it.name for it in label.integrity]


def changes(before, after):
    """What a change of labels adds and takes off, in the order of its rules."""
    for at, what in enumerate(('secrecy', 'integrity')):
        yield 'adds ', what, [it for it in after[at] if it not in before[at]], '+'
        yield 'takes off ', what, [it for it in before[at] if it not in after[at]], '-'


def shown(of):
    return types.shown(of) if of else '?'


def written(node):
    """A type as it is written."""
    return f'[{written(node.of)}]' if node.kind == 'array' else node.name


def head_of(item):
    """The head of a function or a class."""
    if item.kind == 'class':
        return f'class {item.name} {{ ' + ' '.join(f'{it.name}: {written(it.of)};' for it in item.fields) + ' }'
    takes = ', '.join(f'{it.name}: {written(it.of)}' for it in item.parameters)
    return f'fn {item.name}({takes})' + (f': {written(item.result)}' if item.result else '')
