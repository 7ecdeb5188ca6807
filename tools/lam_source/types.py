"""The types of a program's expressions, by the rules of docs/LANGUAGE.md, for the tools that help a person.

`typed` writes to each expression of a tree its type, and to each name of a local which local it is. What breaks a rule
is raised as a Break, with what the place wants and what stands there, where that is known. The module `judging` goes on
behind a break: it has another `breaks`, and what broke has the type UNKNOWN, which fits everywhere.
"""
from .grammar import TYPES

INT, BOOL, BYTES, TAG, LABEL, CAPS, FILE, DIR, PIPE, THREAD = TYPES
# Of the word null, of a call without a result, and of what breaks a rule. No class has such a name.
NULL, NOTHING, UNKNOWN = 'null', 'no result', '?'

# The built-in calls: what they take, and what they give. `[]` is an array, `a thing` an object or an array, `what is
# labelled` all that has a label; `the same` gives the type of the first argument.
BUILTINS = {
    'len': (['[]'], INT), 'size': ([BYTES], INT), 'byte': ([BYTES, INT], INT), 'slice': ([BYTES, INT, INT], BYTES),
    'cat': ([BYTES, BYTES], BYTES), 'text': ([INT], BYTES), 'number': ([BYTES], INT), 'my_label': ([], LABEL),
    'my_caps': ([], CAPS), 'root': ([], DIR), 'label_of': (['what is labelled'], LABEL), 'copy': (['a thing', LABEL], 'the same'),
    'mint': ([], TAG), 'say': ([BYTES], NOTHING), 'make_file': ([DIR, BYTES, LABEL], FILE),
    'make_dir': ([DIR, BYTES, LABEL], DIR), 'open_file': ([DIR, BYTES], FILE), 'open_dir': ([DIR, BYTES], DIR),
    'remove': ([DIR, BYTES], NOTHING), 'read': ([FILE, INT, INT], BYTES), 'length': ([FILE], INT),
    'append': ([FILE, BYTES], NOTHING), 'cut': ([FILE, INT], NOTHING), 'make_pipe': ([LABEL], PIPE),
    'send': ([PIPE, BYTES], NOTHING), 'send_caps': ([PIPE, CAPS], NOTHING), 'receive': ([PIPE], BYTES),
    'receive_caps': ([PIPE], CAPS), 'join': ([THREAD], INT),
}
MOST = {'class': 1024, 'fn': 1024, 'field': 256, 'parameter': 64, 'region': 4096, 'local': 1024}
SEVERAL = {'[]': 'an array', 'a thing': 'an object or an array', 'what is labelled': 'something that has a label'}


class Break(Exception):
    """The first break of a rule: its kind, its place, what is wanted, what is found, and a name where it is of one."""

    def __init__(self, kind, at, want=None, got=None, name=None):
        super().__init__(kind)
        self.kind, self.at, self.want, self.got, self.name = kind, at, want, got, name


class Local:
    def __init__(self, name, of, at):
        self.name, self.type, self.at = name, of, at


def is_array(of):
    return isinstance(of, tuple)


def shown(of):
    """A type as it is written."""
    return f'[{shown(of[1])}]' if is_array(of) else of


class Typing:
    def __init__(self, items):
        self.items, self.scopes, self.result = items, [], None
        self.slots, self.regions = 0, 0     # of the unit, and of the program so far
        self.classes, self.functions = {}, {}

    def breaks(self, kind, at, want=None, got=None, name=None):
        """A rule is broken."""
        raise Break(kind, at, want, got, name)

    def room(self, kind, count, at):
        """That there may be one more of a kind."""
        if count == MOST[kind]:
            self.breaks('TooMany', at)

    # ---- names

    def declare_all(self):
        for kind, table in (('class', self.classes), ('fn', self.functions)):
            for item in self.items:
                if item.kind == kind:
                    self.declare_item(item, kind, table)

    def declare_item(self, item, kind, table):
        if item.name in table or kind == 'fn' and item.name in BUILTINS:
            self.breaks('Twice', item.name_at, name=item.name)
        else:
            self.room(kind, len(table), item.name_at)
            table[item.name] = item

    def local(self, name):
        for scope in reversed(self.scopes):
            if name in scope:
                return scope[name]
        return None

    def new(self, name, at):
        """That a name may be declared: it is new, and its unit has a slot for it."""
        if self.local(name):
            self.breaks('Twice', at, name=name)
        self.slot(at)

    def slot(self, at):
        self.room('local', self.slots, at)
        self.slots += 1

    def declare(self, name, of, at):
        self.scopes[-1][name] = Local(name, of, at)
        return self.scopes[-1][name]

    def named(self, name, at):
        found = self.local(name)
        if not found:
            self.breaks('NoName', at, name=name)
        return found or Local(name, UNKNOWN, at)

    def type_of(self, node):
        if node.kind == 'array':
            return ('array', self.type_of(node.of))
        if node.name not in TYPES and node.name not in self.classes:
            self.breaks('NoName', node.at, name=node.name)
            return UNKNOWN
        return node.name

    # ---- items

    def program(self):
        self.declare_all()
        for item in self.items:
            self.of_item(item)

    def of_item(self, item):
        if item.kind == 'class':
            self.of_class(item)
        else:
            self.of_function(item)

    def of_class(self, item):
        known = set()
        for field in item.fields:
            if field.name in known:
                self.breaks('Twice', field.at, name=field.name)
            self.room('field', len(known), field.at)
            known.add(field.name)
            field.type = self.type_of(field.of)

    def of_function(self, item):
        if item.result and not self.ends(item.body):
            self.breaks('NoReturn', item.name_at, name=item.name)
        self.scopes, self.slots = [{}], 0
        item.locals = []
        for parameter in item.parameters:
            if self.local(parameter.name):
                self.breaks('Twice', parameter.at, name=parameter.name)
            self.room('parameter', self.slots, parameter.at)
            self.slots += 1
            of = self.type_of(parameter.of)
            item.locals.append(self.declare(parameter.name, of, parameter.at))
        self.result = self.type_of(item.result) if item.result else NOTHING
        item.type = self.result
        self.statements(item.body)

    def ends(self, block):
        last = block.statements[-1] if block.statements else None
        if last is None:
            return False
        return last.kind in ('return', 'throw') or \
            last.kind == 'if' and bool(last.other) and self.ends(last.then) and self.ends(last.other)

    # ---- statements

    def statements(self, block):
        self.scopes.append({})
        for statement in block.statements:
            getattr(self, f'of_{statement.kind}')(statement)
        self.scopes.pop()

    def of_let(self, it):
        self.new(it.name, it.name_at)
        of = self.type_of(it.of)
        self.wants(it.value, of)
        it.local = self.declare(it.name, of, it.name_at)

    def of_if(self, it):
        self.wants(it.test, BOOL)
        self.statements(it.then)
        if it.other:
            self.statements(it.other)

    def of_while(self, it):
        self.wants(it.test, BOOL)
        self.statements(it.body)

    def of_return(self, it):
        if it.value is None:
            if self.result != NOTHING:
                self.breaks('Mismatch', it.at, self.result, NOTHING)
        elif self.result == NOTHING:
            self.breaks('Mismatch', it.value.at, None, self.of(it.value))
        else:
            self.wants(it.value, self.result)

    def of_throw(self, it):
        self.wants(it.value, INT)

    def of_sync(self, it):
        self.slot(it.at)
        self.wants(it.thing, 'a thing')
        self.statements(it.body)

    def captures(self, it):
        """The locals that a region copies, each of which takes a slot of it."""
        for name in it.captures:
            yield self.named(name.text, name.at)
            self.slot(name.at)

    def of_region(self, it):
        self.room('region', self.regions, it.at)
        self.regions += 1
        outer = self.slots
        self.wants(it.label, LABEL)
        self.wants(it.caps, CAPS)
        self.slots = 0
        it.captured = list(self.captures(it))
        self.statements(it.body)
        self.scopes.append({})
        self.new(it.name, it.name_at)
        it.local = self.declare(it.name, INT, it.name_at)
        self.statements(it.catch)
        self.scopes.pop()
        self.slots = outer

    def of_expr(self, it):
        self.of(it.value)

    def of_assign(self, it):
        self.wants(it.value, self.of(it.target))

    # ---- expressions

    def wants(self, node, want):
        """That an expression has a type that fits: a type, or one of several."""
        got = self.of(node)
        if not fits(got, want):
            self.breaks('Mismatch', node.at, want, got)
            return UNKNOWN
        return got

    def of(self, node):
        node.type = getattr(self, 'is_' + node.kind.replace(' ', '_'))(node)
        return node.type

    def is_number(self, _):
        return INT

    def is_text(self, _):
        return BYTES

    def is_constant(self, node):
        return NULL if node.value == 'null' else BOOL

    def is_name(self, node):
        node.local = self.named(node.name, node.at)
        return node.local.type

    def is_unary(self, node):
        self.wants(node.value, BOOL if node.op == '!' else INT)
        return BOOL if node.op == '!' else INT

    def is_binary(self, node):
        if node.op in ('==', '!='):
            return self.is_comparison(node)
        of = BOOL if node.op in ('&&', '||') else INT
        self.wants(node.left, of)
        self.wants(node.right, of)
        return INT if node.op in ('+', '-', '*', '/', '%') else BOOL

    def is_comparison(self, node):
        left = self.of(node.left)
        if left == NOTHING:
            self.breaks('Mismatch', node.left.at, None, NOTHING)
            left = UNKNOWN
        right = self.of(node.right)
        if left == NULL and right in (INT, BOOL, NOTHING):
            self.breaks('Mismatch', node.right.at, None, right)
        if left != NULL and not fits(right, left):
            self.breaks('Mismatch', node.right.at, left, right)
        return BOOL

    def is_member(self, node):
        of = self.of(node.of)
        if of == UNKNOWN:
            return UNKNOWN
        if is_array(of) or of in (*TYPES, NULL, NOTHING):
            self.breaks('Mismatch', node.of.at, 'an object', of)
            return UNKNOWN
        for place, field in enumerate(self.classes[of].fields if of in self.classes else ()):
            if field.name == node.name:
                node.place = place
                return self.declared_type(field.of)
        self.breaks('NoField', node.name_at, name=node.name, want=of)
        return UNKNOWN

    def declared_type(self, node):
        """The type in the head of an item that is used elsewhere; whether there is such a class is tested at that head."""
        return ('array', self.declared_type(node.of)) if node.kind == 'array' else node.name

    def is_element(self, node):
        of = self.of(node.of)
        if not is_array(of) and of != UNKNOWN:
            self.breaks('Mismatch', node.of.at, '[]', of)
        self.wants(node.index, INT)
        return of[1] if is_array(of) else UNKNOWN

    def is_new(self, node):
        if node.name not in self.classes:
            self.breaks('NoName', node.name_at, name=node.name)
            return UNKNOWN
        return node.name

    def is_new_array(self, node):
        of = self.type_of(node.of)
        self.wants(node.length, INT)
        return ('array', of)

    def is_label(self, node):
        for item in node.secrecy + node.integrity:
            self.wants(item, TAG)
        return LABEL

    def is_caps(self, node):
        node.locals = []
        for name, _ in node.items:
            local = self.named(name.text, name.at)
            if local.type not in (TAG, UNKNOWN):
                self.breaks('Mismatch', name.at, TAG, local.type)
            node.locals.append(local)
        return CAPS

    def is_spawn(self, node):
        called = self.functions.get(node.name)
        if not called:
            self.wants(node.caps, CAPS)
            return self.unknown_call(node, node.name_at)
        fits_in = self.arity(node, called.parameters)
        self.wants(node.caps, CAPS)
        self.arguments(node, called, fits_in)
        result = self.declared_type(called.result) if called.result else NOTHING
        if result not in (INT, UNKNOWN):
            self.breaks('Mismatch', node.at, INT, result)
        return THREAD

    def arity(self, node, wanted):
        """Whether a call has as many arguments as are wanted."""
        if len(node.arguments) != len(wanted):
            self.breaks('Arity', node.at, want=len(wanted), got=len(node.arguments), name=node.name)
        return len(node.arguments) == len(wanted)

    def arguments(self, node, called, fits_in):
        if not fits_in:
            self.any_arguments(node)
            return
        for argument, parameter in zip(node.arguments, called.parameters):
            self.wants(argument, self.declared_type(parameter.of))

    def any_arguments(self, node):
        """The arguments of a call of which is not known what it takes."""
        for argument in node.arguments:
            self.of(argument)

    def unknown_call(self, node, at):
        self.breaks('NoName', at, name=node.name)
        self.any_arguments(node)
        return UNKNOWN

    def is_call(self, node):
        if node.name in BUILTINS:
            return self.built_in_call(node, *BUILTINS[node.name])
        called = self.functions.get(node.name)
        if not called:
            return self.unknown_call(node, node.at)
        self.arguments(node, called, self.arity(node, called.parameters))
        return self.declared_type(called.result) if called.result else NOTHING

    def built_in_call(self, node, takes, gives):
        got = [UNKNOWN]
        if self.arity(node, takes):
            got = [self.wants(argument, want) for argument, want in zip(node.arguments, takes)]
        else:
            self.any_arguments(node)
        return got[0] if gives == 'the same' else gives


def is_unknown(of):
    """Whether a type is not known, or that of the elements is not."""
    return is_unknown(of[1]) if is_array(of) else of == UNKNOWN


def fits(got, want):
    """Whether an expression of a type may stand where a type, or one of several, is wanted."""
    if is_unknown(got) or is_unknown(want):
        return True
    if got == NOTHING or want in SEVERAL and got == NULL:
        return False
    if want == '[]':
        return is_array(got)
    if want == 'a thing':
        return is_array(got) or got not in TYPES
    if want == 'what is labelled':
        return is_array(got) or got not in TYPES or got in (FILE, DIR, PIPE)
    return got == want or got == NULL and want not in (INT, BOOL)


def typed(items):
    """Writes the types to a tree. Raises the first Break."""
    typing = Typing(items)
    typing.program()
    return typing
