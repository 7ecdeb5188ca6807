"""Sentences for each fault of a program: what stands at its place, what could stand there, and what often helps."""
import difflib
import re

from . import grammar, types

EXPRESSION = ['!', '-', 'a number', 'a text', 'true', 'false', 'null', '(', 'a name', 'new', 'label', 'caps', 'spawn']
STATEMENT = ['let', 'if', 'while', 'return', 'throw', 'sync', 'region']
OPERATOR = ['||', '&&', '==', '!=', '<', '<=', '>', '>=', '+', '-', '*', '/', '%', '.', '[']
TYPE = grammar.TYPES + ['a name', '[']

PLAIN = {
    'BadNumber': 'a number is at most 9223372036854775807, and no letter stands directly after it',
    'BadEscape': r'in a text stand \n, \t, \\, \" and \xHH with two hexadecimal digits, and no other escape',
    'OpenText': 'the text that begins here has no " at its end on this line, or is longer than 65,536 bytes',
    'TooDeep': 'more than 128 constructs are open in each other here: make a function of what is inside',
    'TooMany': 'with this declaration a limit is passed: 1,024 classes, functions, or locals of a function or region, '
               '256 fields, 64 parameters, 4,096 regions',
    'ReturnInRegion': 'a region ends at its }, and a return would take out what was learnt inside',
}
# Names that people bring from other languages.
OFTEN = {'print': 'say(..)', 'println': 'say(..)', 'echo': 'say(..)', 'puts': 'say(..)', 'log': 'say(..)',
         'concat': 'cat(..)', 'str': 'text(..) of a number, and the type bytes', 'parse': 'number(..)',
         'string': 'the type bytes, and text(..) of a number', 'String': 'the type bytes', 'Int': 'the type int',
         'boolean': 'the type bool', 'char': 'byte(..), which gives an int', 'float': 'the type int; there are no fractions',
         'void': 'no type: a function without a result has none', 'list': 'an array: [int]', 'array': 'an array: [int]',
         'declassify': 'a region with a lower label: region (label{;}, caps{}) [x] { .. } catch (e) { }',
         'open': 'open_file(..) or open_dir(..)', 'write': 'append(..)', 'exit': 'return, or throw with a number',
         'for': 'while (i < n) { .. }', 'try': 'a region, which has a catch block',
         'break': 'a test of the loop that ends it, while (!done && ..) { .. done = true; }, or return',
         'continue': 'an if round the rest of the loop',
         'this': 'a parameter: fn f(c: C)', 'self': 'a parameter: fn f(c: C)',
         'True': 'true', 'False': 'false', 'None': 'null', 'nil': 'null', 'undefined': 'null',
         'thread_join': 'join(..)', 'lock': 'sync (x) { .. }', 'endorse': 'a region whose label has the integrity tag'}


def told(wanted):
    """What could stand at a place, in words."""
    left, said = list(wanted), []
    groups = [('a statement', STATEMENT + EXPRESSION), ('an expression', EXPRESSION), ('a type', TYPE),
              ('an operator', OPERATOR[:13])]
    for name, group in groups:
        if all(it in left for it in group):
            said.append(name)
            left = [it for it in left if it not in group]
    if sum(it in left for it in OPERATOR) > 4:
        said.append('an operator')
        left = [it for it in left if it not in OPERATOR]
    said += [it if it.startswith(('a ', 'the ')) else f'`{it}`' for it in left]
    return said[0] if len(said) == 1 else ', '.join(said[:-1]) + ' or ' + said[-1]


class Here:
    """A token of a text, and what stands before it; by this hints are found."""

    def __init__(self, text, tokens, at):
        self.text, self.tokens, self.at = text, tokens, at

    @property
    def before(self):
        return self.tokens[self.at - 1]


def unexpected(here, broken):
    """What there is to say of a token that continues no program."""
    token, wanted = broken.token, broken.wanted
    if token.kind == 'end' and token.text:      # an item that begins too early
        token = grammar.Token('word', token.text, token.at)
    found = 'the text ends here' if token.kind == 'end' else f'`{token.text}` cannot stand here'
    return [f'{found}; what could: {told(wanted)}', *hints(here, token, wanted)]


# Words that begin a statement in other languages, and what is written here.
BEGINNINGS = {
    'for': 'there is no for: let i: int = 0; while (i < n) { .. i = i + 1; }',
    'try': 'there is no try: a region catches faults: region (my_label(), my_caps()) [] { .. } catch (e) { }',
    'var': 'a variable is declared by let, with its type: let n: int = ..;',
    'elif': 'after else stands a block: else { if (..) { .. } }',
    'elsif': 'after else stands a block: else { if (..) { .. } }',
}
FUNCTIONS = ('function', 'def', 'func', 'fun', 'proc', 'sub')       # words that begin a function in other languages
SETS = re.compile(r'\{([\w\s,]*)\}(?:\s*/\s*\{([\w\s,]*)\})?')


def beginning(reader):
    """The word with which the statement of the next token begins, where other languages have a statement of it."""
    at = reader.at
    while at > 0 and reader.tokens[at - 1].text not in (';', '{', '}'):
        at -= 1
    first, second = reader.tokens[at], reader.tokens[min(at + 1, len(reader.tokens) - 1)]
    return first.text if at < reader.at and second.text not in ('=', '.', '[') else ''


def opening(reader):
    """The word before the `{` or `(` that is open where the next token stands."""
    depth = 0
    for at in range(reader.at - 1, 0, -1):
        text = reader.tokens[at].text
        depth += (text in ('}', ')')) - (text in ('{', '('))
        if depth < 0:
            return reader.tokens[at - 1].text
    return ''


def names_in(text):
    return [it.strip() for it in text.split(',') if it.strip()]


def label_meant(text, at):
    """The label that sets between braces at a place seem to be meant as."""
    found = SETS.match(text, at)
    secrecy, integrity = (names_in(side or '') for side in found.groups()) if found else ([], [])
    more = f' {", ".join(integrity)}' if integrity else ''
    return f'label{{{", ".join(secrecy)};{more}}}' if secrecy or integrity else 'label{a; b}'


def caps_meant(text, at):
    """The capabilities of the tags that are named between braces at a place."""
    names = list(dict.fromkeys(re.findall(r'\w+', text[at:text.find('}', at) + 1])))
    return f'caps{{{", ".join(f"{it}+, {it}-" for it in names)}}}' if 1 <= len(names) <= 4 else 'caps{a+, b-}'


def of_braces(reader, token, wanted):
    """What was meant in a label or in capabilities that are not written as such."""
    text, inside = reader.text, opening(reader)
    start = text.rfind('{', 0, token.at)
    if token.text == '{' and 'a number' in wanted:
        if inside == 'region' and reader.before.text == ',':
            return f'capabilities are written {caps_meant(text, token.at)}, a sign behind each tag'
        return f'a label is written {label_meant(text, token.at)}: secrecy before the `;`, integrity behind it'
    if token.text == '(' and reader.before.text in ('label', 'caps'):
        return f'{reader.before.text} has braces: ' + ('label{a; b}' if reader.before.text == 'label' else 'caps{a+, b-}')
    if inside == 'label' and token.text == '}':
        return f'a label has a `;` between secrecy and integrity: {label_meant(text, start)}' if text[start + 1:token.at].strip() \
            else 'the public label is label{;}, with secrecy before the `;` and integrity behind it'
    if inside == 'caps' and token.text in ('}', ',', '+', '-', ';'):
        return f'each tag of caps has a sign behind it, and a comma stands between two: {caps_meant(text, start)}'
    return ''


def method(reader):
    """The call that is meant by one of a method, `c.foo(`."""
    thing, name = reader.tokens[max(0, reader.at - 3)], reader.before.text
    whole = reader.at < 4 or reader.tokens[reader.at - 4].text not in ('.', ')', ']')
    return f'{name}({thing.text if thing.kind == "name" and whole else ".."}, ..)'


def misspelt(reader):
    """The word of the language that seems to be meant at the beginning of the statement of the next token, or None."""
    word = beginning(reader)
    return next(iter(difflib.get_close_matches(word, STATEMENT, 1, 0.66)), None) if word and word not in STATEMENT else None


def is_comment(reader, token):
    text = reader.text
    return text.startswith('/*', token.at) or token.text == '*' and text.startswith('/*', token.at - 1)


def hints(reader, token, wanted):
    """What often was meant where a token is unexpected."""
    before = [it.text for it in reader.tokens[max(0, reader.at - 4):reader.at]]
    last = before[-1] if before else ''
    word, braces, meant = beginning(reader), of_braces(reader, token, wanted), misspelt(reader)
    return [say for fits, say in (
        (is_comment(reader, token), 'a comment begins with // and goes to the end of its line'),
        (last == 'else' and token.text == 'if', 'after else stands a block: else { if (..) { .. } }'),
        (word in BEGINNINGS, BEGINNINGS.get(word)),
        (braces, braces),
        (before[-2:-1] == ['let'] and token.text == '=', f'a let says its type: let {last}: int = ..;'),
        (token.text == '(' and before[-2:-1] == ['.'], f'an object has fields and no methods: {method(reader)}'),
        (token.text == '[' and 'a number' in wanted, 'an array is made by its length, and its elements are set: '
                                                     'let a: [int] = new [int](2); a[0] = 1;'),
        (token.text == '=' and wanted == [';'], 'a field gets no value here: new makes an int 0, a bool false and all else null'),
        (token.text == ':' and word and reader.before.text == word, f'a variable is declared by let: let {last}: int = ..;'),
        (token.text == '=' and last in '+-*/%' and last, f'there is no {last}=: x = x {last} ..;'),
        (token.text == '+' and last == '+', 'there is no ++: x = x + 1;'),
        (token.text == ')' and ',' in wanted and opening(reader) == 'region',
         'a region has a label and capabilities: region (label{a;}, my_caps()) [] { .. } catch (e) { }'),
        (wanted == ['['] and last == ')', 'a region lists the names that it copies, or none: '
                                          'region (label{;}, caps{}) [] { .. } catch (e) { }'),
        (wanted == ['catch'], 'a region ends with the block that gets the number of a fault: } catch (e) { }'),
        (token.kind == 'word' and 'a name' in wanted and 'a number' not in wanted,
         f'`{token.text}` is a word of the language, and cannot be a name'),
        (token.text == '-' and ':' in wanted and '{' in wanted, 'a result stands after a colon: fn f(): int { .. }'),
        (token.text == '=' and ')' in wanted, '`=` sets a variable; `==` compares'),
        (wanted == ['('] and last in ('if', 'while', 'sync'), f'what {last} tests or takes stands in ( )'),
        (meant, f'did you mean {meant}?'),
        (';' in wanted and on_later_line(reader, token), 'perhaps the line before lacks its `;`'),
        (token.text == ';' and '{' in wanted, 'after the head stands a block: { .. }'),
        (token.text == '{' and not before, 'a world document begins so; the program is the word before the world'),
        (is_outside(wanted) and token.text in FUNCTIONS, 'a function is declared by fn: fn f(n: int): int { .. return n; }'),
        (is_outside(wanted) and token.kind != 'mark',
         'all statements stand in functions: fn main(): int { .. return 0; }'),
    ) if fits][:1]


def is_outside(wanted):
    return wanted == ['the end of the program', 'class', 'fn']


def on_later_line(reader, token):
    return reader.at > 0 and '\n' in reader.text[reader.before.end:token.at]


def bad_char(text, at):
    if text[at:at + 1] == '\ufeff':
        return ['a byte order mark stands here: save the program without one']
    meant = {'&': 'and is `&&`', '|': 'or is `||`', "'": 'a text stands between two `"`', '?': 'a choice is an if with an else',
             '#': 'a comment begins with `//`', '`': 'a text stands between two `"`'}
    more = f': {meant[text[at]]}' if text[at:at + 1] in meant else ''
    return [f'`{text[at:at + 1]}` begins nothing of the language{more}']


# ---- types

def kind_of(of):
    if of in types.SEVERAL:
        return types.SEVERAL[of]
    return {types.NULL: 'null', types.NOTHING: 'a call without a result', None: 'nothing'}.get(of, f'of type {types.shown(of)}')


def parts_of(node):
    """A part of a tree and all parts below it, each before its own."""
    if isinstance(node, list):
        for part in node:
            yield from parts_of(part)
    elif isinstance(node, grammar.Node):
        yield node
        for part in list(vars(node).values()):
            if isinstance(part, (list, grammar.Node)):
                yield from parts_of(part)


def joined(text, node):
    """A sum as the call of `cat` that is meant by it."""
    if node.kind == 'binary' and node.op == '+':
        return f'cat({joined(text, node.left)}, {joined(text, node.right)})'
    source = text[slice(*getattr(node, 'outer', (node.at, node.end)))]
    return f'text({source})' if node.kind == 'number' else source


def is_short(text):
    return len(text) < 70 and '\n' not in text


def of_sum(text, found):
    """What is meant where bytes stand in a sum, or None."""
    sums = (it for it in parts_of(found.item) if it.kind == 'binary' and it.op == '+' and found.at in (it.left.at, it.right.at))
    whole = next(sums, None)
    if found.got != types.BYTES or found.want != types.INT or not whole:
        return None
    meant = joined(text, whole)
    return '`+` adds numbers; bytes are joined by ' + (meant if is_short(meant) else 'cat(a, b)')


def of_element(text, found):
    """What is meant where bytes stand in the place of an array, or None."""
    if found.got != types.BYTES or found.want != '[]':
        return None
    it = next((it for it in parts_of(found.item) if it.kind == 'element' and it.of.at == found.at), None)
    if not it:
        return 'size(b) counts the bytes'
    meant = f'byte({text[it.of.at:it.of.end]}, {text[it.index.at:it.index.end]})'
    return f'{meant if is_short(meant) else "byte(b, i)"} takes one byte, and slice(b, i, j) a part'


def mismatch(text, found):
    if found.want is None and found.got == types.NOTHING:
        return ['a call without a result stands here, and there is nothing to compare']
    if found.want is None:
        return [f'this is {kind_of(found.got)}, and the function has no result: return ;'
                if found.got not in (types.INT, types.BOOL) else
                'null is compared with what has a name or bytes, and an int or a bool is never null; '
                'and a function without a result returns none']
    wanted = kind_of(found.want) if found.want in types.SEVERAL else \
        found.want if found.want == 'an object' else types.shown(found.want)
    said = [f'wanted here: {wanted}; what stands here is {kind_of(found.got)}']
    turns = {(types.BYTES, types.INT): 'text(n) writes a number as bytes',
             (types.INT, types.BYTES): 'number(b) reads a number, size(b) counts the bytes, byte(b, i) takes one',
             (types.BOOL, types.INT): 'a test compares: n != 0',
             (types.INT, types.BOOL): 'there is no number of a truth: let n: int = 0; if (b) { n = 1; }',
             (types.DIR, types.FILE): 'a directory is root() or open_dir(d, name)',
             (types.FILE, types.BYTES): 'a name is no file yet: open_file(root(), name)',
             (types.DIR, types.BYTES): 'a name is no directory yet: open_dir(root(), name)',
             (types.PIPE, types.BYTES): 'a pipe is an argument of the thread in the world document, or make_pipe(l)',
             (types.LABEL, types.TAG): 'a label of one secrecy tag is label{t;}',
             (types.CAPS, types.TAG): 'capabilities of a tag are caps{t+, t-}'}
    more = of_sum(text, found) or of_element(text, found) or turns.get((found.want, found.got))
    if found.got == types.NULL and found.want in (types.INT, types.BOOL):
        more = 'an int begins as 0 and a bool as false'
    return said + ([more] if more else [])


def is_called(text, found):
    return bool(re.match(r'\s*\(', text[found.at + len(found.name):]))


def is_made(text, found):
    """Whether the name stands behind `new`."""
    return bool(re.search(r'\bnew\s+$', text[max(0, found.at - 40):found.at]))


def near(text, found):
    """The names that may be meant by one that is not declared, the likeliest first."""
    typing = found.typing
    if found.kind == 'NoField':
        known = [it.name for it in typing.classes[found.want].fields] if found.want in typing.classes else []
    else:
        known = [local for scope in found.scopes for local in scope if local]
        known = [*typing.classes] if is_made(text, found) else \
            known + [*typing.functions, *types.BUILTINS] if is_called(text, found) else \
            known + [*typing.classes, *grammar.TYPES, 'true', 'false', 'null']
    return difflib.get_close_matches(found.name, known, 3)


def no_name(text, found):
    name, typing = found.name, found.typing
    called = is_called(text, found)
    takes = types.BUILTINS[name][0] if name in types.BUILTINS else \
        typing.functions[name].parameters if name in typing.functions else None
    if not called and takes is not None:
        return [f'{name} is a function, and is called: {name}({".." if takes else ""})']
    meant = near(text, found)
    kind = 'class' if is_made(text, found) else 'function' if called else 'variable or type'
    more = f'; what comes near is {OFTEN[name]}' if name in OFTEN else f'; did you mean {meant[0]}?' if meant else ''
    return [f'no {kind} {name} is declared here{more}']


def twice(found, line):
    name, typing = found.name, found.typing
    local = next((scope[name] for scope in reversed(found.scopes) if name in scope), None)
    if name in types.BUILTINS and not local:
        return [f'{name} is a built-in call, and no other function has its name']
    earlier = local or typing.functions.get(name) or typing.classes.get(name)
    place = getattr(earlier, 'name_at', getattr(earlier, 'at', None))
    item = found.item if local else earlier
    more = '' if earlier is None or item is found.item and place >= found.at else f', at line {line(item, place)}'
    return [f'{name} is declared already{more}; a name is declared once where it is in scope']


def counted(number, what):
    return f'{number} {what}' if number == 1 else f'{number} {what}s'


def outer_read(found, line):
    """That a region lacks a name, and how it takes it along: behind those that its list has already."""
    region = found.lacking[0]
    names = ', '.join([it.text for it in region.captures] + [found.name])
    said = [f'{found.name} is a variable of the outside, and a region has its own and those in its [ ]: '
            f'[{names}] takes a copy along']
    if len(found.lacking) > 1:
        lines = ', '.join(str(line(found.item, it.at)) for it in found.lacking[1:])
        said.append(f'so does each region round it that has no {found.name}: of line {lines}')
    return said


def of_types(text, found, line):
    """What there is to say of a break, by the text of its item and by what gives the line of a place in an item."""
    kind, name = found.kind, found.name
    if kind == 'OuterRead':
        return outer_read(found, line)
    if kind == 'OuterWrite':
        return [f'{name} is a variable of the outside, and what a region learns would leave by it;',
                'a result leaves in an object, a file or a message, whose label says who may read it']
    if kind == 'CaptureTwice':
        return [f'{name} stands in these [ ] already']
    if kind == 'Mismatch':
        return mismatch(text, found)
    if kind == 'NoName':
        return no_name(text, found)
    if kind == 'Twice':
        return twice(found, line)
    if kind == 'Arity':
        return [f'{name} takes {counted(found.want, "argument")}, and {found.got} stand{"s" if found.got == 1 else ""} here']
    if kind == 'NoField' and found.want not in found.typing.classes:
        return [f'there is no class {found.want}, so it has no field {name}']
    if kind == 'NoField':
        fields = ', '.join(it.name for it in found.typing.classes[found.want].fields) or 'none'
        return [f'the class {found.want} has no field {name}; its fields: {fields}']
    if kind == 'NoReturn':
        return [f'{name} has a result, and can come to its end without a return or a throw']
    return [PLAIN[kind]] if kind in PLAIN else []
