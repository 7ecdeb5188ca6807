"""The canonical layout of a program with its comments, its blank lines and its texts as they were typed.

`lam format` prints a program without its comments, with `\\x` for each byte of a text that is not ASCII. An editor keeps them.
The tokens are those of the canonical text, so parentheses that say nothing go. A comment stays behind the token that stands
before it on its line, or on a line of its own; but over `{`, `;` and `,` it goes on, since these stand at the end of a line.
Of several blank lines between two statements, fields or comments one stays."""
from . import grammar

INDENT = '  '
LEVELS = {op: level for level, ops in enumerate(grammar.BINARY) for op in ops}
UNARY, POSTFIX = len(grammar.BINARY), len(grammar.BINARY) + 1
GLUED, SPACED, LINE, ITEM, JOINED = range(5)        # how a piece follows the one before; a joined one after a `}`


class Piece:
    """A token of the canonical text: how it follows, and the depth of its line where it begins one."""

    def __init__(self, text, follows, depth, closes=False):
        self.text, self.follows, self.depth, self.closes = text, follows, depth, closes
        self.opens = False


class Printer:
    """The pieces of a program's canonical text in order."""

    def __init__(self, text):
        self.text, self.pieces, self.depth, self.follows = text, [], 0, GLUED

    def put(self, text, follows=SPACED, closes=False):
        """A piece, which follows as the one before it wants it, else as it says itself."""
        if self.follows is not None:
            follows, self.follows = self.follows, None
        self.pieces.append(Piece(text, follows, self.depth, closes))

    def glue(self, text):
        """A piece that follows without a blank, and is followed so."""
        self.put(text, GLUED)
        self.follows = GLUED

    def listed(self, parts, one):
        for at, part in enumerate(parts):
            if at:
                self.put(',', GLUED)
                self.follows = SPACED
            one(part)

    def braced(self, parts, one):
        """A block of lines."""
        self.put('{')
        self.pieces[-1].opens = True
        self.depth += 1
        for part in parts:
            self.follows = LINE
            one(part)
        self.depth -= 1
        self.put('}', LINE if parts else SPACED, closes=True)

    # ---- items

    def program(self, items):
        for at, item in enumerate(items):
            self.follows = ITEM if at else GLUED
            getattr(self, f'a_{item.kind}')(item)

    def a_class(self, item):
        self.put('class')
        self.put(item.name)
        self.braced(item.fields, self.a_field)

    def a_field(self, field):
        self.named(field.name, field.of)
        self.put(';', GLUED)

    def named(self, name, of):
        """A name with its type."""
        self.put(name)
        self.put(':', GLUED)
        self.type(of)

    def type(self, node, follows=SPACED):
        if node.kind == 'array':
            self.put('[', follows)
            self.type(node.of, GLUED)
            self.put(']', GLUED)
        else:
            self.put(node.name, follows)

    def a_fn(self, item):
        self.put('fn')
        self.put(item.name)
        self.glue('(')
        self.listed(item.parameters, lambda it: self.named(it.name, it.of))
        self.follows = None
        self.put(')', GLUED)
        if item.result:
            self.put(':', GLUED)
            self.type(item.result)
        self.block(item.body)

    # ---- statements

    def block(self, block):
        self.braced(block.statements, lambda it: getattr(self, f'of_{it.kind}')(it))

    def head(self, word, value):
        self.put(word)
        self.put('(')
        self.follows = GLUED
        self.expr(value)
        self.put(')', GLUED)

    def of_let(self, it):
        self.put('let')
        self.named(it.name, it.of)
        self.put('=')
        self.expr(it.value)
        self.put(';', GLUED)

    def of_if(self, it):
        self.head('if', it.test)
        self.block(it.then)
        if it.other:
            self.put('else', JOINED)
            self.block(it.other)

    def of_while(self, it):
        self.head('while', it.test)
        self.block(it.body)

    def of_return(self, it):
        self.put('return')
        if it.value:
            self.expr(it.value)
        self.put(';', GLUED if it.value else SPACED)

    def of_throw(self, it):
        self.put('throw')
        self.expr(it.value)
        self.put(';', GLUED)

    def of_sync(self, it):
        self.head('sync', it.thing)
        self.block(it.body)

    def of_region(self, it):
        self.put('region')
        self.put('(')
        self.follows = GLUED
        self.expr(it.label)
        self.put(',', GLUED)
        self.expr(it.caps)
        self.put(')', GLUED)
        self.put('[')
        self.follows = GLUED
        self.listed(it.captures, lambda name: self.put(name.text))
        self.follows = None
        self.put(']', GLUED)
        self.block(it.body)
        self.put('catch', JOINED)
        self.put('(')
        self.put(it.name, GLUED)
        self.put(')', GLUED)
        self.block(it.catch)

    def of_expr(self, it):
        self.expr(it.value)
        self.put(';', GLUED)

    def of_assign(self, it):
        self.expr(it.target)
        self.put('=')
        self.expr(it.value)
        self.put(';', GLUED)

    # ---- expressions

    def expr(self, node, least=0):
        """An expression, in parentheses where it binds weaker than its place."""
        if level_of(node) < least:
            self.put('(')
            self.follows = GLUED
            self.expr(node)
            self.put(')', GLUED)
        else:
            getattr(self, f'is_{node.kind.replace(" ", "_")}')(node)

    def is_number(self, node):
        self.put(str(node.value))

    def is_text(self, node):
        self.put(self.text[node.at:node.end])

    def is_constant(self, node):
        self.put(node.value)

    def is_name(self, node):
        self.put(node.name)

    def is_binary(self, node):
        level = LEVELS[node.op]
        self.expr(node.left, level + (level == grammar.COMPARING))
        self.put(node.op)
        self.expr(node.right, level + 1)

    def is_unary(self, node):
        self.put(node.op)
        self.follows = GLUED
        self.expr(node.value, UNARY)

    def is_member(self, node):
        self.expr(node.of, POSTFIX)
        self.glue('.')
        self.put(node.name)

    def is_element(self, node):
        self.expr(node.of, POSTFIX)
        self.glue('[')
        self.expr(node.index)
        self.put(']', GLUED)

    def given(self, arguments):
        self.glue('(')
        self.listed(arguments, self.expr)
        self.follows = None
        self.put(')', GLUED)

    def is_call(self, node):
        self.put(node.name)
        self.given(node.arguments)

    def is_new(self, node):
        self.put('new')
        self.put(node.name)
        self.given([])

    def is_new_array(self, node):
        self.put('new')
        self.put('[')
        self.type(node.of, GLUED)
        self.put(']', GLUED)
        self.given([node.length])

    def is_label(self, node):
        self.put('label')
        self.glue('{')
        self.listed(node.secrecy, self.expr)
        self.follows = None
        self.put(';', GLUED)
        self.listed(node.integrity, self.expr)
        self.put('}', GLUED)

    def is_caps(self, node):
        self.put('caps')
        self.glue('{')
        self.listed(node.items, self.a_capability)
        self.follows = None
        self.put('}', GLUED)

    def a_capability(self, it):
        self.put(it[0].text)
        self.put(it[1].text, GLUED)

    def is_spawn(self, node):
        self.put('spawn')
        self.glue('(')
        self.expr(node.caps)
        self.put(')', GLUED)
        self.put(node.name)
        self.given(node.arguments)


def level_of(node):
    """How strongly an expression holds together."""
    return LEVELS[node.op] if node.kind == 'binary' else UNARY if node.kind == 'unary' else POSTFIX


# ---- comments and blank lines

class Comment:
    """A comment: whether a token stands before it on its line, and whether a blank line does."""

    def __init__(self, text, is_behind, is_apart):
        self.text, self.is_behind, self.is_apart = text, is_behind, is_apart


class Gap:
    """What stands between two tokens beside blanks: comments, and whether a blank line is before the second token."""

    def __init__(self, comments=(), is_apart=False):
        self.comments, self.is_apart = list(comments), is_apart


def gap_of(space, is_first):
    """The gap that a piece of a text without tokens is."""
    found, lines, blanks = Gap(), space.split('\n'), 0
    for number, line in enumerate(lines):
        text = line.strip(' \t\r')
        if text:
            found.comments.append(Comment(text, number == 0 and not is_first, blanks > 0))
            blanks = 0
        elif 0 < number < len(lines) - 1:
            blanks += 1
    found.is_apart = blanks > 0
    return found


def gaps_of(text, pieces):
    """The gap before each piece, and the one at the end. Tokens of the text that are no pieces are parentheses."""
    tokens, gaps, at, end = grammar.tokens_of(text)[:-1], [], 0, 0
    for piece in [*pieces, None]:
        gap = Gap()
        while at < len(tokens) and (piece is None or not is_token(tokens[at], piece)):
            add(gap, gap_of(text[end:tokens[at].at], end == 0))
            end, at = tokens[at].end, at + 1
        add(gap, gap_of(text[end:tokens[at].at if piece else len(text)], end == 0))
        gaps.append(gap)
        if piece:
            end, at = tokens[at].end, at + 1
    return gaps


def is_token(token, piece):
    """Whether a piece is this token; a number may have lost zeros at its beginning."""
    return token.text == piece.text or token.kind == 'number' and token.text.lstrip('0') == piece.text.lstrip('0')


def add(gap, more):
    """Puts two gaps together that stand round a parenthesis that goes."""
    gap.comments += more.comments
    gap.is_apart = more.is_apart


# ---- lines

class Lines:
    """The lines that are written. `depth` is that of the last line that began a statement."""

    def __init__(self):
        self.done, self.line, self.depth, self.has_comment = [], '', 0, False

    def end(self, depth):
        """Ends a line and begins another one."""
        if self.line.strip():
            self.done.append(self.line.rstrip())
        self.line, self.has_comment = INDENT * depth, False

    def part(self):
        """A blank line before the one that begins, where something stands before it and no blank line."""
        if self.done and self.done[-1]:
            self.done.append('')

    def comment(self, comment, depth, parts):
        """A comment behind what stands in the line, or on a line of its own; whether it does that."""
        is_behind = comment.is_behind and bool(self.line.strip()) and not self.has_comment
        if is_behind:
            self.line = f'{self.line.rstrip()} {comment.text}'
        else:
            self.end(depth)
            if parts:
                self.part()
            self.line += comment.text
        self.has_comment = True
        return not is_behind

    # ---- a piece with what stands before it

    def begins(self, piece, comments, is_apart, after_open):
        """A piece that begins a line: an item, a statement, a field or the end of a block."""
        depth, alone = piece.depth + piece.closes, 0
        for it in comments:
            parts = it.is_apart or piece.follows == ITEM and not alone
            alone += self.comment(it, depth, parts and (alone or not after_open))
        self.end(piece.depth)
        if not piece.closes and (is_apart and (alone or not after_open) or piece.follows == ITEM and not alone):
            self.part()
        self.line += piece.text
        self.depth = piece.depth

    def goes_on(self, piece, comments):
        """A piece that goes on in a line where no comment stands before it."""
        depth = piece.depth if piece.follows == JOINED else self.depth + 2
        for it in comments:
            self.comment(it, depth, False)
        if comments:
            self.end(depth)
            self.line += piece.text
        else:
            self.line += piece.text if piece.follows == GLUED else f' {piece.text}'

    def write(self, piece, comments, is_apart, before):
        is_first = before is None
        if is_first or piece.follows in (LINE, ITEM) or piece.closes and comments:
            self.begins(piece, comments, is_apart, not is_first and before.opens)
        else:
            self.goes_on(piece, comments)


def over(piece, comments):
    """The comments before a mark that ends a line, as they stand behind it."""
    if not piece.opens:
        comments[0].is_behind = True
    return comments


def edits(positions, made):
    """The edits, for the protocol, that make a text another one: of the lines between those that stay."""
    old, new = positions.text.splitlines(True), made.splitlines(True)
    most = min(len(old), len(new))
    first = next((at for at in range(most) if old[at] != new[at]), most)
    last = next((at for at in range(most - first) if old[-1 - at] != new[-1 - at]), most - first)
    if first == len(old) == len(new):
        return []
    start = sum(map(len, old[:first]))
    end = len(positions.text) - sum(map(len, old[len(old) - last:]))
    return [{'range': positions.range(start, end), 'newText': ''.join(new[first:len(new) - last])}]


def laid_out(text):
    """A program in this layout. Raises grammar.Broken where the text is none."""
    printer = Printer(text)
    printer.program(grammar.read(text))
    lines, held, before = Lines(), [], None
    *gaps, last = gaps_of(text, printer.pieces)
    for piece, gap in zip(printer.pieces, gaps):
        comments, held = held + gap.comments, []
        if comments and (piece.opens or piece.text in (';', ',')):
            comments, held = [], over(piece, comments)
        lines.write(piece, comments, gap.is_apart, before)
        before = piece
    for comment in held + last.comments:
        lines.comment(comment, 0, comment.is_apart)
    lines.end(0)
    made = ''.join(f'{line}\n' for line in lines.done)
    return made.replace('\n', '\r\n') if '\r\n' in text else made
