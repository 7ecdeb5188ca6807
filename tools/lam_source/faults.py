"""All faults of a program's text, each with sentences for a person. The first one is the fault that `lam check` names."""
import re

from . import code, document, wording

LONGEST_UNIT = 65535
MOST = 200      # of one text
WORD = re.compile(r'\w+|==|!=|<=|>=|&&|\|\||.', re.S)


class Found:
    """A fault: its kind, its place by characters, and what there is to say; of a unit that is too long, its number."""

    def __init__(self, kind, at, end, said, broken=None, unit=None):
        self.kind, self.at, self.end, self.said, self.broken, self.unit = kind, at, end, said, broken, unit

    def line(self, text):
        """The line by which a command refuses a program with this fault first."""
        if self.unit is not None:
            return f'lam: 3 {self.kind} {self.unit}'
        return f'lam: 3 {self.kind} at {len(text[:self.at].encode(errors="surrogatepass"))}'


def faults_of(text):
    """The faults of a text, the one that counts first and then the others by their places; at most MOST."""
    return of_document(document.Document(text))


def sentences(kind, text, at):
    """What there is to say of the fault of this kind at a place of the text, by characters."""
    return next((it.said for it in faults_of(text) if (it.kind, it.at) == (kind, at)), [])


def of_document(whole):
    return whole.once('faults', lambda: all_of(whole))


def all_of(whole):
    odd = [found for chunk in whole.chunks for found in of_pieces(whole, chunk)]
    lines = {whole.positions.line_of(it.at) for it in odd}
    broken = [found for chunk in whole.chunks for found in of_grammar(whole, chunk)]
    broken = [it for it in broken if whole.positions.line_of(it.at) not in lines]
    found = odd + broken + [it for breaks in whole.breaks() for it in of_breaks(whole, breaks)]
    if not found:
        return too_long(whole)
    rest = {(it.at, it.kind): it for it in reversed(found) if (it.at, it.kind) != (found[0].at, found[0].kind)}
    return [found[0], *(rest[key] for key in sorted(rest))][:MOST]


def end_of(text, at):
    """Where the word or the mark at a place ends."""
    word = WORD.match(text, at)
    return word.end() if word else at


def of_pieces(whole, chunk):
    for kind, at in chunk.odd[:MOST]:
        said = wording.bad_char(chunk.text, at) if kind == 'BadChar' else [wording.PLAIN[kind]]
        yield Found(kind, chunk.base + at, end_of(whole.text, chunk.base + at), said)


def of_grammar(whole, chunk):
    for broken in chunk.broken[:MOST]:
        at = chunk.base + broken.token.at
        here = wording.Here(chunk.text, chunk.tokens, broken.index)
        if isinstance(broken, document.grammar.TooDeep):
            yield Found('TooDeep', at, end_of(whole.text, at), [wording.PLAIN['TooDeep']], broken)
        else:
            end = at + len(broken.token.text) if broken.token.text else at
            yield Found('Unexpected', at, end, wording.unexpected(here, broken), broken)


def of_breaks(whole, breaks):
    def line(item, at):
        return whole.line(item.chunk.base + at)
    for broken in breaks[:MOST]:
        broken.typing = whole.typing        # that it is kept from an earlier text does not show in its words
        at = broken.item.chunk.base + broken.at
        yield Found(broken.kind, at, end_of(whole.text, at), wording.of_types(broken.item.chunk.text, broken, line), broken)


def too_long(whole):
    """The first unit of a legal program that is too long for its code; it is compiled only where that can be."""
    for chunk in whole.chunks:
        words = [it.text for it in chunk.tokens]
        most = 4 * len(words) + 2 * words.count('return') * min(words.count('sync'), 128)
        if most > LONGEST_UNIT:
            units = code.Code(whole.text, legal=whole.items).units
            long = next((it.number for it in units if len(it.ops) > LONGEST_UNIT), None)
            return [] if long is None else [Found('CodeTooLong', None, None, [], unit=long)]
    return []
