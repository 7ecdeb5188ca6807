#!/usr/bin/env python3
"""A language server for programs (*.lam), world documents (*.world) and short texts of worlds (*.short).

Usage: tools/lam_server.py      an editor starts it and speaks the Language Server Protocol over its input and output

Of a program it tells all faults with explanations and quick fixes, and formats it with its comments. It shows types, the
rules that calls test and the labels of regions, finds and renames what is declared, and completes names. A world is
checked against its program as it stands in the editor. All of that is by tools/lam_source, this repository's second
reading of the language. Where the program `lam` is built (that of LAM_PROGRAM, or the one that ./lam keeps), the server asks
`lam check` too, while nothing else is to be done, and tells its refusal where it is another one. tools/editor/README.md
sets up editors.
"""
from lam_source import early    # pylint: disable=unused-import,wrong-import-order
import queue
import sys
import threading

from lam_source import completing, diagnosing, faults, fixing, in_world, last_catch, layout, outline, pointing, program
from lam_source import protocol, session, showing, uses
from lam_source.session import is_world

NOT_BUILT = 'lam is not built, so faults are told by tools/lam_source alone. `./lam help` builds it without proof, ' \
            '`./lam --prove` with its proofs.'
NOTE = 3            # a kind of messages
AT_REST, QUIET = 0.02, 0.4      # seconds without a message, before faults are told and before the program is asked
CAPABILITIES = {
    'textDocumentSync': {'openClose': True, 'change': 1}, 'hoverProvider': True, 'definitionProvider': True,
    'referencesProvider': True, 'documentHighlightProvider': True, 'renameProvider': {'prepareProvider': True},
    'documentSymbolProvider': True, 'documentFormattingProvider': True, 'foldingRangeProvider': True,
    'inlayHintProvider': True, 'codeActionProvider': {'codeActionKinds': ['quickfix']},
    'completionProvider': {'triggerCharacters': ['.', ':', '"', '{', '(']},
    'signatureHelpProvider': {'triggerCharacters': ['(', ',']},
}


class Refusal(Exception):
    """A request that cannot be answered: its code and a sentence."""

    def __init__(self, code, text):
        super().__init__(text)
        self.code, self.text = code, text


def part(params, name, kind, what):
    """A member of a message's parameters, of a kind."""
    found = params.get(name) if isinstance(params, dict) else None
    if not isinstance(found, kind) or isinstance(found, bool):
        raise Refusal(protocol.BAD_WORDS, f'the message names no {what}')
    return found


def uri_of(params):
    return part(part(params, 'textDocument', dict, 'text'), 'uri', str, 'text')


def is_place(place):
    return isinstance(place, dict) and all(type(place.get(it)) is int and 0 <= place[it] < 1 << 31 for it in ('line', 'character'))


class Server:
    def __init__(self, channel):
        self.channel, self.texts, self.inbox = channel, session.Texts(), queue.SimpleQueue()
        self.is_ready, self.is_down, self.has_said = False, False, False
        self.stale, self.unasked, self.asking = {}, {}, None     # by their URIs, in the order of changes

    # ---- messages

    def run(self):
        """Answers messages until the editor ends the session; the status of the server."""
        threading.Thread(target=self.listen, daemon=True).start()
        while True:
            message = self.next()
            if message is None or isinstance(message, protocol.Cut):
                if message:
                    last_catch.say('lam_server: the input ended within a message')
                self.tell_all()
                return 0 if self.is_down else 1
            if isinstance(message, protocol.Unreadable):
                self.channel.refuse(None, protocol.UNREADABLE, str(message))
            elif callable(message):
                message()
            elif message.get('method') == 'exit' and 'id' not in message:
                return 0 if self.is_down else 1
            else:
                self.take(message)

    def listen(self):
        """Puts what comes in into the inbox, up to the end."""
        message = self
        while message is not None and not isinstance(message, protocol.Cut):
            try:
                message = self.channel.receive()
            except (protocol.Unreadable, protocol.Cut) as broken:
                message = broken
            except (OSError, ValueError):
                message = None
            self.inbox.put(message)

    def next(self):
        """The next message. While none comes, faults are told, and then the program is asked."""
        while True:
            try:
                return self.inbox.get(timeout=AT_REST if self.stale else QUIET if self.can_ask() else None)
            except queue.Empty:
                if self.stale:
                    self.tell_faults(next(iter(self.stale)))
                else:
                    self.ask_program()

    def take(self, message):
        """Answers a request, or takes note of a notification."""
        method, number, is_request = message.get('method'), message.get('id'), 'id' in message
        if method is None and ('result' in message or 'error' in message):
            return      # an answer, and this server asks nothing
        try:
            if is_request and (type(number) not in (int, str)):
                number = None
                raise Refusal(protocol.NO_REQUEST, 'the id of a request is a whole number or a text')
            result = self.done(method, message.get('params'))
        except Refusal as refusal:
            if is_request:
                self.channel.refuse(number, refusal.code, refusal.text)
        except Exception as fault:      # pylint: disable=broad-except
            # one message that goes wrong must not end the session
            last_catch.say(f'lam_server: {method}: {last_catch.told(fault)}')
            if is_request:
                self.channel.refuse(number, protocol.FAILED, last_catch.told(fault))
        else:
            if is_request:
                self.channel.answer(number, result)

    def done(self, method, params):
        if not isinstance(method, str):
            raise Refusal(protocol.NO_REQUEST, 'a message has a method, which is a text')
        if self.is_down:
            raise Refusal(protocol.NO_REQUEST, 'the server is shut down')
        if not self.is_ready and method != 'initialize':
            raise Refusal(protocol.NOT_READY, 'initialize comes first')
        handler = HANDLERS.get(method)
        if handler is None:
            raise Refusal(protocol.NO_METHOD, f'{method[:100]} is not known')
        return handler(self, params)

    def initialize(self, _):
        if self.is_ready:
            raise Refusal(protocol.NO_REQUEST, 'initialize comes once')
        self.is_ready = True
        return {'capabilities': CAPABILITIES, 'serverInfo': {'name': 'lam_server'}}

    def nothing(self, _):
        return None

    def shutdown(self, _):
        self.is_down = True
        self.stale, self.unasked = {}, {}

    # ---- texts

    def opened(self, params):
        uri = uri_of(params)
        self.texts.take(uri, part(params['textDocument'], 'text', str, 'text'))
        self.changed(uri)
        self.tell_faults(uri)

    def change(self, params):
        uri = uri_of(params)
        for change in part(params, 'contentChanges', list, 'changes'):
            text = part(change, 'text', str, 'text')
            if uri in self.texts.open and 'range' not in change:
                self.texts.take(uri, text)
                self.changed(uri)

    def changed(self, uri):
        """Faults of a text are to be told, and those of the worlds that go by it."""
        for it in [uri, *([] if is_world(uri) else self.texts.worlds_of(uri))]:
            self.stale[it] = self.unasked[it] = True

    def close(self, params):
        uri = uri_of(params)
        for those in (self.texts.open, self.stale, self.unasked):
            those.pop(uri, None)
        self.publish(uri, [])

    def publish(self, uri, found):
        self.channel.tell('textDocument/publishDiagnostics', {'uri': uri, 'diagnostics': found})

    def tell_faults(self, uri):
        self.stale.pop(uri, None)
        if uri in self.texts.open:
            self.publish(uri, self.texts.faults(uri))

    def tell_all(self):
        while self.stale:
            self.tell_faults(next(iter(self.stale)))

    # ---- the program, which has the last word

    def can_ask(self):
        return bool(self.unasked) and self.asking is None

    def ask_program(self):
        """Asks the program for its refusal of a text, beside all else."""
        uri = next(iter(self.unasked))
        del self.unasked[uri]
        if uri in self.texts.open and not is_world(uri):
            self.asking = threading.Thread(target=self.asked, args=(uri, self.texts.open[uri].text), daemon=True)
            self.asking.start()

    def asked(self, uri, text):
        """What a thread of its own does: its result comes by the inbox."""
        lam, line = None, None
        try:
            lam = program.found()
            line = diagnosing.refusal_of(text, lam) if lam else None
        except (OSError, UnicodeError):
            pass        # then the program has no word
        self.inbox.put(lambda: self.answered(uri, text, line, bool(lam)))

    def answered(self, uri, text, line, is_built):
        self.asking = None
        if not is_built:
            self.say_once()
        elif line is not None and uri in self.texts.open and self.texts.open[uri].text == text:
            whole = self.texts.open[uri]
            told = faults.of_document(whole)
            if line != (told[0].line(text) if told else ''):
                more = [diagnosing.of_refusal(whole, line)] if line else []
                self.publish(uri, more + (self.texts.faults(uri) if line else []))

    def say_once(self):
        if not self.has_said:
            self.has_said = True
            self.channel.tell('window/showMessage', {'type': NOTE, 'message': NOT_BUILT})

    # ---- what a request is about

    def text(self, params):
        uri = uri_of(params)
        if uri not in self.texts.open:
            raise Refusal(protocol.NO_REQUEST, f'{uri[:200]} is not open')
        return self.texts.open[uri]

    def program_text(self, params):
        """The document of a program, or None where the text is a world."""
        found = self.text(params)
        return None if is_world(uri_of(params)) else found

    def at(self, params):
        """The place of a request, by characters."""
        place = part(params, 'position', dict, 'position')
        if not is_place(place):
            raise Refusal(protocol.BAD_WORDS, 'the message names no position')
        return self.text(params).positions.at(place)

    def span(self, params):
        """The range of a request, by characters."""
        found = part(params, 'range', dict, 'range')
        if not is_place(found.get('start')) or not is_place(found.get('end')):
            raise Refusal(protocol.BAD_WORDS, 'the message names no range')
        positions = self.text(params).positions
        return positions.at(found['start']), positions.at(found['end'])

    def place(self, params):
        """What stands at the place of a request in a program; None in a world."""
        whole, at = self.program_text(params), self.at(params)
        return whole and pointing.Place(whole, at)

    # ---- requests

    def hover(self, params):
        text, at = self.text(params), self.at(params)
        if is_world(uri_of(params)):
            found = in_world.told(text.pieces, at, self.texts.program_of(uri_of(params))[1])
            told, start, end = found or (None, 0, 0)
        else:
            place = pointing.Place(text, at)
            told = place.told()
            start, end = (place.base + place.token.at, place.base + place.token.end) if told else (0, 0)
        if not told:
            return None
        value = f'```lam\n{told[0]}\n```' + ''.join(f'\n\n{sentence}' for sentence in told[1])
        return {'contents': {'kind': 'markdown', 'value': value}, 'range': text.positions.range(start, end)}

    def definition(self, params):
        place = self.place(params)
        found = place and place.declared()
        return {'uri': uri_of(params), 'range': self.text(params).positions.range(*found)} if found else None

    def ranges(self, params, found):
        positions = self.text(params).positions
        return [positions.range(base + use.at, base + use.at + len(use.name)) for base, use in found]

    def references(self, params):
        place = self.place(params)
        found = uses.all_of(place) if place else []
        context = params.get('context')
        if isinstance(context, dict) and not context.get('includeDeclaration', True):
            found = [it for it in found if it[1].how != uses.DECLARED]
        return [{'uri': uri_of(params), 'range': it} for it in self.ranges(params, found)]

    def highlights(self, params):
        place = self.place(params)
        found = uses.all_of(place) if place else []
        kinds = [2 if use.how == uses.READ else 3 for _, use in found]      # of the protocol: read, write
        return [{'range': it, 'kind': kind} for it, kind in zip(self.ranges(params, found), kinds)]

    def to_rename(self, params):
        place = self.place(params)
        try:
            return uses.to_rename(place) if place else []
        except uses.NoRename as why:
            raise Refusal(protocol.BAD_WORDS, str(why)) from None

    def prepare_rename(self, params):
        found = self.to_rename(params)
        token = self.place(params).token if found else None
        base = self.place(params).base if found else 0
        return token and self.text(params).positions.range(base + token.at, base + token.end)

    def rename(self, params):
        whole, name, found = self.text(params), part(params, 'newName', str, 'new name'), self.to_rename(params)
        if not uses.is_name(name):
            raise Refusal(protocol.BAD_WORDS, f'`{name[:100]}` is no name of the language')
        why = uses.why_not(whole, found, name) if found else None
        if why:
            raise Refusal(protocol.BAD_WORDS, why)
        return {'changes': {uri_of(params): [{'range': it, 'newText': name} for it in self.ranges(params, found)]}}

    def symbols(self, params):
        text = self.text(params)
        return text.once('outline', lambda: outline.of_world(text.positions) if is_world(uri_of(params)) else outline.of_program(text))

    def completion(self, params):
        text, at = self.text(params), self.at(params)
        if not is_world(uri_of(params)):
            return completing.completions(text, at)
        found = in_world.completions(text.pieces, at, self.texts.program_of(uri_of(params))[1])
        return [completing.item(name, kind, detail) for name, kind, detail in found]

    def signature(self, params):
        whole, at = self.program_text(params), self.at(params)
        return whole and showing.signature(whole, at)

    def folds(self, params):
        whole = self.program_text(params)
        return whole.once('folds', lambda: showing.folds(whole)) if whole else []

    def labels(self, params):
        whole, (start, end) = self.program_text(params), self.span(params)
        found = showing.hints(whole, start, end) if whole else ()
        return [{'position': whole.positions.place(at), 'label': label, 'paddingLeft': True} for at, label in found]

    def actions(self, params):
        whole, (start, end) = self.program_text(params), self.span(params)
        found = []
        for fault in faults.of_document(whole) if whole else ():
            if fault.at is not None and fault.at <= end and start <= fault.end:
                told = diagnosing.of_fault(whole, fault)
                found += [self.action(params, told, fix) for fix in fixing.fixes_of(fault)]
        return found

    def action(self, params, told, fix):
        positions = self.text(params).positions
        edits = [{'range': positions.range(start, end), 'newText': text} for start, end, text in fix.edits]
        return {'title': fix.title, 'kind': 'quickfix', 'diagnostics': [told], 'edit': {'changes': {uri_of(params): edits}}}

    def formatting(self, params):
        whole = self.program_text(params)
        if not whole or any(chunk.odd or chunk.broken for chunk in whole.chunks):
            return None     # its fault is told already
        made = whole.once('layout', lambda: layout.laid_out(whole.text))
        return layout.edits(whole.positions, made)


HANDLERS = {
    'initialize': Server.initialize, 'initialized': Server.nothing, 'shutdown': Server.shutdown,
    'textDocument/didOpen': Server.opened, 'textDocument/didChange': Server.change, 'textDocument/didClose': Server.close,
    'textDocument/didSave': Server.nothing, 'textDocument/hover': Server.hover, 'textDocument/definition': Server.definition,
    'textDocument/references': Server.references, 'textDocument/documentHighlight': Server.highlights,
    'textDocument/prepareRename': Server.prepare_rename, 'textDocument/rename': Server.rename,
    'textDocument/documentSymbol': Server.symbols, 'textDocument/completion': Server.completion,
    'textDocument/signatureHelp': Server.signature, 'textDocument/foldingRange': Server.folds,
    'textDocument/inlayHint': Server.labels, 'textDocument/codeAction': Server.actions,
    'textDocument/formatting': Server.formatting, '$/cancelRequest': Server.nothing, '$/setTrace': Server.nothing,
    'workspace/didChangeConfiguration': Server.nothing,
}


def main():
    if len(sys.argv) > 1 and sys.argv[1:] != ['--stdio']:
        print(__doc__)
        return 0 if sys.argv[1] in ('--help', '-h', 'help') else 2
    return Server(protocol.Channel(protocol.Input(0), sys.stdout.buffer)).run()


if __name__ == '__main__':
    last_catch.run(main)
