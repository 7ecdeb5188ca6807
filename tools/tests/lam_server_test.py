#!/usr/bin/env python3
"""Drives tools/lam_server.py by its protocol, as an editor does.

Usage: tools/tests/lam_server_test.py

The program is that of LAM_PROGRAM, or ./lam where it is built; without it what the two say is not compared.
"""
import glob
import io
import json
import os
import random
import re
import subprocess
import sys
import tempfile
import unittest
from unittest import mock

HERE = os.path.dirname(os.path.realpath(__file__))
sys.path.insert(0, os.path.dirname(HERE))
import lam_server  # noqa: E402
from lam_source import checking, document, drawing, faults, grammar, layout, positions, program, protocol  # noqa: E402
from lam_source import recovering  # noqa: E402

EXAMPLES = os.path.join(program.HERE, 'examples')
BOTH = '''class Box { item: int; next: Box; }
// the label of a calendar
fn first(d: dir, a: tag, out: pipe): int {
  let b: Box = new Box();
  b.next = b;
  region (label{a;}, caps{a-}) [d, out] {
    let x: bytes = read(open_file(d, "\U0001F600"), 0, 24);   // one day
    region (label{;}, caps{}) [x, out] {
      send(out, x);
    } catch (e) { }
  } catch (f) { }
  return b.next.item;
}
fn main(a: tag, out: pipe): int { let b: int = 1; return first(root(), a, out); }
'''


class Editor:
    """An editor's side of a session with a server of its own."""

    def __init__(self, env=None):
        self.server = subprocess.Popen([os.path.join(program.HERE, 'tools', 'lam_server.py')], stdin=subprocess.PIPE,
                                       stdout=subprocess.PIPE, env=env)
        self.channel, self.count, self.told = protocol.Channel(self.server.stdout, self.server.stdin), 0, []

    def ask(self, method, **params):
        """The answer to a request; what the server tells meanwhile is kept."""
        self.count += 1
        self.channel.send({'id': self.count, 'method': method, 'params': params})
        while True:
            message = self.channel.receive()
            if message.get('id') == self.count:
                return message
            self.told.append(message)

    def tell(self, method, **params):
        self.channel.tell(method, params)

    def open(self, uri, text):
        """Opens a text, and returns the faults that the server tells of it."""
        self.tell('textDocument/didOpen', textDocument={'uri': uri, 'languageId': 'lam', 'version': 1, 'text': text})
        return self.faults(uri)

    def place(self, text, piece, more=0, nth=0):
        at = -1
        for _ in range(nth + 1):
            at = text.index(piece, at + 1)
        return positions.Positions(text).place(at + more)

    def change(self, uri, text):
        self.tell('textDocument/didChange', textDocument={'uri': uri, 'version': 2}, contentChanges=[{'text': text}])
        return self.faults(uri)

    def faults(self, uri):
        while True:
            message = self.channel.receive()
            if message.get('method') == 'textDocument/publishDiagnostics' and message['params']['uri'] == uri:
                return message['params']['diagnostics']
            self.told.append(message)

    def at(self, method, uri, text, piece, more=0, nth=0, **params):
        """Asks at the place of a piece of a text."""
        place = self.place(text, piece, more, nth)
        answer = self.ask(f'textDocument/{method}', textDocument={'uri': uri}, position=place, **params)
        return answer.get('result', answer.get('error'))

    def close(self):
        self.ask('shutdown')
        self.tell('exit')
        self.server.communicate(timeout=10)
        return self.server.returncode


def text_of(*names):
    with open(os.path.join(EXAMPLES, *names), encoding='utf-8') as file:
        return file.read()


def uri_of(*names):
    return 'file://' + os.path.join(EXAMPLES, *names)


def edited(text, edits):
    """A text after edits of the protocol."""
    at = positions.Positions(text)
    for edit in sorted(edits, key=lambda it: at.at(it['range']['start']), reverse=True):
        text = text[:at.at(edit['range']['start'])] + edit['newText'] + text[at.at(edit['range']['end']):]
    return text


class Programs(unittest.TestCase):
    @classmethod
    def setUpClass(cls):
        cls.editor = Editor()
        cls.answer = cls.editor.ask('initialize', capabilities={})
        cls.editor.tell('initialized')
        cls.uri = 'file:///none/both.lam'
        cls.first = cls.editor.open(cls.uri, BOTH)

    @classmethod
    def tearDownClass(cls):
        cls.status = cls.editor.close()
        cls.editor.server.stdin.close()
        cls.editor.server.stdout.close()

    def hover(self, piece, more=0, nth=0):
        found = self.editor.at('hover', self.uri, BOTH, piece, more, nth)
        return found and found['contents']['value']

    def defined(self, piece, more=0, nth=0):
        """The line, from 1, and the text of what a word is defined as."""
        found = self.editor.at('definition', self.uri, BOTH, piece, more, nth)
        if not found:
            return None
        start = found['range']['start']
        first = positions.Positions(BOTH).at(start)
        return start['line'] + 1, BOTH[first:positions.Positions(BOTH).at(found['range']['end'])]

    def test_a_program_without_a_fault_has_no_diagnostic(self):
        self.assertEqual(self.first, [])

    def test_what_it_can_is_said_first(self):
        can = self.answer['result']['capabilities']
        self.assertEqual(can['textDocumentSync']['change'], 1)
        for name in ('hoverProvider', 'definitionProvider', 'documentSymbolProvider', 'documentFormattingProvider'):
            self.assertTrue(can[name])

    def test_a_leak_is_told_with_its_explanation(self):
        text = text_of('programs', 'leak.lam')
        fault, = self.editor.open(uri_of('programs', 'leak.lam'), text)
        start = positions.Positions(text).at(fault['range']['start'])
        self.assertEqual((start, fault['code'], fault['severity']), (92, 'OuterWrite', 1))
        self.assertIn('is a variable of the outside', fault['message'])

    def test_places_are_counted_in_utf_16(self):
        text = 'fn f(): bytes { return cat("\U0001F600", y); }\n'
        fault, = self.editor.open('file:///none/wide.lam', text)
        self.assertEqual(fault['range'], {'start': {'line': 0, 'character': 33}, 'end': {'line': 0, 'character': 34}})
        self.assertEqual(fault['code'], 'NoName')

    def test_a_change_takes_the_fault_away(self):
        uri = 'file:///none/change.lam'
        fault, = self.editor.open(uri, 'fn f(): int { return 1 }\n')
        self.assertEqual((fault['code'], fault['range']['start']['character']), ('Unexpected', 23))
        self.assertIn('what could', fault['message'])
        self.assertEqual(self.editor.change(uri, 'fn f(): int { return 1; }\n'), [])

    def test_a_closed_text_has_no_diagnostic_any_more(self):
        uri = 'file:///none/closed.lam'
        self.assertEqual(len(self.editor.open(uri, 'fn')), 1)
        self.editor.tell('textDocument/didClose', textDocument={'uri': uri})
        self.assertEqual(self.editor.faults(uri), [])
        refused = self.editor.ask('textDocument/hover', textDocument={'uri': uri}, position={'line': 0, 'character': 0})
        self.assertIn('is not open', refused['error']['message'])

    def test_hover_shows_the_type_of_a_name(self):
        self.assertIn('x: bytes', self.hover('x, out]'))
        self.assertIn('item: int', self.hover('next.item', 5))
        self.assertIn('fn first(d: dir, a: tag, out: pipe): int', self.hover('first(root'))

    def test_hover_shows_what_a_call_tests(self):
        told = self.hover('send(out')
        self.assertIn('send(p: pipe, b: bytes)', told)
        self.assertIn('Tests, in order: write p.', told)
        self.assertIn('WriteS', told)
        self.assertIn('the region of line 8: `label{;}`', told)
        self.assertIn('Tests, in order: read d', self.hover('open_file'))
        self.assertIn('write the object', self.hover('b.next = b', 2))
        self.assertIn('read the object', self.hover('next.item', 5))

    def test_hover_shows_the_label_of_a_region(self):
        self.assertIn('region (label{a;}, caps{a-}) [d, out]', self.hover('region'))
        self.assertIn('From the region of line 6 it takes off secrecy a, by a-.', self.hover('region', nth=1))

    def test_definitions_are_found(self):
        self.assertEqual(self.defined('first(root'), (3, 'first'))
        self.assertEqual(self.defined('x);'), (7, 'x'))
        self.assertEqual(self.defined('x, out]'), (7, 'x'))
        self.assertEqual(self.defined('next.item', 5), (1, 'item'))
        self.assertEqual(self.defined('new Box', 4), (1, 'Box'))
        self.assertEqual(self.defined('return b', 7), (4, 'b'))
        self.assertIsNone(self.defined('send'))

    def test_the_outline_has_classes_fields_functions_and_regions(self):
        found = self.editor.ask('textDocument/documentSymbol', textDocument={'uri': self.uri})['result']
        self.assertEqual([it['name'] for it in found], ['Box', 'first', 'main'])
        self.assertEqual([it['name'] for it in found[0]['children']], ['item', 'next'])
        region, = found[1]['children']
        self.assertEqual((region['name'], region['children'][0]['name']), ('region label{a;}', 'region label{;}'))

    def completed(self, text, piece):
        uri = 'file:///none/completed.lam'
        self.editor.open(uri, text)
        return {it['label']: it for it in self.editor.at('completion', uri, text, piece, len(piece))}

    def test_fields_are_completed_in_a_text_that_is_not_whole(self):
        head = 'class Box { item: int; next: Box; all: [Box]; }\nfn f(b: Box): int {\n  let s: int = '
        for thing in ('b.', 'b.next.', 'b.all[b.item + 1].', 'copy(b, my_label()).', 'b.it'):
            self.assertEqual(list(self.completed(f'{head}{thing}\n}}', thing)), ['item', 'next', 'all'], thing)
        self.assertEqual(self.completed(f'{head}b.\n}}', 'b.')['next']['detail'], 'Box')

    def test_names_and_calls_are_completed(self):
        found = self.completed('fn f(far: bytes): int { if (true) { let gone: int = 1; } se', ' se')
        self.assertEqual(found['far']['detail'], 'bytes')
        self.assertIn('write p', found['send']['documentation'])
        self.assertTrue({'f', 'while', 'region'} <= set(found))
        self.assertNotIn('gone', found)
        self.assertIn('bytes', self.completed('fn f(x: ', 'x: '))

    def test_an_unknown_request_is_refused_and_the_session_goes_on(self):
        self.assertEqual(self.editor.ask('lam/none')['error']['code'], protocol.NO_METHOD)
        self.assertEqual(self.editor.ask('textDocument/hover')['error']['code'], protocol.BAD_WORDS)
        self.assertIn('x: bytes', self.hover('x, out]'))

    # ---- all that is wrong, and what helps

    SEVERAL = ('class Box { item: int; }\nfn f(out: pipe, n: int): int {\n  let b: Box = new Bxo();\n  say(n)\n'
               '  region (label{;}, caps{}) [out] { send(out, text(n)); }\n  retrun b.itme;\n  return b.itm;\n}\n')

    def fixed(self, uri, text, fault):
        """The texts that the quick fixes of a fault make, by their titles."""
        found = self.editor.ask('textDocument/codeAction', textDocument={'uri': uri}, range=fault['range'],
                                context={'diagnostics': [fault]})['result']
        return {it['title']: edited(text, it['edit']['changes'][uri]) for it in found if it['diagnostics'][0]['code'] == fault['code']}

    def test_all_faults_are_told_and_the_first_one_is_that_of_the_program(self):
        found = self.editor.open('file:///none/several.lam', self.SEVERAL)
        told = [(it['code'], it['range']['start']['line'] + 1) for it in found]
        self.assertEqual(told, [('Unexpected', 5), ('NoName', 3), ('Mismatch', 4), ('OuterRead', 5), ('Unexpected', 6), ('Unexpected', 6),
                                ('NoField', 7)])
        self.assertIn('perhaps the line before lacks its `;`', found[0]['message'])
        self.assertIn('[out, n] takes a copy along', found[3]['message'])

    def test_quick_fixes(self):
        uri, text = 'file:///none/fixes.lam', self.SEVERAL
        found = self.editor.open(uri, text)
        by_line = {(it['code'], it['range']['start']['line'] + 1): it for it in found}
        self.assertIn('say(n);\n', self.fixed(uri, text, found[0])['Add a ;'])
        self.assertIn('new Box()', self.fixed(uri, text, by_line['NoName', 3])['Write Box'])
        self.assertIn('[out, n] {', self.fixed(uri, text, by_line['OuterRead', 5])['Add n to the [ ]'])
        self.assertIn('return b.item;', self.fixed(uri, text, by_line['NoField', 7])['Write item'])
        made = {**self.fixed(uri, text, found[4]), **self.fixed(uri, text, found[5])}
        self.assertIn('text(n)); } catch (e) { }\n', made['Add a catch block'])
        self.assertIn('  return b.itme;\n', made['Write return'])

    def test_a_name_is_added_to_each_region_that_lacks_it(self):
        uri = 'file:///none/both_regions.lam'
        inner = 'region (label{;}, caps{}) [] { say(text(n)); } catch (e) { }'
        text = f'fn f(n: int): int {{ region (label{{;}}, caps{{}}) [] {{ {inner} }} catch (e) {{ }} return 0; }}'
        fault, = self.editor.open(uri, text)
        made = self.fixed(uri, text, fault)['Add n to the [ ] of 2 regions']
        self.assertEqual(made.count('[n]'), 2)
        self.assertEqual(self.editor.change(uri, made), [])

    def test_words_for_what_people_bring_along(self):
        for text, said in (('fn f() { while (true) { break; } }', 'a test of the loop that ends it'),
                           ('class C { } fn f(c: C) { c.foo(); }', 'an object has fields and no methods: foo(c, ..)'),
                           ('fn f() { let a: [int] = [1, 2]; }', 'let a: [int] = new [int](2); a[0] = 1;'),
                           ('fn f(a: bytes): int { return a[0]; }', 'byte(a, 0) takes one byte'),
                           ('class C { x: int = 3; }', 'a field gets no value here'),
                           ('fn f() { x: int = 3; }', 'a variable is declared by let: let x: int = ..;'),
                           ('function f() { }', 'a function is declared by fn')):
            self.assertIn(said, self.editor.open('file:///none/words.lam', text)[0]['message'], text)

    def test_hover_on_a_field_names_no_index(self):
        self.assertIn('Else it fails with: Null.', self.hover('next.item', 5))
        text = 'fn f(a: [int]): int { return a[0]; }'
        self.editor.open('file:///none/element.lam', text)
        told = self.editor.at('hover', 'file:///none/element.lam', text, '0]', 1)['contents']['value']
        self.assertIn('Else it fails with: Null, Index.', told)

    # ---- uses

    def lines(self, found):
        return [it['range']['start']['line'] + 1 for it in found]

    def test_references_and_highlights(self):
        asked = self.editor.at('references', self.uri, BOTH, 'x, out]', context={'includeDeclaration': True})
        self.assertEqual(self.lines(asked), [7, 8, 9])
        asked = self.editor.at('references', self.uri, BOTH, 'x, out]', context={'includeDeclaration': False})
        self.assertEqual(self.lines(asked), [8, 9])
        self.assertEqual(self.lines(self.editor.at('references', self.uri, BOTH, 'first(root')), [3, 14])
        self.assertEqual(self.lines(self.editor.at('references', self.uri, BOTH, 'Box {')), [1, 1, 4, 4])
        kinds = [it['kind'] for it in self.editor.at('documentHighlight', self.uri, BOTH, 'next = b')]
        self.assertEqual(kinds, [3, 3, 2])

    def test_a_name_is_changed_where_the_text_stays_as_it_is(self):
        changed = self.editor.at('rename', self.uri, BOTH, 'x, out]', newName='day')['changes'][self.uri]
        made = edited(BOTH, changed)
        self.assertIn('[day, out] {\n      send(out, day);', made)
        self.assertEqual(self.editor.open('file:///none/renamed.lam', made), [])
        for piece, name, why in (('x, out]', 'out', 'line 7 has the fault Twice'), ('x, out]', 'let', '`let` is no name'),
                                 ('x, out]', '1x', 'is no name'), ('item;', 'next', 'the fault Twice'),
                                 ('send', 'sent', 'send is a built-in call'), ('first(d', 'main', 'the fault Twice')):
            self.assertIn(why, self.editor.at('rename', self.uri, BOTH, piece, newName=name)['message'])
        self.assertIsNotNone(self.editor.at('prepareRename', self.uri, BOTH, 'x, out]'))

    def test_the_call_that_is_typed(self):
        found = self.editor.at('signatureHelp', self.uri, BOTH, '0, 24')
        self.assertEqual((found['signatures'][0]['label'], found['activeParameter']), ('read(f: file, at: int, n: int): bytes', 1))
        found = self.editor.at('signatureHelp', self.uri, BOTH, 'a, out); }')
        self.assertEqual((found['signatures'][0]['label'][:8], found['activeParameter']), ('fn first', 1))
        self.assertIsNone(self.editor.at('signatureHelp', self.uri, BOTH, 'b.next'))

    def test_folds_and_labels_of_regions(self):
        folds = self.editor.ask('textDocument/foldingRange', textDocument={'uri': self.uri})['result']
        self.assertIn({'startLine': 2, 'endLine': 11}, folds)
        whole = {'start': {'line': 0, 'character': 0}, 'end': {'line': 99, 'character': 0}}
        found = self.editor.ask('textDocument/inlayHint', textDocument={'uri': self.uri}, range=whole)['result']
        told = {it['position']['line'] + 1: it['label'] for it in found}
        self.assertEqual(told, {6: '{a}/{}', 11: '{a}/{}', 8: '{}/{}: takes off secrecy a', 10: '{}/{}'})

    # ---- formatting

    def formatted(self, uri, text):
        self.editor.open(uri, text)
        return edited(text, self.editor.ask('textDocument/formatting', textDocument={'uri': uri}, options={})['result'])

    def test_formatting_keeps_comments_blank_lines_and_texts(self):
        made = self.formatted('file:///none/formatted.lam', BOTH)
        self.assertIn('}\n\n// the label of a calendar\nfn first', made)
        self.assertIn('"\U0001F600"), 0, 24); // one day\n', made)
        self.assertEqual(self.editor.open('file:///none/formatted.lam', made), [])
        self.assertEqual(self.formatted('file:///none/formatted.lam', made), made)

    def test_a_program_with_a_fault_is_not_formatted(self):
        uri = 'file:///none/unformatted.lam'
        self.editor.open(uri, 'fn')
        self.assertIsNone(self.editor.ask('textDocument/formatting', textDocument={'uri': uri}, options={})['result'])

    # ---- worlds

    def test_a_world_is_checked_beside_its_program(self):
        with tempfile.TemporaryDirectory() as folder:
            for name, text in (('p.lam', 'fn main(t: tag, n: int): int { return n; }\n'), ('p.world', '')):
                with open(os.path.join(folder, name), 'w', encoding='utf-8') as file:
                    file.write(text)
            document = json.loads(text_of('tutorial', 'notes.world'))
            uri = f'file://{folder}/p.world'
            document['threads'] = [{'run': 'main', 'args': [{'tag': 'ann'}, {'int': 3}], 'caps': {'plus': [], 'minus': []}}]
            self.assertEqual(self.editor.open(uri, json.dumps(document, indent=1)), [])
            document['threads'][0]['args'][1] = {'text': '3'}
            fault, = self.editor.change(uri, json.dumps(document, indent=1))
            self.assertIn('argument 2', fault['message'])
            document['threads'][0]['run'] = 'man'
            fault, = self.editor.change(uri, json.dumps(document, indent=1))
            self.assertIn('`main`', fault['message'])

    def test_a_world_is_checked_against_the_open_text_of_its_program(self):
        with tempfile.TemporaryDirectory() as folder:
            world, text = f'file://{folder}/q.world', text_of('tutorial', 'notes.world')
            document_ = json.loads(text)
            document_['threads'] = [{'run': 'main', 'args': [], 'caps': {'plus': [], 'minus': []}}]
            text = json.dumps(document_, indent=1)
            self.editor.open(f'file://{folder}/q.lam', 'fn other(): int { return 0; }\n')
            fault, = self.editor.open(world, text)
            self.assertIn('no function `main`', fault['message'])
            self.editor.tell('textDocument/didChange', textDocument={'uri': f'file://{folder}/q.lam', 'version': 2},
                             contentChanges=[{'text': 'fn main(): int { return 0; }\n'}])
            self.assertEqual(self.editor.faults(world), [])
            told = self.editor.at('hover', world, text, '"main"', 2)
            self.assertIn('fn main(): int', told['contents']['value'])

    WORLD = ('{"version": 2, "tags": [{"name": "ann", "kind": "export"}],\n "tree": [{"path": "d", "label": "{ann}/{}", "dir": true}],\n'
             ' "pipes": [{"name": "out", "label": "{}/{}"}],\n "threads": [{"run": "main", "args": [{"tag": "ann"}, {"pipe": "out"}],'
             ' "caps": {"plus": [], "minus": ["ann"]}}]}\n')

    def worlds(self, name, text):
        with tempfile.TemporaryDirectory() as folder:
            uri = f'file://{folder}/{name}'
            self.editor.open(f'file://{folder}/{name.split(".")[0]}.lam', 'fn main(a: tag, p: pipe): int { return 0; }\nfn no() { }\n')
            self.editor.open(uri, text)
            yield from self.asked(uri, text)

    def asked(self, uri, text):
        hover = lambda piece, more=0: self.editor.at('hover', uri, text, piece, more)['contents']['value']
        complete = lambda piece: [it['label'] for it in self.editor.at('completion', uri, text, piece, len(piece))]
        yield hover
        yield complete

    def test_hover_and_completion_in_a_world(self):
        hover, complete = self.worlds('w.world', self.WORLD)
        self.assertIn('tag ann: export', hover('{ann}/{}', 2))
        self.assertIn('Thread 0 holds ann-.', hover('"ann", "kind"', 2))
        self.assertIn('fn main(a: tag, p: pipe): int', hover('"main"', 2))
        self.assertIn('pipe out: {}/{}', hover('"out"}]', 2))
        self.assertEqual(complete('"label": "{'), ['ann'])
        self.assertEqual(complete('"run": "'), ['main'])
        self.assertEqual(complete('{"pipe": "'), ['out'])
        self.assertEqual(complete('"minus": ["'), ['ann'])
        self.assertEqual(complete('"kind": "'), ['read', 'export', 'integrity'])
        self.assertIn('path', complete('"tree": [{"'))
        self.assertEqual(complete('"threads": [{"run": "main", "args": [{"'), ['int', 'bool', 'text', 'tag', 'pipe'])

    def test_hover_and_completion_in_a_short_text(self):
        text = 'tag ann export\ndir d {ann}/{}\nfile d/f {ann}/{} "x"\npipe out {}/{}\nthread main(ann, out) +{}-{ann}\n'
        hover, complete = self.worlds('s.short', text)
        self.assertIn('tag ann: export', hover('d {ann}', 4))
        self.assertIn('fn main(a: tag, p: pipe): int', hover('main', 1))
        self.assertIn('pipe out: {}/{}', hover('out {}', 1))
        self.assertEqual(complete('dir d {'), ['ann'])
        self.assertEqual(complete('thread main(ann, '), ['ann', 'out'])
        self.assertEqual(complete('thread '), ['main'])
        self.assertEqual(complete('tag ann '), ['read', 'export', 'integrity'])

    def test_faults_of_worlds_have_their_lines(self):
        text = text_of('terminal', 'broken', 'tag.world')
        faults = self.editor.open(uri_of('terminal', 'broken', 'tag.world'), text)
        self.assertEqual([it['range']['start']['line'] for it in faults if 'anne' in it['message']], [3])
        short = text_of('short', 'broken.short')
        self.assertGreater(len(self.editor.open(uri_of('short', 'broken.short'), short)), 1)
        self.assertEqual(self.editor.open(uri_of('short', 'template.short'), text_of('short', 'template.short')), [])

    def test_the_outline_of_a_world(self):
        uri = uri_of('worlds', 'calendar.world')
        self.editor.open(uri, text_of('worlds', 'calendar.world'))
        names = [it['name'] for it in self.editor.ask('textDocument/documentSymbol', textDocument={'uri': uri})['result']]
        self.assertTrue({'a', 'b', 'cal/alice'} <= set(names), names)


START = {'id': 1, 'method': 'initialize', 'params': {}}


def opened(text, uri='file:///none/x.lam'):
    return {'method': 'textDocument/didOpen', 'params': {'textDocument': {'uri': uri, 'text': text}}}


def changed(text, uri='file:///none/x.lam'):
    return {'method': 'textDocument/didChange', 'params': {'textDocument': {'uri': uri}, 'contentChanges': [{'text': text}]}}


def asked(number, method, line=0, character=0, **params):
    return {'id': number, 'method': f'textDocument/{method}', 'params': {
        'textDocument': {'uri': 'file:///none/x.lam'}, 'position': {'line': line, 'character': character}, **params}}


class Sessions(unittest.TestCase):
    def said(self, data):
        """What a server says to these bytes, its status, and what it says on standard error."""
        sink, errors = io.BytesIO(), io.StringIO()
        with mock.patch.object(program, 'found', lambda: None), mock.patch.object(sys, 'stderr', errors):
            status = lam_server.Server(protocol.Channel(io.BytesIO(data), sink)).run()
        sink.seek(0)
        return list(iter(protocol.Channel(sink, None).receive, None)), status, errors.getvalue()

    def session(self, *messages):
        data = io.BytesIO()
        for message in messages:
            protocol.Channel(None, data).send(message)
        return self.said(data.getvalue())[:2]

    def test_the_end_without_a_shutdown_has_another_status(self):
        self.assertEqual(self.session(START, {'method': 'exit'})[1], 1)
        self.assertEqual(self.session(START, {'id': 2, 'method': 'shutdown'}, {'method': 'exit'})[1], 0)
        self.assertEqual(self.session(START)[1], 1)

    def test_requests_out_of_order_are_refused(self):
        codes = lambda *messages: [it['error']['code'] for it in self.session(*messages)[0] if 'error' in it]
        self.assertEqual(codes({'id': 1, 'method': 'shutdown'}, {'id': 2, 'method': 'lam/none'}), 2 * [protocol.NOT_READY])
        down = {'id': 2, 'method': 'shutdown'}
        self.assertEqual(codes(START, down, asked(3, 'hover'), {'id': 4, 'method': 'lam/none'}), 2 * [protocol.NO_REQUEST])
        self.assertEqual(codes(START, {**START, 'id': 2}), [protocol.NO_REQUEST])
        self.assertEqual(codes(START, changed('fn'), asked(2, 'hover'), opened('fn'), asked(3, 'hover')), [protocol.NO_REQUEST])

    def test_a_message_that_is_no_json_is_refused(self):
        said, status, _ = self.said(b'Content-Length: 3\r\n\r\n{x}Content-Type: x\r\nContent-Length: 2\r\n\r\n[]'
                                    b'Content-Length: 3\r\n\r\nNaNContent-Length: 0\r\n\r\n')
        self.assertEqual(([it['error']['code'] for it in said], status), (4 * [protocol.UNREADABLE], 1))

    def test_each_length_has_an_answer(self):
        shut = json.dumps({'id': 7, 'method': 'shutdown'}).encode()
        after = b'Content-Length: %d\r\n\r\n' % len(shut) + shut
        for head in (b'', b'-5', b'x', b'1e3', '\u0664'.encode(), b'0x10'):
            said, _, errors = self.said(b'Content-Length: ' + head + b'\r\n\r\n' + after)
            self.assertEqual([it['error']['code'] for it in said], [protocol.UNREADABLE, protocol.NOT_READY], head)
        for head in (b'99999999999', b'9' * 5000, str(1 << 63).encode(), b'9' * 500):
            said, status, errors = self.said(b'Content-Length: ' + head + b'\r\n\r\n' + after)
            self.assertEqual((said[0]['error']['code'], status), (protocol.UNREADABLE, 1))
            self.assertIn('the input ended within a message', errors)
        with mock.patch.object(protocol, 'LONGEST', 300):
            said, _, _ = self.said(b'Content-Length: 400\r\n\r\n' + 400 * b' ' + after)
        self.assertEqual(said[0]['error']['message'], 'a message of more than 300 bytes is passed over')
        self.assertEqual(said[1]['error']['code'], protocol.NOT_READY)

    def mutated(self, die, messages):
        """The bytes of a session in which something is not as it should be."""
        messages = [json.loads(json.dumps(it)) for it in messages]
        odd = [None, 0, -1, 1 << 70, 1.5, '', 'x', [], {}, True, '\ud800', {'line': -1, 'character': 1 << 40}]
        for _ in range(die.randrange(4)):
            here = die.choice(messages)
            while isinstance(here, dict) and here:
                name = die.choice(list(here))
                if not isinstance(here[name], dict) or die.random() < 0.3:
                    if die.random() < 0.3:
                        del here[name]
                    else:
                        here[name] = die.choice(odd)
                    break
                here = here[name]
        die.random() < 0.5 and die.shuffle(messages)
        data = b''
        for message in messages:
            body = json.dumps(message).encode()
            length = die.choice([len(body)] * 12 + [0, len(body) - 1, len(body) + 3, 1 << 40])
            data += b'Content-Length: %d\r\n\r\n' % length + body
        if die.random() < 0.3:
            at = die.randrange(len(data))
            data = data[:at] + die.choice([b'', bytes([die.randrange(256)]), b'\r\n\r\n']) + data[at + die.randrange(3):]
        return data

    def test_two_hundred_sessions_of_mutated_messages(self):
        whole = {'start': {'line': 0, 'character': 0}, 'end': {'line': 9, 'character': 0}}
        world = {'textDocument': {'uri': 'file:///none/x.world'}, 'position': {'line': 0, 'character': 20}}
        for number in range(200):
            die = random.Random(number)
            text = die.choice([BOTH, Programs.SEVERAL, 'fn', '', '\ufefffn f() { "\\q" }', 'class C {', drawing.broken(
                die, BOTH, grammar.tokens_of(BOTH))])
            many = [asked(at, method, die.randrange(12), die.randrange(40), range=whole, newName=die.choice(['day', 'x', 'let']))
                    for at, method in enumerate(('hover', 'completion', 'rename', 'references', 'signatureHelp', 'codeAction', 'formatting',
                                                 'inlayHint', 'foldingRange', 'documentHighlight', 'documentSymbol', 'definition'), 3)]
            messages = [START, opened(text), opened(Programs.WORLD, 'file:///none/x.world'), *die.sample(many, 3), changed(text + ' '),
                        {'id': 20, 'method': 'textDocument/hover', 'params': world},
                        {'id': 21, 'method': 'textDocument/completion', 'params': world},
                        {'id': 30, 'method': 'shutdown'}, {'method': 'exit'}]
            said, status, errors = self.said(self.mutated(die, messages))
            self.assertIn(status, (0, 1), number)
            self.assertIn(errors, ('', 'lam_server: the input ended within a message\n'), number)
            for it in said:
                self.assertNotEqual(it.get('error', {}).get('code'), protocol.FAILED, (number, it))
                self.assertTrue(it.get('error', {'message': 'x'})['message'], number)

    def test_of_queued_changes_the_last_one_is_told(self):
        said, _ = self.session(START, opened('fn'), *(changed(f'fn f(): int {{ return {at} }}') for at in range(20)), changed('fn f() { }'))
        told = [it['params']['diagnostics'] for it in said if it.get('method') == 'textDocument/publishDiagnostics']
        self.assertEqual((len(told[0]), told[-1]), (1, []))
        self.assertLess(len(told), 6)

    def test_nothing_is_read_twice(self):
        text = '\n'.join(BOTH.replace('first', f'first{at}').replace('main', f'main{at}').replace('Box', f'Box{at}') for at in range(5))
        read = mock.Mock(side_effect=recovering.Reader)
        with mock.patch.object(recovering, 'Reader', read):
            self.session(START, opened(text), *(asked(at, 'hover', at, 5) for at in range(2, 12)), asked(20, 'completion', 5, 5))
            once = read.call_count
            self.assertEqual(once, 15)
            self.session(START, opened(text), changed(text.replace('"\U0001F600"', '"x"', 1)), asked(2, 'hover', 5, 5),
                         asked(3, 'references', 3, 7))
            self.assertEqual(read.call_count - once, 16)

    def test_without_a_program_that_is_said_once(self):
        editor = Editor({**os.environ, 'LAM_PROGRAM': '/none'})
        editor.ask('initialize', capabilities={})
        self.assertIn('NoName', editor.open('file:///none/x.lam', 'fn f(): int { return y; }')[0]['code'])
        editor.channel.receive()
        self.assertEqual(editor.close(), 0)
        editor.server.stdin.close()
        editor.server.stdout.close()

    def test_the_program_has_the_last_word(self):
        server = lam_server.Server(protocol.Channel(None, io.BytesIO()))
        server.texts.take('file:///none/x.lam', 'fn f() { }')
        server.answered('file:///none/x.lam', 'fn f() { }', 'lam: 3 NoName at 3', True)
        self.assertIn(b'NoName at 3\\nso says the program', server.channel.sink.getvalue())
        before = server.channel.sink.getvalue()
        server.answered('file:///none/x.lam', 'fn f() { }', '', True)
        server.answered('file:///none/x.lam', 'fn f() { }', None, True)
        server.answered('file:///none/x.lam', 'fn g() { }', 'lam: 3 NoName at 3', True)
        self.assertEqual(server.channel.sink.getvalue(), before)


class Layout(unittest.TestCase):
    """The layout of a program with its comments."""

    @staticmethod
    def comments(text):
        found, end = [], 0
        for token in grammar.tokens_of(text):
            found += [it.strip() for it in re.findall(r'//[^\n]*', text[end:token.at])]
            end = token.end
        return found

    @staticmethod
    def tokens(text):
        return [it.text for it in grammar.tokens_of(text) if it.text not in ('(', ')')]

    def test_each_example_with_comments_at_every_place(self):
        styles = (' // c{}\n', '\n// c{}\n', '\n\n  // c{}\n\n', ' // c{}\n// d{}\n')
        count = 0
        for name in glob.glob(os.path.join(EXAMPLES, '**', '*.lam'), recursive=True):
            with open(name, encoding='utf-8') as file:
                text = file.read()
            if checking.read(text)[1]:
                continue
            count += 1
            parts, end = [], 0
            for at, token in enumerate(grammar.tokens_of(text)):
                parts += [text[end:token.end], styles[(at + count) % 4].format(at, at)]
                end = token.end
            for typed in (text, ''.join(parts)):
                made = layout.laid_out(typed)
                self.assertEqual(layout.laid_out(made), made, name)
                self.assertEqual(self.comments(made), self.comments(typed), name)
                self.assertEqual(self.tokens(made), self.tokens(text), name)
                self.assertNotIn('\n\n\n', made)
        self.assertGreater(count, 50)

    def test_comments_stay_at_their_blocks(self):
        typed = ('// head\nfn f ( ) { // a\n// b\n\n\nsay((("\u00e9\\n")));//c\n  // d\n}\n'
                 'fn g(n: int) { if (n==1) {\n// one\n} // then\nelse // other\n{ } '
                 'region (label{;}, caps{}) [ ] { } catch (e) {\n// nothing to do\n} g(1, // first\n 2 // second\n);\n\n\n'
                 'return // done\n; }\n// end')
        self.assertEqual(layout.laid_out(typed), """\
// head
fn f() { // a
  // b

  say("\u00e9\\n"); //c
  // d
}

fn g(n: int) {
  if (n == 1) {
    // one
  } // then
  else { // other
  }
  region (label{;}, caps{}) [] {
  } catch (e) {
    // nothing to do
  }
  g(1, // first
      2 // second
      );

  return ; // done
}
// end
""".replace('[] {\n  } catch', '[] { } catch'))

    @unittest.skipUnless(program.found(), 'no program is built')
    def test_without_comments_it_is_the_canonical_text(self):
        names = [*glob.glob(os.path.join(EXAMPLES, 'cases', '*', '*.lam')), *glob.glob(os.path.join(EXAMPLES, 'programs', '*.lam'))]
        for name in names:
            canonical, status = program.called(program.found(), 'format', name)
            if status == 0:
                self.assertEqual(layout.laid_out(canonical.decode()), canonical.decode(), name)


class AllFaults(unittest.TestCase):
    """That the first fault is the one that counts, whatever is broken."""

    def test_the_first_fault_is_that_of_the_strict_reading(self):
        texts = []
        for number in range(12):
            die, text, _ = drawing.drawn(number)
            once = [drawing.broken(die, text, grammar.tokens_of(text)) for _ in range(4)]
            texts += [text, *once, *(drawing.broken(die, it, grammar.tokens_of(it)) for it in once if len(grammar.tokens_of(it)) > 1)]
        for text in texts + list(self.KNOWN):
            _, fault = checking.checked(text)
            told = faults.faults_of(text)
            self.assertEqual((told[0].line(text) if told else None), fault and fault.line(text), text)

    # Programs whose first fault this reading once had otherwise, with what `lam check` says.
    KNOWN = {
        'fn f(x: Foo) { } fn g() { f(1); say(3); }': 'NoName at 8',
        'fn g() { f(1); say(3); }\nfn f(x: Foo) { }': 'Mismatch at 11',
        'fn g(c: C) { c.x.y = 1; }\nclass C { x: Foo; }': 'NoField at 17',
        'class thing { } fn f(x: thing) { let y: thing = new [int](1); }': 'Mismatch at 48',
        'class nothing { } fn f(x: nothing): nothing { return x; }': None,
    }

    def test_what_the_program_says_of_some_programs(self):
        lam = program.found()
        for text, said in self.KNOWN.items():
            told = faults.faults_of(text)
            self.assertEqual(told[0].line(text) if told else None, said and f'lam: 3 {said}', text)
            if lam:
                printed = program.called(lam, 'check', '/dev/stdin', given=text.encode())[0].decode().strip()
                self.assertEqual(printed, f'lam: 3 {said}' if said else 'ok')

    def test_a_changed_text_is_judged_as_a_new_one(self):
        die, text, _ = drawing.drawn(3)
        whole = document.Document(text)
        for _ in range(25):
            text = drawing.broken(die, text, grammar.tokens_of(text)) if die.random() < 0.7 else drawing.drawn(3)[1]
            if len(grammar.tokens_of(text)) < 3:
                continue
            whole.take(text)
            told = [(it.line(text), it.said) for it in faults.of_document(whole)]
            self.assertEqual(told, [(it.line(text), it.said) for it in faults.faults_of(text)])


if __name__ == '__main__':
    unittest.main()
