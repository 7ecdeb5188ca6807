#!/usr/bin/env python3
"""Tries the filters and the JSON of tools/why.py, tools/timeline.py and tools/world.py on a run with two releases.

Usage: tools/tests/why_test.py      (the program is that of LAM_PROGRAM, or ./lam where it is built)
"""
import json
import os
import shutil
import subprocess
import sys
import tempfile
import unittest
from unittest import mock

HERE = os.path.dirname(os.path.realpath(__file__))
TOOLS = os.path.dirname(HERE)
sys.path.insert(0, TOOLS)
import why  # noqa: E402
from lam_source import program, runs, telling, world  # noqa: E402

PROGRAM = '''class Box { item: int; word: bytes; }

fn main(t: tag, out: pipe): int {
  region (label{t;}, caps{t-}) [t, out] {
    let b: Box = new Box();
    b.item = 7;
    b.word = read(open_file(root(), "secret"), 0, 4);
    let c: Box = copy(b, label{;});
    let word: bytes = b.word;
    region (label{;}, caps{}) [word, out] {
      send(out, word);
    } catch (e) { }
  } catch (e) { }
  append(make_file(root(), "made", label{;}), "x");
  return 0;
}
'''
WORLD = '''hole secret ab"c
tag ann
file secret {ann}/{} "${secret}"
pipe out {}/{}
thread main(ann, out) +{ann}-{ann}
'''


class Room(unittest.TestCase):
    """Tests in a folder of their own."""

    @classmethod
    def setUpClass(cls):
        cls.room = tempfile.mkdtemp(prefix='lam-why-')
        cls.write('p.lam', PROGRAM)
        cls.write('w.short', WORLD)
        cls.write('w.world', cls.tool('world.py', 'make', 'w.short')[0])

    @classmethod
    def tearDownClass(cls):
        shutil.rmtree(cls.room)

    @classmethod
    def write(cls, name, text):
        with open(os.path.join(cls.room, name), 'w', encoding='utf-8') as file:
            file.write(text)

    @classmethod
    def tool(cls, name, *words):
        """What a tool prints, what it says of errors, and its status."""
        done = subprocess.run([os.path.join(TOOLS, name), *words], cwd=cls.room, capture_output=True, text=True, check=False,
                              env={**os.environ, 'LAM_PROGRAM': program.found() or ''})
        return done.stdout, done.stderr, done.returncode


@unittest.skipUnless(program.found(), 'no program is built')
class Runs(Room):
    @classmethod
    def setUpClass(cls):
        super().setUpClass()
        program.called(program.found(), 'run', 'p.lam', 'w.world', '{}/{}', 'b.book', folder=cls.room)
        files = [os.path.join(cls.room, name) for name in ('p.lam', 'w.world', 'b.book')]
        run = runs.Run(program.found(), *files[:2]).take(world.turns_of(runs.text_of(files[2])))
        cls.told = telling.Telling(run)

    def why(self, *words):
        out, said, status = self.tool('why.py', 'p.lam', 'w.world', 'b.book', *words)
        self.assertEqual((said, status), ('', 0))
        return out

    def asks(self, *words):
        """What was asked in the events that these words of a call keep."""
        with mock.patch.object(sys, 'argv', ['why.py', 'p.lam', 'w.world', 'b.book', *words]):
            return [it.ask for it in why.shown_of(self.told, why.words_of())]

    def test_releases_say_what_was_released(self):
        found = json.loads(self.why('--kind', 'release', '--json'))
        copied, entered = found['events']
        self.assertEqual((found['tags'], found['threads'][0]['function']), (['ann'], 'main'))
        self.assertEqual([(it['name'], it['value']) for it in copied['release']['values']],
                         [('field item of Box', '7'), ('field word of Box', '"ab\\"c"')])
        self.assertEqual((copied['at']['line'], copied['release']['to'], copied['release']['by']), (8, '{}/{}', '+{}-{ann}'))
        self.assertEqual([(it['name'], it['value']) for it in entered['release']['values'][:1]], [('word', '"ab\\"c"')])
        self.assertEqual((entered['at']['line'], entered['release']['region'], entered['from'][0]['line']), (10, 1, 4))
        self.assertIn('released by a copy of obj<{ann}/{}|{ann}/{}|0> to {}/{}: field item of Box = 7', self.why('copy'))

    def test_filters_keep_what_fits_all_of_them(self):
        self.assertEqual(self.asks('--file', 'secret'), ['open_file', 'read_file'])
        self.assertEqual(self.asks('--file', 'made'), ['make_file', 'append'])
        self.assertEqual(self.asks('--file', 'out'), ['enter', 'enter', 'send'])
        self.assertEqual(self.asks('--file', 'out', '--tag', 'ann'), ['enter', 'enter'])
        self.assertEqual(self.asks('--object', 'Box', '--kind', 'write'), ['write', 'write'])
        self.assertEqual(self.asks('--object', 'obj<{ann}/{}|{}/{}|0>'), ['copy'])
        self.assertEqual(self.asks('--label', '{}/{}', '--kind', 'leave', '--kind', 'send'), ['send', 'leave'])
        self.assertEqual(self.asks('--thread', 't0', '--kind', 'end'), ['end'])
        self.assertEqual(self.asks('--kind', 'release', '--as', '{}/{}'), ['copy', 'enter'])
        self.assertEqual(self.asks('--kind', 'new', '--as', '{}/{}'), [])

    def test_a_filter_that_fits_nothing_is_said(self):
        for words, said in ((('--file', 'none'), 'there are made, out, secret'), (('--thread', '4'), 'there is no thread 4'),
                            (('--tag', 'bob'), 'the tags are ann'), (('--kind', 'none'), 'the kinds are release'),
                            (('--object', 'Bag'), 'the classes are Box'), (('--label', 'ann'), 'is no label')):
            with self.assertRaisesRegex(SystemExit, said):
                self.asks(*words)

    def test_a_run_as_data(self):
        done = self.tool('timeline.py', 'p.lam', 'w.world', 'b.book', '{}/{}', 'run.json', '--json', '--kind', 'enter', '--kind', 'new')
        self.assertEqual(done, ('', '', 0))
        with open(os.path.join(self.room, 'run.json'), encoding='utf-8') as file:
            found = json.load(file)
        self.assertEqual([(it['ask'], it['seen']) for it in found['events']], [('enter', True), ('new', False), ('enter', True)])
        self.assertEqual([(it['label'], it['depth']) for it in found['threads'][0]['regions']], [('{ann}/{}', 1), ('{}/{}', 2)])

    def test_a_page_begins_with_the_filters(self):
        self.tool('timeline.py', 'p.lam', 'w.world', 'b.book', '{}/{}', 'run.html', '--kind', 'release', '--tag', 'ann')
        with open(os.path.join(self.room, 'run.html'), encoding='utf-8') as file:
            self.assertIn('"search": "tag:ann kind:release"', file.read())


class Templates(Room):
    def made(self, *words):
        return self.tool('world.py', 'make', 'w.short', *words)

    def test_a_call_fills_a_hole(self):
        self.assertIn('"text": "1\\n2"', self.made('--set', 'secret=1\n2')[0])
        self.assertEqual(self.made('--set', 'secret=ab"c')[0], self.made()[0])

    def test_a_document_has_holes_too(self):
        self.write('d.world', self.made('--set', 'secret=${word}')[0])
        self.assertIn('file secret {ann}/{} "x"', self.tool('world.py', 'short', 'd.world', '--set', 'word=x')[0])

    def test_what_is_wrong_with_holes(self):
        self.write('h.short', 'hole a\nhole a\nhole b 1\ntag x\nfile ${a} {}/{} ""\n# ${b}\n')
        for words, said in (((), ['2: the hole `a` stands in line 1 already', '1: the hole `a` has no value',
                                  '3: the hole `b` is nowhere']),
                            (('--set', 'a=1\n2'), ['5: the value of `a` has several lines']),
                            (('--set', 'c=1'), ['1: there is no hole `${c}`'])):
            found = json.loads(self.tool('world.py', 'make', 'h.short', '--json', *words)[0])
            self.assertFalse(found['ok'])
            for it in said:
                line, text = it.split(': ', 1)
                self.assertTrue(any(fault['line'] == int(line) and text in fault['text'] for fault in found['faults']), (it, found))
        self.assertEqual(self.tool('world.py', 'make', 'h.short', '--set', 'a')[2], 2)
        self.assertEqual(self.tool('world.py', 'make', 'h.short', '--set', 'a=1', '--set', 'a=2')[2], 2)


if __name__ == '__main__':
    unittest.main()
