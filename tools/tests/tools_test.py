#!/usr/bin/env python3
"""Tests of the Python tools: what they print of odd files, how they end, and a quick try of those that take long.

Usage: tools/tests/tools_test.py

Nothing is proved or built here: `rt`, `rustc` and `lam` are small scripts that stand first in PATH or are named.
"""
import json
import os
import re
import shutil
import signal
import subprocess
import sys
import tempfile
import time
import unittest

TOOLS = os.path.dirname(os.path.dirname(os.path.abspath(__file__)))
sys.path.insert(0, TOOLS)
from lam_source import closed, code as codes, courses, faults, grammar, machine, places, printable, world
import timeline

CAUGHT = ('align.py', 'at_terminal.py', 'edits.py', 'explain.py', 'limits.py', 'map.py', 'measure.py', 'paths.py', 'plain.py',
          'share.py', 'timeline.py', 'why.py', 'world.py', 'editor/make.py', 'refuse/run')
EARLY = ('align.py', 'explain.py', 'outcome.py', 'paths.py', 'picture.py', 'share.py', 'timeline.py', 'why.py', 'world.py')
HELP = 'lam check P\nlam replay P W BOOK OBS\nlam pair P W1 BOOK1 W2 BOOK2 OBS\n'
CODE = 'fn main(): int {\n  return 0;\n}\n'
CLOSED_HELP = 'lam_closed run P W OBS BOOKOUT [--base LABEL] [--turns N]\nlam_closed check P W BOOK [--base LABEL]\n'
LISTING = 'unit 0 main locals 0\n0 const 0\n1 ret\n2 const null\n3 ret\n'
STEERING = re.compile('[\0-\x08\x0b-\x1f\x7f-\x9f\u202a-\u202e]')


class InFolder(unittest.TestCase):
    """Calls of tools in a folder of their own, in which `bin` stands first in PATH."""

    def setUp(self):
        room = tempfile.TemporaryDirectory(prefix='lam-tools-test-')
        self.addCleanup(room.cleanup)
        self.folder = room.name
        os.mkdir(self.path('bin'))

    def path(self, *parts):
        return os.path.join(self.folder, *parts)

    def file(self, name, text):
        os.makedirs(os.path.dirname(self.path(name)), exist_ok=True)
        with open(self.path(name), 'w', encoding='utf-8', errors='surrogateescape') as file:
            file.write(text)
        return self.path(name)

    def read(self, name):
        with open(self.path(name), encoding='utf-8') as file:
            return file.read()

    def script(self, name, body):
        """A command of this folder."""
        path = self.file(os.path.join('bin', name), f'#!/bin/sh\n{body}')
        os.chmod(path, 0o755)
        return path

    def call(self, tool, *words, **more):
        """What a tool ends with and prints. It never prints a traceback."""
        env = {**os.environ, 'PATH': f'{self.path("bin")}:{os.environ["PATH"]}', **more}
        done = subprocess.run([sys.executable, tool, *words], cwd=self.folder, env=env, capture_output=True, text=True,
                              errors='surrogateescape', check=False)
        self.assertNotIn('Traceback', done.stderr)
        self.assertIsNone(STEERING.search(done.stdout + done.stderr), done)
        return done

    def tool(self, name, *words, **more):
        return self.call(os.path.join(TOOLS, name), *words, **more)


class Printed(unittest.TestCase):
    """What a text looks like that holds control bytes."""

    def test_one_line_and_several(self):
        self.assertEqual(printable.name('a\n\x1b[31m\x9b\udcff\ud800\u202eb'), r'a\n\x1b[31m\x9b\xff\ud800\u202eb')
        self.assertEqual(printable.lines('a\n\tb\r\x1b'), 'a\n\tb\\r\\x1b')
        self.assertEqual(printable.name('ä{ann}/{} 日本'), 'ä{ann}/{} 日本')

    def test_the_mark_stands_under_the_place(self):
        shown = places.Place('ab\x1b\x1b x', 5).shown('n\nm')
        self.assertEqual(shown, 'n\\nm: line 1, column 6\n  ab\\x1b\\x1b x\n  ' + ' ' * 11 + '^')


class Ends(InFolder):
    """How a tool ends that meets what it does not expect."""

    def ended(self, main, **more):
        text = f'import sys\nsys.path.insert(0, {TOOLS!r})\nfrom lam_source import last_catch\n{main}'
        return self.call(self.file('tool.py', text), **more)

    def test_an_exception_is_one_line(self):
        done = self.ended('last_catch.run(lambda: [][1])')
        self.assertEqual((done.returncode, done.stdout), (70, ''))
        self.assertEqual(done.stderr, 'tool.py: a defect of this tool (IndexError: list index out of range); '
                                      'LAM_TRACE=1 shows where\n')

    def test_the_system_s_words(self):
        done = self.ended('last_catch.run(lambda: open("no\\x1b\\nfile"))')
        self.assertEqual((done.returncode, done.stderr), (70, 'tool.py: No such file or directory: no\\x1b\\nfile\n'))

    def test_other_ends_stay(self):
        self.assertEqual(self.ended('last_catch.run(lambda: 3)').returncode, 3)
        self.assertEqual(self.ended('last_catch.run(lambda: None)').returncode, 0)
        done = self.ended('last_catch.run(lambda: sys.exit("said \\x1b"))')
        self.assertEqual((done.returncode, done.stderr), (1, 'said \\x1b\n'))

    def test_every_tool_has_it(self):
        for name in CAUGHT:
            with open(os.path.join(TOOLS, name), encoding='utf-8') as file:
                self.assertIn("    last_catch.run(", file.read(), name)


    def test_a_signal_while_the_modules_are_read(self):
        for name in EARLY:
            with open(os.path.join(TOOLS, name), encoding='utf-8') as file:
                lines = file.read().split('"""', 2)[2].strip().splitlines()
            self.assertTrue(lines[0].startswith('from lam_source import early'), name)
        for wait in (0, 0.02, 0.05):
            done = subprocess.Popen([sys.executable, '-S', os.path.join(TOOLS, 'world.py'), 'make', '/dev/stdin'], cwd=self.folder,
                                    stdin=subprocess.PIPE, stdout=subprocess.PIPE, stderr=subprocess.PIPE, text=True)
            self.past_start(done.pid)
            time.sleep(wait)
            done.send_signal(signal.SIGINT)
            self.assertNotIn('Traceback', done.communicate(timeout=60)[1])

    @staticmethod
    def past_start(process):
        """Waits until a tool has taken the signal from Python's own start, which is not the tool's, or three seconds."""
        by_python, until = False, time.monotonic() + 3
        while time.monotonic() < until:
            with open(f'/proc/{process}/status', encoding='ascii') as file:
                caught = int(next(line for line in file if line.startswith('SigCgt:')).split()[1], 16)
            if caught >> signal.SIGINT - 1 & 1:
                by_python = True
            elif by_python:
                return
            time.sleep(0.0005)

    def test_a_full_device(self):
        self.file('s', 'thread main()\n')
        for words in (('paths.py',), ('world.py', 'make', 's'), ('share.py', '--help'), ('align.py', '--help')):
            with open('/dev/full', 'w', encoding='ascii') as full:
                done = subprocess.run([sys.executable, os.path.join(TOOLS, words[0]), *words[1:]], cwd=self.folder, stdout=full,
                                      stderr=subprocess.PIPE, text=True, check=False)
            self.assertNotIn('Traceback', done.stderr, words)
            self.assertNotEqual(done.returncode, 0, words)

    def test_wrong_words_steer_no_terminal(self):
        for words in (('share.py', 'p', 'w', '{}/{}', '-o', 'b', '--share', '1', '--rounds', '1\x1b[31m'), ('why.py', 'p', 'w', 'b', '--\x1b'),
                      ('align.py', 'p', 'w', 'b', 'v', '{}/{}', '-o', 'x', '--\x1b[31m'), ('timeline.py', 'p', 'w', 'b', 'o', 'x', '--\x1b'), ('paths.py', 'no\x1b\n')):
            done = self.tool(*words)
            self.assertIn(r'\x1b', done.stderr, words)
            self.assertIn(done.returncode, (1, 2), words)

    def test_books_that_cannot_be_written(self):
        lam = self.script('lam', f'cat {self.file("listing", LISTING)}\n')
        self.file('p.lam', CODE)
        self.file('w', json.dumps({'version': 1, 'tags': [], 'tree': [], 'pipes': [],
                                   'threads': [{'run': 'main', 'args': [], 'caps': {'plus': [], 'minus': []}}]}))
        words = ('p.lam', 'w', '{}/{}', '--lam', lam, '--share', '1', '--rounds', '99999999999')
        done = self.tool('share.py', *words, '-o', 'no\x1bwhere/b')
        self.assertEqual((done.returncode, done.stderr), (1, 'share: no\\x1bwhere/b could not be written: No such file or directory\n'))
        self.assertEqual(self.tool('share.py', *words, '-o', 'b').stdout, '2 turns in 2 rounds; times out of sight: 0, late: 0\n')
        done = self.tool('align.py', 'p.lam', 'w', 'b', 'w', '{}/{}', '--lam', lam, '-o', 'b')
        self.assertEqual((done.returncode, done.stderr), (1, 'align: b is the first book, and would be written over\n'))


class Pages(unittest.TestCase):
    """The page of a run holds its data and title, whatever they say."""

    def test_nothing_ends_the_script(self):
        data = {'source': ['// <!--<script> </script> DATA TITLE & \u2028']}
        page = timeline.page_of(data, 'DATA.lam, <TITLE>.world')
        line = next(it for it in page.split('\n') if it.startswith('const run = '))
        self.assertNotIn('<', line)
        self.assertEqual(json.loads(line[len('const run = '):].rstrip(';')), data)
        self.assertIn('<title>DATA.lam, &lt;TITLE>.world</title>', page)
        self.assertNotIn('<!--', page)



class NoPages(InFolder):
    """Where a page is not written."""

    def test_places_that_are_none(self):
        self.file('p.lam', CODE)
        for out, why in (('no\x1bwhere/x.html', 'timeline: there is no folder no\\x1bwhere\n'),
                         (self.folder, f'timeline: {self.folder} is a folder; name a file\n'),
                         ('p.lam', 'timeline: p.lam is there and is no page; name another file\n')):
            done = self.tool('timeline.py', 'p.lam', 'w', 'b', '{}/{}', out)
            self.assertEqual((done.returncode, done.stderr), (1, why))


class Documents(unittest.TestCase):
    """Worlds and books are read as lam reads them."""

    def kind(self, text):
        with self.assertRaises(world.Wrong) as caught:
            world.Start(text, [('main', [])])
        return caught.exception.kind, caught.exception.at

    def test_what_python_takes_for_json(self):
        self.assertEqual(self.kind('{"version":NaN}'), ('NotJson', 11))
        self.assertEqual(self.kind('{"version": -Infinity}'), ('NotJson', 12))
        self.assertEqual(self.kind('{"version":' + '9' * 5000 + '}'), ('NotJson', 11))
        self.assertEqual(self.kind('{"version":' + '9' * 300 + '}'), ('BadMember version', 11))
        self.assertEqual(self.kind(r'{"version":1,"tags":["\ud800"]}'), ('NotJson', 21))
        self.assertEqual(self.kind('{"version":true}'), ('BadMember version', 11))
        self.assertEqual(self.kind('\ufeff{}'), ('NotJson', 0))

    def test_books_have_limits(self):
        self.assertEqual(world.turns_of('lam book 1\n0 2\n4095 1\n'), [0, 0, 4095])
        self.assertEqual(len(world.turns_of('lam book 1\n0 1000000\n')), 1_000_000)
        for text, kind in (('lam book 1', 'BadHead line 1'), ('lam book 1\r\n', 'BadHead line 1'),
                           ('lam book 1\n0 999999999999\n', 'TooMany line 2'), (f'lam book 1\n0 {"9" * 5000}\n', 'TooMany line 2'),
                           ('lam book 1\n0 1\n0 1\n', 'SameThread line 3'), ('lam book 1\n0 1\n1 1', 'BadLine line 3'),
                           ('lam book 1\n4096 1\n', 'BadLine line 2'), ('lam book 1\n0 01\n', 'BadLine line 2')):
            with self.assertRaises(world.NoBook) as caught:
                world.turns_of(text)
            self.assertEqual(str(caught.exception), kind)


class Hints(unittest.TestCase):
    """What is said of a mistake; the sessions of examples/terminal have the rest."""

    def hint(self, statement, kind='Unexpected'):
        text = f'fn main(ann: tag): int {{ {statement} return 0; }}'
        try:
            grammar.read(text)
        except grammar.Broken as broken:
            return faults.sentences(kind, text, broken.token.at)[-1]
        return None

    def test_words_of_other_languages(self):
        for statement in ('for (i = 0; i < 3; i = i + 1) { }', 'for (; i < 3;) { }', 'for (x : xs) { }', 'for i in xs { }'):
            self.assertTrue(self.hint(statement).startswith('there is no for: '), statement)
        self.assertTrue(self.hint('try { } catch (e) { }').startswith('there is no try: '))
        self.assertEqual(self.hint('n = 3 /* three */;'), 'a comment begins with // and goes to the end of its line')

    def test_labels(self):
        self.assertIn('label{ann; bob}', self.hint('region ({ann}/{bob}, my_caps()) [] { } catch (e) { }'))
        self.assertIn('label{a; b}', self.hint('region (label(ann), my_caps()) [] { } catch (e) { }'))
        self.assertIn('label{;}', self.hint('make_file(d, "f", label{});'))
        self.assertIn('caps{ann+, ann-}', self.hint('f(caps{+ann});'))


class Explained(InFolder):
    """What tools say of files with odd names, of pipes and of programs that are too long."""

    def explained(self, status, line, *words):
        program = self.script('lam', f'if [ "$1" = help ]; then printf "%s" "$HELP"; else printf "%s\\n" "$LINE"; exit {status}; fi\n')
        return self.tool('explain.py', program, str(status), *words, HELP=HELP, LINE=line).stderr

    def test_odd_names(self):
        self.file('a\nb\x1b/near.lam', CODE)
        said = self.explained(6, 'lam: 6 Absent a\nb\x1b/near', 'check', 'a\nb\x1b/near')
        self.assertEqual(said, 'the program is not there; did you mean a\\nb\\x1b/near.lam?\n')
        self.file('no\udcff.lam', 'fn')
        said = self.explained(3, 'lam: 3 Unexpected at 2', 'check', 'no\udcff.lam')
        self.assertTrue(said.startswith('no\\xff.lam: line 1, column 3\n'), said)

    def test_check_tells_one_fault_of_each_line(self):
        lines = ['fn main(): int {', '    let x: int = "a" + "b";', *('    y = 1;' for _ in range(12)), '    return x + ;', '}', '']
        self.file('p.lam', '\n'.join(lines))
        line = f'lam: 3 Unexpected at {len(chr(10).join(lines[:14])) + 16}'
        said = self.explained(3, line, 'check', 'p.lam')
        self.assertEqual(re.findall('line ([0-9]+), column', said), ['15', *map(str, range(2, 12))])
        self.assertTrue(said.endswith('\nand 3 more\n'), said)
        self.assertEqual(re.findall('line ([0-9]+), column', self.explained(3, line, 'replay', 'p.lam', 'w', 'b', '{}/{}')), ['15'])

    def test_a_pipe_is_read_once(self):
        os.mkfifo(self.path('pipe'))
        self.assertEqual(self.explained(3, 'lam: 3 Unexpected at 2', 'check', 'pipe'),
                         'pipe can be read only once, so there is no more to say\n')
        self.assertEqual(self.explained(0, 'same 3', 'replay', 'p.lam', 'pipe', 'b', '{}/{}'), '')

    def test_the_second_files_of_a_pair(self):
        self.assertEqual(self.explained(6, 'lam: 6 Absent w', 'pair', 'p', 'v', 'b', 'w', 'c', '{}/{}'),
                         'the second world is not there\n')

    def test_no_run(self):
        self.file('no\udcff.lam', CODE)
        lam = self.script('lam', 'echo "lam: 3 CodeTooLong 0"; exit 3\n')
        done = self.tool('why.py', 'no\udcff.lam', 'w', 'b', '--lam', lam)
        self.assertEqual(done.returncode, 1)
        self.assertIn('this is no run (lam: 3 CodeTooLong 0)', done.stderr)


    def test_exchanged_files(self):
        self.file('b', 'lam book 1\n0 3\n')
        self.file('w', '{"version": 1}')
        said = self.explained(4, 'lam: 4 NotJson', 'replay', 'p.lam', 'b', 'w', '{}/{}')
        self.assertEqual(said, 'b is a book, and stands in the place of a world; w is a world: the world stands before the book\n')

    def test_a_book_with_carriage_returns(self):
        self.file('w', json.dumps({'version': 1, 'tags': [], 'tree': [], 'pipes': [], 'threads': []}))
        self.file('b', 'lam book 1\r\n0 3\r\n')
        said = self.explained(5, 'lam: 5 BadHead line 1', 'replay', 'p.lam', 'w', 'b', '{}/{}')
        self.assertIn('carriage return', said)

    def test_a_label_with_a_blank(self):
        said = self.explained(2, 'lam: 2 word 4', 'replay', 'p.lam', 'w', 'b', '{ ann }/{}')
        self.assertTrue(said.endswith("a label has no blank: '{ann}/{}'\n"), said)

    def test_links_in_a_circle(self):
        os.symlink('p.lam', self.path('p.lam'))
        self.assertEqual(self.explained(7, '', 'check', 'p.lam'), 'p.lam, the program, could not be read: its links lead in a circle\n')

    def test_closed_runs(self):
        """In which region a closed run is held up, and for what."""
        self.file('p.lam', 'fn other(): int { return 0; }\nfn main(t: tag): int {\n  let o: thread = spawn(caps{}) other();\n'
                           '  region (label{t;}, caps{}) [o] {\n    join(o);\n  } catch (e) { }\n  return 0;\n}\n')
        self.file('w', json.dumps({'version': 2, 'tags': [{'name': 't', 'kind': 'export'}], 'tree': [], 'pipes': [], 'threads': [
            {'run': 'main', 'args': [{'tag': 't'}], 'caps': {'plus': [], 'minus': []}}]}))
        code = codes.Code(self.read('p.lam'))
        made = closed.Closed(machine.World(code, world.Start(self.read('w'), world.functions_of(code))), machine.PUBLIC)
        self.assertEqual(made.go(), closed.STALLED)
        courses.write_book(self.path('b'), made.turns)
        program = self.script('lam_closed', 'printf "%s" "$HELP"\n')
        said = self.tool('explain.py', '--closed', program, '11', 'run', 'p.lam', 'w', '{}/{}', 'b', HELP=CLOSED_HELP).stderr
        self.assertIn('t0 (main) is in the region at {t}/{} of p.lam line 4: region (label{t;}, caps{}) [o] {\n'
                      'it waits for the end of t1, at p.lam line 5: join(o);\n', said)
        self.assertIn('no other thread runs until it is out of its region\nwait before the region', said)


class Short(InFolder):
    """Short texts of worlds."""

    def test_faults_have_lines(self):
        self.file('s', f'tag ann\nthread main({"9" * 5000})\n')
        done = self.tool('world.py', 'make', 's')
        self.assertEqual((done.returncode, done.stderr), (1, 's:2: this number has more than 64 bits\n'))
        self.file('s', 'tag ann\nfile f {}/{} "\\ud800"\nthread main()\n')
        self.assertTrue(self.tool('world.py', 'make', 's').stderr.startswith('s:2: '))
        self.file('s', 'tag \x1b[31m\nthread main()\n')
        self.assertIn('s:1: `\\x1b[31m` is no tag name', self.tool('world.py', 'make', 's').stderr)

    def test_what_no_short_text_can_hold(self):
        thread = '"threads": [{"run": "main", "args": [], "caps": {"plus": [], "minus": []}}]'
        self.file('w', '{"version": 1, "tags": [], "pipes": [],\n"tree": [{"path": "a b", "label": "{}/{}", "dir": true}],\n'
                  + thread + '}')
        done = self.tool('world.py', 'short', 'w')
        self.assertEqual((done.returncode, done.stdout), (1, ''))
        self.assertTrue(done.stderr.startswith('w:2: a short text cannot hold this path'))

    def test_a_saved_world(self):
        """What `lam next` writes is read, and its short text makes the same document."""
        saved = {'version': 3, 'tags': [{'name': 'ann', 'kind': 'read'}], 'counts': [
            {'maker': '{}/{}', 'own': '{}/{}', 'next': 4}, {'maker': '{}/{}', 'own': '{ann}/{}', 'next': 1}], 'tree': [
            {'path': 'notes', 'label': '{}/{}', 'maker': '{}/{}', 'number': 3, 'dir': True},
            {'path': 'notes/photo', 'label': '{ann}/{}', 'maker': '{}/{}', 'number': 0, 'hex': '89504e47'}], 'pipes': [],
            'threads': [{'run': 'main', 'args': [], 'caps': {'plus': [], 'minus': []}}]}
        self.file('w', json.dumps(saved))
        self.file('p.lam', CODE)
        self.assertEqual(self.tool('world.py', 'check', 'w', 'p.lam').stdout, 'ok\n')
        short = self.tool('world.py', 'short', 'w').stdout
        self.assertIn('count {}/{} {ann}/{} 1\ndir notes {}/{} {}/{} 3\nfile notes/photo {ann}/{} {}/{} 0 hex 89504e47\n', short)
        self.file('s', short)
        self.assertEqual(json.loads(self.tool('world.py', 'make', 's').stdout), saved)
        for change, said in (('"next": 1', 'has made 1 to 65,536'), ('"number": 0', 'has made no number 7'), ('"hex": "89504e47"', '`hex` is to be')):
            broken = json.dumps(saved).replace(change, {'"next": 1': '"next": 0', '"number": 0': '"number": 7'}.get(change, '"hex": "8"'))
            self.file('x', broken)
            self.assertIn(said, self.tool('world.py', 'check', 'x', 'p.lam').stdout)

    def test_a_folder_of_files(self):
        self.file('s', 'tag ann\ndir notes {}/{}\nfile notes/diary {ann}/{} "sun"\nthread main()\n')
        self.assertEqual(self.tool('world.py', 'files', 's', 'out').returncode, 0)
        self.assertEqual(self.read('out/files/notes/diary'), 'sun')
        self.assertEqual(self.tool('world.py', 'pack', 'out').stdout, self.read('s'))
        self.assertEqual(self.tool('world.py', 'files', 's', 'out').returncode, 2)
        with open(self.path('out/files/notes/photo'), 'wb') as file:
            file.write(b'\x89PNG')
        done = self.tool('world.py', 'pack', 'out')
        self.assertEqual((done.returncode, done.stdout), (1, ''))
        self.assertIn('the index gives notes/photo no label: a line `file notes/photo LABEL < files/notes/photo`', done.stderr)
        with open(self.path('out/index'), 'a', encoding='utf-8') as file:
            file.write('below notes {ann}/{}\n')
        self.file('t', self.tool('world.py', 'pack', 'out').stdout)
        self.assertIn('file notes/photo {ann}/{} hex 89504e47\n', self.read('t'))
        self.assertEqual(json.loads(self.tool('world.py', 'make', 't').stdout)['version'], 3)
        os.symlink('/etc/passwd', self.path('out/files/notes/link'))
        self.assertIn('is neither a file nor a folder', self.tool('world.py', 'pack', 'out').stderr)

    def test_texts_are_escaped(self):
        self.file('s', 'file f {}/{} "\\u009b\\u202e"\nthread main()\n')
        self.assertIn('"text": "\\u009b\\u202e"', self.tool('world.py', 'make', 's').stdout)


class Builds(InFolder):
    """The builds, with a toolchain that is a script."""

    def setUp(self):
        super().setUp()
        os.symlink(TOOLS, self.path('tools'))
        self.file('crates.txt', '# all\nlow:\nlam: low std\nother:\n')
        self.file('HANDLES', '')
        for crate in ('low', 'lam', 'other'):
            self.file(f'crates/{crate}/src/main.rt', f'//! {crate}\n')

    def test_a_proof_that_fails_is_a_line(self):
        self.script('rt', 'echo "rt: low proved"; echo "rt: lam NOT PROVED"; exit 1\n')
        done = self.call(self.path('tools', 'build.py'))
        self.assertEqual(done.returncode, 1)
        self.assertEqual(done.stderr.splitlines()[-1], 'lam: rt: lam NOT PROVED')
        self.assertFalse(os.path.exists(self.path('crates/lam/out/lam')))

    def test_what_is_proved_is_put_to_its_place(self):
        self.script('rt', '[ "$1" = ci ] && [ ! -e crates/other ] && mkdir -p crates/lam/out && echo made >crates/lam/out/lam\n')
        done = self.call(self.path('tools', 'build.py'))
        self.assertEqual(done.returncode, 0, done.stderr)
        with open(self.path('crates/lam/out/lam'), encoding='utf-8') as made:
            self.assertEqual(made.read(), 'made\n')

    def test_a_trial_that_fails_says_why(self):
        self.script('rt', 'echo "rt: no such thing" >&2; exit 1\n')
        done = self.call(self.path('tools', 'trial.py'), self.path('out'))
        self.assertEqual(done.returncode, 1)
        self.assertIn('rt: no such thing', done.stderr)


class Measures(InFolder):
    """The tools that measure or try, on programs that are scripts."""

    def test_limits(self):
        lam = self.script('lam', 'exit 9\n')
        done = self.tool('limits.py', '65,000', LAM=lam)
        self.assertEqual(done.returncode, 0)
        self.assertRegex(done.stdout, r'\| `mint\(\)` 65,000 times \| 0\.\d\d \| \d+ \| 9 \|\n$')
        done = self.tool('limits.py', '65,000', LAM=self.path('none'))
        self.assertEqual((done.returncode, done.stderr), (70, f'limits.py: No such file or directory: {self.path("none")}\n'))

    def test_plain(self):
        self.script('rustc', 'for last; do :; done\ncat "$last" */*.rs >"$6"\n')
        self.assertEqual(self.tool('plain.py', 'out').returncode, 0)
        with open(self.path('out'), encoding='utf-8') as made:
            made = made.read()
        self.assertIn('mod lam_lexer;', made)
        self.assertIn('pub fn lex', made)
        self.assertIn('pub fn compile', made)
        self.assertIsNone(re.search(r'^\s*(ghost|requires|ensures) ', made, re.M))

    def test_refuse(self):
        cc = self.script('cc', ':\n')
        lam = self.script('lam', 'echo "5 5 2 3 0 0"\n')
        done = self.tool('refuse/run', 'help', CC=cc, LAM_PROGRAM=lam)
        self.assertEqual(done.returncode, 0, done.stderr)
        self.assertRegex(done.stdout, r'^help: \d+ calls, \d+ refused, \d+ ended with 1, \d+ answered, 0 wrote in part\n\d+ refused, 0 wrong\n$')
        self.script('lam', 'echo "5 5 2 2 0 1"\n')
        self.assertEqual(self.tool('refuse/run', 'help', CC=cc, LAM_PROGRAM=lam).returncode, 1)

    @unittest.skipUnless(shutil.which('cc'), 'no C compiler')
    def test_refuse_refuses(self):
        source = self.file('three.c', '#include <stdio.h>\n#include <stdlib.h>\nint main(void) {\n'
                           '  for (int n = 0; n < 3; n++) if (!malloc(8)) _Exit(1);\n  return puts("whole") < 0;\n}\n')
        subprocess.run(['cc', '-O0', '-o', self.path('three'), source], check=True)
        done = self.tool('refuse/run', 'help', LAM_PROGRAM=self.path('three'))
        self.assertEqual(done.returncode, 0, done.stderr)
        self.assertRegex(done.stdout, r'^help: (\d+) calls, \d+ refused, \d+ ended with 1, \d+ answered, 0 wrote in part\n\d+ refused, 0 wrong')
        self.assertNotIn(' 0 ended with 1', done.stdout)


if __name__ == '__main__':
    unittest.main()
