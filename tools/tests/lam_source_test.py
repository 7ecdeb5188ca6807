#!/usr/bin/env python3
"""Compares tools/lam_source, this repository's second reading of the language, with the program, call by call.

Usage: tools/tests/lam_source_test.py [COUNT [SEED]]

First come the worked calls of crates/examples_calls, whose output the gate compares with the program. Then COUNT programs
(30 where none is said), drawn from the numbers SEED (0), SEED + 1 and so on: their check, code, replay, audit and walk by
a drawn schedule, replay for three observers, and the check of the same program with a token broken. The program is that of
LAM_PROGRAM, or ./lam where it is built; where none is, the drawn programs are left out, with a line that says so. The
first difference is printed with its number, and the status is 1.
"""
import concurrent.futures
import os
import re
import shutil
import sys
import tempfile
import unittest

HERE = os.path.dirname(os.path.realpath(__file__))
sys.path.insert(0, os.path.dirname(HERE))
from lam_source import answers, checking, drawing, grammar, machine, program, thinning, world  # noqa: E402

CALLS = os.path.join(program.HERE, 'crates', 'examples_calls')
CALL = re.compile(r'^\$ lam( .*)?\n((?:.*\n)*?)status (\d+)$', re.M)
OBSERVERS = ['{}/{}', '{a}/{}', '{a,b,v}/{}']
TURNS = 400         # of a drawn schedule, at most
COUNT, SEED = 30, 0


class WorkedCalls(unittest.TestCase):
    def test_each_call_is_answered_as_written(self):
        with open(os.path.join(CALLS, 'stdout'), encoding='utf-8') as file:
            calls = CALL.findall(file.read())
        self.assertGreater(len(calls), 150)
        before, answered = os.getcwd(), 0
        os.chdir(os.path.join(CALLS, 'data'))
        try:
            for words, text, status in calls:
                got = answers.answer(words[1:].split(' '))
                if got is not None:
                    answered += 1
                    self.assertEqual(got, (text, int(status)), f'lam{words}')
        finally:
            os.chdir(before)
        self.assertGreater(answered, 85)


class Drawn:
    """The files of a drawn program, in a folder of their own."""

    def __init__(self, number, room):
        self.number, self.room = number, os.path.join(room, str(number))
        os.mkdir(self.room)
        die, self.text, document = drawing.drawn(number)
        self.write('p.lam', self.text)
        self.write('w.world', document)
        self.write('b.book', self.book(die, document))
        tokens = grammar.tokens_of(self.text)
        self.breaks = [f'broken{at}.lam' for at in range(2)]
        for name in self.breaks:
            self.write(name, drawing.broken(die, self.text, tokens))

    def write(self, name, text):
        with open(os.path.join(self.room, name), 'w', encoding='utf-8') as file:
            file.write(text)

    def book(self, die, document):
        """A drawn schedule; of one in ten the last turn is of a thread that may not be ready."""
        code, _ = checking.checked(self.text)
        state = machine.World(thinning.thin(code), world.Start(document, world.functions_of(code)))
        turns = drawing.turns(die, state, TURNS)
        return drawing.book(turns + [die.randrange(4)] if die.random() < 0.1 else turns)

    def calls(self):
        run = ['p.lam', 'w.world', 'b.book']
        return [['check', 'p.lam'], ['code', 'p.lam'], *(['replay', *run, observer] for observer in OBSERVERS),
                ['audit', *run], ['walk', *run], *(['check', name] for name in self.breaks)]

    def differences(self, lam):
        """The calls that the program answers otherwise: the words, this reading's answer, and the program's."""
        for words in self.calls():
            mine = answers.answer([os.path.join(self.room, it) if '.' in it else it for it in words])
            text, status = program.called(lam, *words, folder=self.room)
            if mine != (text.decode(errors='replace'), status):
                yield words, mine, (text.decode(errors='replace'), status)


class DrawnPrograms(unittest.TestCase):
    def setUp(self):
        self.room = tempfile.mkdtemp(prefix='lam-drawn-')
        self.addCleanup(shutil.rmtree, self.room)

    def test_the_program_answers_as_this_reading(self):
        lam = program.found()
        if not lam:
            self.skipTest('no program is built: ./lam help builds it, LAM_PROGRAM names one')
        with concurrent.futures.ThreadPoolExecutor(os.cpu_count()) as workers:
            for differing in workers.map(lambda number: list(Drawn(number, self.room).differences(lam)),
                                         range(SEED, SEED + COUNT)):
                for words, mine, theirs in differing:
                    self.fail(f'lam {" ".join(words)}\nthis reading: {mine}\nthe program:  {theirs}')

    def test_a_number_draws_the_same_again(self):
        for number in range(3):
            self.assertEqual(drawing.drawn(number)[1:], drawing.drawn(number)[1:])


if __name__ == '__main__':
    if len(sys.argv) > 3 or not all(it.isdecimal() for it in sys.argv[1:]):
        sys.exit(__doc__)
    COUNT, SEED = (list(map(int, sys.argv[1:])) + [COUNT, SEED][len(sys.argv) - 1:])[:2]
    unittest.main(argv=sys.argv[:1])
