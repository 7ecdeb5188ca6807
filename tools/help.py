#!/usr/bin/env python3
"""Prints the commands of lam, or what one of them does. It needs no built program.

Usage: tools/help.py [--closed] [COMMAND]

With --closed it prints those of lam_closed. The forms are those that the programs themselves print for `help`;
tools/tests/starter_test.py compares them.
"""
import difflib
import sys

from lam_source import last_catch

# Each command: its form, what it does in a line, and what else there is to know.
COMMANDS = [
    ('play FILE OBS', 'runs a script of labelled actors and cells',
     'Prints each step that the observer sees, each refusal, and each release past it.'),
    ('check P', 'checks a program',
     'Prints ok where the program keeps the type rules and the region rules, else its first fault (status 3).'),
    ('format P', "prints a program's canonical text", ''),
    ('code P', 'prints the code that a program is compiled to', ''),
    ('replay P W BOOK OBS', 'prints what an observer sees of a recorded run', ''),
    ('run P W OBS BOOKOUT [--workers N] [--turns N]', 'runs a program on a labelled world and writes its book',
     'Prints what the observer sees of the run. The book is the schedule: which thread took each turn.\n'
     'Status 9 says that all turns are used up, 10 that every thread that lives waits; the book is written there too.'),
    ('audit P W BOOK', 'prints each release and each refusal of a recorded run', 'This is for who may see all.'),
    ('make SEED THREADS BOOKOUT', 'runs a program that is made from a number',
     'Prints how often the run said something, released and was refused.'),
    ('help', 'prints the forms', ''),
    ('next P W BOOK W2', 'writes the world that a recorded run left', 'Prints how many files and directories it has.'),
    ('pair P W1 BOOK1 W2 BOOK2 OBS', 'says whether an observer may expect to see the same of two runs',
     'Prints agree N, or in what the two differ first: worlds, turns or releases.'),
    ('walk P W BOOK', 'checks a recorded run against the source of the program',
     'Evaluates the source against the recorded answers, and prints how many requests it made, all of them the recorded ones.'),
]

CLOSED = [
    ('run P W OBS BOOKOUT [--base LABEL] [--turns N]', 'runs a program by the closed schedule and writes its book',
     'Prints what the observer sees of the run. Whoever is in a region above the base keeps the turn until it is out of it, so\n'
     'the order of the turns at labels that may flow to the base tells nothing of what such regions did. --turns counts these\n'
     'turns alone. Status 9 says that they are used up, 10 that every thread that lives waits. At 11 the thread in a region waits\n'
     'for what nobody else can do meanwhile, at 12 the run took 1000000 turns in all. The book is written at each of them.'),
    ('check P W BOOK [--base LABEL]', 'says whether a recorded run keeps to the closed schedule',
     'Prints closed, or departs at turn K thread T: the first turn that the schedule gives to another thread than T.'),
    ('help', 'prints the forms', ''),
]

WORDS = {
    'FILE': 'a script (docs/FORMATS.md, Play scripts)', 'P': 'a program (docs/LANGUAGE.md)',
    'W': 'a world document (docs/FORMATS.md, World documents)',
    'W1': 'the first world document', 'W2': 'the second world document',
    'BOOK': 'a book, which run wrote', 'BOOK1': 'the book of the first run', 'BOOK2': 'the book of the second run',
    'BOOKOUT': 'the file to which the book is written',
    'OBS': "the observer's label, {SECRECY}/{INTEGRITY}: '{}/{}' is the public, '{ann,bob}/{}' reads what ann and bob may read",
    'SEED': 'a number from 0 to 18446744073709551615', 'THREADS': 'a number from 1 to 64',
    '--workers N': 'worker threads, 1 to 16; 4 where none is said',
    '--turns N': 'turns at most, 1 to 1000000; 100000 where none is said',
    '--base LABEL': "the tags whose time may be known, as a label with no integrity; '{}/{}' where none is said",
}

STARTER = """\
./lam --built             prints the kind of program that is kept (proved, optimised, checked or none) and the sum of the sources
./lam --version           prints the version, the sum of the sources, and the kind of each program
./lam --prove [..]        proves the sources, builds the proved program, and runs it
./lam --optimised [..]    builds an optimised program without proof, and runs it; so does ./lam where none is kept
./lam --checked [..]      builds a program with checks of each access to memory, without proof, and runs it
./lam --closed ..         runs lam_closed: programs under the closed schedule; ./lam --closed --help
./lam --explain ..        says on standard error why a call is refused, or what a run had refused
./lam --overwrite ..      writes over a file that would be lost
./lam help COMMAND        says more of a command, as ./lam COMMAND --help does"""


def words_of(form):
    """The words of a form that stand for something, each as WORDS has it."""
    words = form.replace('[', '').replace(']', '').split()[1:]
    return [f'{word} {words[at + 1]}' if word.startswith('--') else word for at, word in enumerate(words)
            if at == 0 or not words[at - 1].startswith('--')]


class Program:
    """A program and its commands."""

    def __init__(self, name, commands):
        self.name, self.commands = name, commands
        self.names = [form.split()[0] for form, _, _ in commands]

    def of_all(self):
        width = max(len(form) for form, _, _ in self.commands)
        return '\n'.join(f'{self.name} {form:<{width}}  {does}' for form, does, _ in self.commands)

    def of_command(self, name):
        form, does, more = self.commands[self.names.index(name)]
        words = words_of(form)
        width = max(map(len, words), default=0)
        lines = [f'  {word:<{width}}  {meaning(self.name, name, word)}' for word in words]
        return '\n'.join([f'{self.name} {form}', f'{does[0].upper()}{does[1:]}.', *([more] if more else []), *lines])


def meaning(program, command, word):
    if command == 'next' and word == 'W2':
        return 'the file to which the new world is written'
    if program == 'lam_closed' and word == '--turns N':
        return 'turns at labels that may flow to the base, at most: 1 to 1000000; 100000 where none is said'
    return WORDS[word]


def main():
    closed = sys.argv[1:2] == ['--closed']
    words = sys.argv[2 if closed else 1:]
    program = Program('lam_closed', CLOSED) if closed else Program('lam', COMMANDS)
    if len(words) > 1:
        sys.exit(__doc__)
    if not words:
        print(program.of_all() if closed else f'{program.of_all()}\n\n{STARTER}')
    elif words[0] in program.names:
        print(program.of_command(words[0]))
    else:
        near = difflib.get_close_matches(words[0], program.names, 1)
        hint = f'; did you mean {near[0]}?' if near else ''
        call = './lam --closed --help' if closed else './lam --help'
        print(f'lam: there is no command {ascii(words[0])[1:-1]}{hint}; {call} lists them', file=sys.stderr)
        sys.exit(2)


if __name__ == '__main__':
    last_catch.run(main)
