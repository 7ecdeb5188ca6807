#!/usr/bin/env python3
"""Builds the optimised program: the sources as they are, without proof, compiled by LLVM's optimiser.

Usage: tools/quick.py FOLDER [PROGRAM]

./lam runs this where it has no program of its sources. The toolchain's trial run (tools/trial.py) reads the crates and makes
one module of code of them, on one processor. This stops it there, writes the module as text, divides it into parts
(tools/parts.py), compiles the parts beside each other by the toolchain's own compiler, links them, and keeps the program as
FOLDER/optimised, or FOLDER/PROGRAM.optimised where the program is not lam. LAM_JOBS=N keeps to N processors. It ends with
status 3 where the toolchain lacks a part or one of these steps fails: the checked program can be built there all the same.
"""
import os
import shutil
import subprocess
import sys
import tempfile
import time

from lam_source import last_catch

import parts
from build import kept_to
from trial import Progress, Trial, alone, ends_in_order, place, prints_help, put, say, stopped

PARTS = 4           # always as many, so that the program does not depend on how many processors there are
READ, WRITTEN = 0.7, 0.75       # of the whole is done where the crates are read, and where their code stands as text
TARGET = 'x86_64-unknown-linux-gnu'
# As `rt ci` has LLVM compile a program, but by -O2, and in parts.
FLAGS = ['-march=x86-64', '-mllvm', '-no-trap-after-noreturn', '-ffunction-sections', '-fdata-sections',
         '-mllvm', '-trap-unreachable', '-mllvm', '-no-x86-call-frame-opt', '-mllvm', '-disable-machine-licm', '-mllvm', '-disable-postra-machine-licm',
         '-mllvm', '-sink-common-insts=false', '--no-default-config', '-no-canonical-prefixes', '-fintegrated-cc1',
         '-fno-crash-diagnostics', '-Werror', '-x', 'ir']
OPTIMISED = ['-c', '-fPIE', '-O2', '-Xclang', '-fmerge-functions', '-mllvm', '-mergefunc-use-aliases']
AS_TEXT = ['-S', '-emit-llvm', '-O0', '-Xclang', '-disable-llvm-passes']
LACKS = 3           # the status where another kind of program can be built


class Refused(Exception):
    """The optimised program is not built, for this reason."""


class Kit:
    """The parts of the toolchain that this uses beside its commands."""

    def __init__(self):
        tool = shutil.which('rt')
        if not tool:
            raise Refused('the toolchain is not on the PATH: there is no rt')
        kit = os.path.dirname(os.path.dirname(os.path.realpath(tool)))
        self.toolchain = os.path.join(kit, 'toolchain')
        self.compiler, self.linker = os.path.join(self.toolchain, 'bin', 'clang'), os.path.join(kit, 'bin', 'rattle-link')
        self.libraries = [os.path.join(kit, 'c', name) for name in ('libos_c.a', 'liblibc_c.a')]
        for part in (self.compiler, self.linker, *self.libraries):
            if not os.path.isfile(part):
                raise Refused(f'the toolchain has no {part}')

    def compiled(self, how, made, to):
        return [self.compiler, f'--target={TARGET}', f'--sysroot={self.toolchain}', *FLAGS, *how, made, '-o', to]

    def linked(self, made, to):
        return [self.linker, '--target', TARGET, '--toolchain', self.toolchain, '-o', to, *made, *self.libraries]


class Commands:
    """Commands that run beside each other, as many at a time as there are processors."""

    def __init__(self, commands, room):
        self.left, self.running, self.room, self.done = list(commands), [], room, 0

    def start(self):
        words = self.left.pop(0)
        with tempfile.TemporaryFile(dir=self.room) as said:
            # The file stays open in the command, and here by a second number.
            kept = os.fdopen(os.dup(said.fileno()), 'rb')
            self.running.append((words, kept, subprocess.Popen(words, stdin=subprocess.DEVNULL, stdout=said, stderr=said)))

    def look(self):
        """Takes note of those that ended."""
        for it in list(self.running):
            words, said, tool = it
            if tool.poll() is not None:
                self.running.remove(it)
                said.seek(0)
                if tool.returncode:
                    raise Refused(f'{os.path.basename(words[0])} ended with {tool.returncode}: '
                                  + said.read()[-300:].decode(errors='replace').strip())
                self.done += 1

    def run(self, tell, processors=1):
        """Runs all to their ends."""
        try:
            while self.left or self.running:
                while self.left and len(self.running) < processors:
                    self.start()
                self.look()
                tell(self.done)
                time.sleep(0.1)
        finally:
            for _, _, tool in self.running:
                tool.kill()
                tool.wait()


def read(room, program, progress):
    """The code of all crates, or None where the toolchain gives none, with its words."""
    trial = Trial(room, program, progress, whole=READ / 0.6).run(until=Trial.module)
    if not trial.module():
        trial.give_up()
    return trial.module()


def part_files(kit, module, room, progress):
    """Writes the parts of a module into a folder, and answers their files."""
    text = os.path.join(room, 'module.ll')
    Commands([kit.compiled(AS_TEXT, module, text)], room).run(lambda _: progress.tell('optimising', READ))
    with open(text, 'rb') as file:
        code = file.read()
    os.remove(text)
    files = []
    try:
        for number, part in enumerate(parts.divided(code, PARTS)):
            files.append(os.path.join(room, f'part{number}.ll'))
            with open(files[-1], 'wb') as file:
                file.write(part)
    except parts.NotRead as why:
        raise Refused(f'the code has a form that tools/parts.py does not read: {why}') from None
    return files


def optimise(kit, module, room, program, progress):
    """Makes the program of a module, and answers its file."""
    files = part_files(kit, module, room, progress)
    objects, made = [f'{file}.o' for file in files], os.path.join(room, 'program')
    commands = Commands([kit.compiled(OPTIMISED, file, to) for file, to in zip(files, objects)], room)
    commands.run(lambda done: progress.tell(f'optimising, {done} of {len(files)} parts', WRITTEN + (0.99 - WRITTEN) * done / len(files)),
                 len(kept_to()))
    Commands([kit.linked(objects, made)], room).run(lambda _: None)
    if not prints_help(made, program):
        raise Refused('the program that was built does not print its help')
    return made


def build(folder, program):
    """Builds the program, and answers the status to end with."""
    say(f'building {program} of these sources without proof; it takes two minutes or so, and is kept until they change')
    progress = Progress()
    with tempfile.TemporaryDirectory(prefix='lam-quick-') as room:
        kit = Kit()
        module = read(room, program, progress)
        if not module:
            return 1
        try:
            put(optimise(kit, module, room, program, progress), place(folder, program, 'optimised'))
        finally:
            progress.clear()
    say(f'built in {progress.seconds():.0f} s')
    return 0


def main():
    if len(sys.argv) not in (2, 3):
        sys.exit(__doc__)
    folder, program = os.path.abspath(sys.argv[1]), sys.argv[2] if len(sys.argv) > 2 else 'lam'
    ends_in_order()
    try:
        with alone(folder):
            sys.exit(0 if os.path.isfile(place(folder, program, 'optimised')) else build(folder, program))
    except (Refused, OSError) as fault:
        say(f'no optimised program: {fault}')
        sys.exit(LACKS)
    except KeyboardInterrupt:
        stopped()


if __name__ == '__main__':
    last_catch.run(main)
