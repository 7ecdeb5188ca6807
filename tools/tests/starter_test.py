#!/usr/bin/env python3
"""Tests of the starter ./lam: which program runs, how it is built, which file is written, what is printed.

Usage: tools/tests/starter_test.py

They run a copy of ./lam in a repository of a few files, with stand-ins for the toolchain and for the programs, so they need no
program. One compares the forms of `./lam --help` with those of this repository's program; it is left out where none is built.
"""
import contextlib
import io
import os
import shutil
import signal
import stat
import subprocess
import sys
import tempfile
import time
import unittest

ROOT = os.path.dirname(os.path.dirname(os.path.dirname(os.path.realpath(__file__))))
sys.path.insert(0, os.path.join(ROOT, 'tools'))
import parts
import trial

# A program that prints its kind and its words, and writes a book or a world where it is told to. It refuses with SAYS.
PROGRAM = r'''#!/bin/sh
[ "$1" != help ] || { printf 'NAME check P\nNAME help\n'; exit; }
[ -z "$SAYS" ] || { echo "$SAYS"; exit "$STATUS"; }
echo KIND "$@"
case $1 in run) file=$5 ;; make) file=$4 ;; next) file=$5 ;; *) exit "${STATUS:-0}" ;; esac
printf 'lam book 1\n' >"$file" || exit 7
if [ -n "$SLOW" ]; then
    sleep 600 &
    trap "kill $!; exit 143" TERM
    echo $$ $! >"$SLOW.new" && mv "$SLOW.new" "$SLOW"
    wait
fi
printf '0 1\n' >>"$file"
exit "${STATUS:-0}"
'''
# A toolchain whose trial run leaves what the kit's leaves, and whose gate leaves the programs.
TOOL = r'''#!/bin/sh
crate=${PWD##*/}
case $1 in
    try)
        echo "$crate" >>"$STANDS/tries"
        mkdir "$TMPDIR/made" && cd "$TMPDIR/made"
        [ -z "$CHANGES" ] || echo >>"$CHANGES"
        head -c 2000 /dev/zero >module.bc
        touch module.o.tmp
        cp "$STANDS/$crate.checked" program
        sleep 0.5 ;;
    ci)
        for it in crates/*; do
            crate=${it##*/}
            mkdir -p "$it/out"
            cp "$STANDS/$crate.proved" "$it/out/$crate"
            echo "rt: $crate proved"
        done ;;
esac
'''
# A compiler that has the code below for each module, and a linker that takes what defines the start once.
COMPILER = r'''#!/bin/sh
for to; do :; done
case $* in
    *-emit-llvm*) cp "$STANDS/module.ll" "$to" ;;
    *part2*) [ -z "$BREAKS" ] || { echo no memory >&2; exit 1; } ;;
esac
[ -e "$to" ] || { for from; do [ "$from" != -o ] || break; last=$from; done; cp "$last" "$to"; }
'''
LINKER = r'''#!/bin/sh
while [ "$1" != -o ]; do shift; done
to=$2
shift 2
[ "$(cat "$@" | grep -c '^define i32 @main')" = 1 ] || exit 1
cp "$STANDS/$(tail -n 1 "$STANDS/tries").optimised" "$to"
'''
CODE = '''; ModuleID = 'm'
source_filename = "rattle"
target triple = "x86_64-unknown-linux-gnu"

@static.0 = private global [1 x i8] zeroinitializer, align 1
@static.1 = private unnamed_addr constant [3 x i8] c"@f,", align 1

; Function Attrs: nounwind sanitize_address
define internal noundef i32 @"a::small"(ptr noundef %a0) #0 {
start:
  %r0 = alloca i32, align 4
  call void @llvm.memset.p0.i64(ptr %r0, i8 -86, i64 4, i1 false)
  %r1 = load volatile i8, ptr @static.0, align 1
  call void @llvm.memset.p0.i64(ptr %a0, i8 -86, i64 4, i1 false)
  %r2 = call i32 @"a::large"(ptr @static.1)
  ret i32 0
}

; Function Attrs: nounwind
declare void @llvm.memset.p0.i64(ptr writeonly captures(none), i8, i64, i1 immarg) #1

declare i32 @open(ptr noundef, i32, ...) #1

define internal noundef i32 @"a::large"(ptr noundef %a0) #0 {
start:
LARGE
  ret i32 0
}

define internal i32 @"a::unused"() #0 {
start:
  %r0 = call i32 @open(ptr @static.1, i32 0)
  ret i32 %r0
}

define i32 @main() #0 {
start:
  %r0 = call i32 @"a::small"(ptr @static.1)
LARGE
  ret i32 %r0
}

attributes #0 = { nounwind sanitize_address "frame-pointer"="all" }
attributes #1 = { nounwind }
'''.replace('LARGE', '\n'.join(f'  %v{n} = load volatile i8, ptr @static.0, align 1' for n in range(parts.SMALL)))
# The commands that ./lam and the stand-ins call, without those of a PATH that lacks one of them.
COMMANDS = ('bash env readlink find sort xargs sha256sum cut mkdir touch mv rm rmdir mktemp stat sed head ls tail cp chmod chown '
            'flock iconv sh sleep cat grep python3').split()


def write(path, text, mode=0o644):
    os.makedirs(os.path.dirname(path), exist_ok=True)
    with open(path, 'w', encoding='utf-8') as file:
        file.write(text)
    os.chmod(path, mode)


def read(path):
    with open(path, encoding='utf-8') as file:
        return file.read()


def is_alive(pid):
    with contextlib.suppress(OSError):
        os.kill(pid, 0)
        return True
    return False


class Repository(unittest.TestCase):
    """A repository of a few files, in a folder of its own."""

    def setUp(self):
        room = tempfile.TemporaryDirectory(prefix='lam-starter-')
        self.addCleanup(room.cleanup)
        self.top = os.path.join(room.name, 'top')
        self.stands = os.path.join(room.name, 'stands')
        self.source = os.path.join(self.top, 'crates', 'lam', 'src', 'main.rt')
        write(self.at('crates.txt'), 'lam:\nlam_closed:\n')
        write(self.at('HANDLES'), '')
        write(self.at('CHANGELOG.md'), '# Changelog\n\n## v1.2.3\n\nProved with `rattle-kit-9z`.\n')
        for crate in ('lam', 'lam_closed'):
            write(self.at(f'crates/{crate}/src/main.rt'), 'fn main() {}\n')
            os.makedirs(self.at(f'crates/{crate}/out'))
            for kind in ('checked', 'optimised', 'proved'):
                self.stand_in(crate, kind)
        shutil.copy(os.path.join(ROOT, 'lam'), self.top)
        os.symlink(os.path.join(ROOT, 'tools'), os.path.join(self.top, 'tools'))
        write(os.path.join(self.stands, 'bin', 'rt'), TOOL, 0o755)
        self.add_optimiser()
        self.settings = {name: value for name, value in os.environ.items() if not name.startswith('LAM_')}
        self.settings.update(PATH=f"{os.path.join(self.stands, 'bin')}:{os.environ['PATH']}", STANDS=self.stands, SLOW='', CHANGES='',
                             SAYS='', BREAKS='', STATUS='')

    def stand_in(self, crate, kind):
        shown = kind if crate == 'lam' else f'closed {kind}'
        write(os.path.join(self.stands, f'{crate}.{kind}'), PROGRAM.replace('KIND', shown).replace('NAME', crate), 0o755)

    def add_optimiser(self):
        write(os.path.join(self.stands, 'toolchain', 'bin', 'clang'), COMPILER, 0o755)
        write(os.path.join(self.stands, 'bin', 'rattle-link'), LINKER, 0o755)
        write(os.path.join(self.stands, 'module.ll'), CODE)
        for name in ('libos_c.a', 'liblibc_c.a'):
            write(os.path.join(self.stands, 'c', name), '')

    def without(self, *commands):
        """A PATH of the commands that are needed, without these."""
        folder = tempfile.mkdtemp(dir=self.stands)
        for name in COMMANDS:
            if name not in commands and shutil.which(name):
                os.symlink(os.path.realpath(shutil.which(name)), os.path.join(folder, name))
        return folder if 'rt' in commands else f"{os.path.join(self.stands, 'bin')}:{folder}"

    def at(self, name):
        return os.path.join(self.top, name)

    def lam(self, *words, **settings):
        """Calls ./lam, and returns its status, its output and its errors."""
        ran = subprocess.run([self.at('lam'), *words], cwd=self.top, stdin=subprocess.DEVNULL, capture_output=True, text=True,
                             errors='surrogateescape', env={**self.settings, **settings}, check=False)
        return ran.returncode, ran.stdout, ran.stderr

    def given(self, *words, **settings):
        return self.lam(*words, LAM_PROGRAM=os.path.join(self.stands, 'lam.checked'),
                        LAM_CLOSED=os.path.join(self.stands, 'lam_closed.checked'), **settings)

    def gate(self):
        subprocess.run(['rt', 'ci'], cwd=self.top, env=self.settings, stdout=subprocess.DEVNULL, check=True)

    def built(self, *words):
        return self.lam(*words, '--built')[1].split()

    def tries(self):
        return read(os.path.join(self.stands, 'tries')).split()


class Kinds(Repository):
    """Which program runs."""

    def test_first_call_builds_the_optimised_one_and_says_so_once(self):
        kind, none_sum = self.built()
        self.assertEqual(kind, 'none')
        status, out, said = self.lam('check', 'x')
        self.assertEqual((status, out), (0, 'optimised check x\n'), said)
        self.assertIn('built from these sources and optimised; it is not proved here', said)
        self.assertIn('./lam --prove', said)
        self.assertEqual(self.lam('check', 'x'), (0, 'optimised check x\n', ''))
        self.assertEqual(self.built(), ['optimised', none_sum])
        self.assertEqual(self.tries(), ['lam'])

    def test_checked_is_asked_for(self):
        status, out, said = self.lam('--checked', 'check', 'x')
        self.assertEqual((status, out), (0, 'checked check x\n'))
        self.assertIn('with checks of each access to memory, and slower; it is not proved here', said)
        self.assertEqual(self.built()[0], 'checked')
        self.assertEqual(self.lam('check', 'x')[1], 'optimised check x\n')
        self.assertEqual(self.lam('check', 'x', LAM_TRIAL='1'), (0, 'checked check x\n', ''))
        self.assertEqual(self.lam('--quick', 'check', 'x'), (0, 'optimised check x\n', ''))

    def test_without_the_optimiser_the_checked_one_is_used(self):
        os.remove(os.path.join(self.stands, 'toolchain', 'bin', 'clang'))
        status, out, said = self.lam('check', 'x')
        self.assertEqual((status, out), (0, 'checked check x\n'))
        self.assertIn('no optimised program: the toolchain has no ', said)
        self.assertEqual(self.lam('check', 'x'), (0, 'checked check x\n', ''))
        self.assertIn('no optimised program', self.lam('--optimised', 'check', 'x')[2])

    def test_a_part_that_does_not_compile_says_so(self):
        with open(os.path.join(self.stands, 'module.ll'), 'w', encoding='utf-8') as file:
            file.write(CODE.replace('@static.0 = private', '@static.0 = dllexport'))
        self.assertIn('a form that tools/parts.py does not read: @static.0 = dllexport', self.lam('--optimised')[2])
        write(os.path.join(self.stands, 'module.ll'), CODE)
        write(os.path.join(self.stands, 'toolchain', 'bin', 'clang'), COMPILER.replace('part2', 'part0'), 0o755)
        self.assertIn('no optimised program: clang ended with 1: no memory', self.lam('--optimised', BREAKS='yes')[2])
        self.assertEqual(self.built()[0], 'checked')

    def test_a_program_belongs_to_a_sum_of_the_sources(self):
        self.lam('check', 'x')
        before = self.built()
        write(self.source, 'fn main() { }\n')
        self.assertEqual(self.built()[0], 'none')
        self.assertNotEqual(self.built()[1], before[1])
        write(self.source, 'fn main() {}\n')
        self.assertEqual(self.built(), before)
        write(self.at('crates/lam/specs/New.antt'), '')
        self.assertEqual(self.built()[0], 'none')
        os.remove(self.at('crates/lam/specs/New.antt'))
        self.assertEqual(self.built(), before)

    def test_what_the_gate_left_is_used_in_silence(self):
        self.lam('check', 'x')
        self.gate()
        self.assertEqual(self.lam('check', 'x'), (0, 'proved check x\n', ''))
        shutil.rmtree(self.at('crates/lam/out'))        # as the next gate begins
        self.assertEqual(self.built()[0], 'proved')
        self.assertEqual(self.lam('check', 'x', LAM_PROVED='1'), (0, 'proved check x\n', ''))

    def test_what_the_gate_left_of_other_sources_is_not_used(self):
        self.gate()
        time.sleep(0.02)
        write(self.source, 'fn main() { }\n')
        long_ago = time.time() - 1000
        os.utime(self.source, (long_ago, long_ago))
        self.assertEqual(self.built()[0], 'none')

    def test_the_proved_program_is_waited_for(self):
        status, out, said = self.lam('--prove', 'check', 'x')
        self.assertEqual((status, out), (0, 'proved check x\n'), said)
        self.assertIn('proved and built', said)
        self.assertEqual(self.lam('check', 'x'), (0, 'proved check x\n', ''))
        self.assertEqual(self.lam('--prove'), (0, '', ''))

    def test_a_given_program(self):
        self.assertEqual(self.given('check', 'x'), (0, 'checked check x\n', ''))
        self.assertEqual(self.given('--built')[1].split()[0], 'given')
        for name in ('nothing', 'crates.txt', 'crates'):
            self.assertEqual(self.lam('check', 'x', LAM_PROGRAM=name), (70, '', f'lam: LAM_PROGRAM names no program: {name}\n'))
        shutil.copy(os.path.join(self.stands, 'lam.checked'), self.at('mine'))
        self.assertEqual(self.lam('check', 'x', LAM_PROGRAM='mine'), (0, 'checked check x\n', ''))

    def test_what_is_built_of_sources_that_change_is_not_kept(self):
        status, _, said = self.lam('check', 'x', CHANGES=self.source)
        self.assertEqual(status, 70)
        self.assertIn('the sources changed while it was built', said)
        self.assertEqual(self.built()[0], 'none')

    def test_a_toolchain_without_a_trial_says_so_and_nothing_is_proved(self):
        write(os.path.join(self.stands, 'bin', 'rt'), '#!/bin/sh\necho no such trial >&2\nexit 1\n', 0o755)
        status, _, said = self.lam('check', 'x')
        self.assertEqual(status, 70)
        self.assertIn('no such trial\nlam: this toolchain gave no trial', said)
        self.assertNotIn('proving', said)

    def test_without_the_kit_a_line_says_what_is_missing(self):
        path = self.without('rt')
        for words in (('check', 'x'), ('--checked', 'check', 'x'), ('--prove',), ('--closed', 'help')):
            self.assertEqual(self.lam(*words, PATH=path), (70, '', 'lam: the Rattle kit is missing: there is no rt on the PATH; '
                                                           "rattle-kit-9z is wanted (README.md, 'Two commands')\n"))

    def test_without_python_a_line_says_so(self):
        path = self.without('python3')
        self.assertEqual(self.lam('check', 'x', PATH=path),
                         (70, '', 'lam: there is no python3 on the PATH, and the build of a program wants it\n'))
        self.assertEqual(self.lam('--help', PATH=path)[0], 70)
        write(self.at('P'), 'p')
        write(self.at('w2.world'), '{"version": 1, "tags": [], "tree": [], "pipes": [], "threads": []}')
        status, _, said = self.given('next', 'P', 'W', 'B', 'w2.world', PATH=path)
        self.assertEqual(status, 73)
        self.assertIn('without python3 on the PATH nobody knows whether it is a world', said)
        self.assertEqual(self.given('--explain', 'check', 'P', PATH=path, STATUS='6'),
                         (6, 'checked check P\n', 'lam: there is no python3 on the PATH, and an explanation wants it\n'))


class Closed(Repository):
    """The second program, of the closed schedule."""

    def test_it_is_built_at_its_own_first_call(self):
        self.lam('check', 'x')
        self.assertEqual(self.built('--closed')[0], 'none')
        status, out, said = self.lam('--closed', 'check', 'P', 'W', 'B')
        self.assertEqual((status, out), (0, 'closed optimised check P W B\n'), said)
        self.assertEqual(self.lam('--closed', 'check', 'P', 'W', 'B'), (0, 'closed optimised check P W B\n', ''))
        self.assertEqual(self.tries(), ['lam', 'lam_closed'])
        self.assertEqual(self.lam('--checked', '--closed', 'check', 'P')[1], 'closed checked check P\n')
        self.gate()
        self.assertEqual(self.lam('--closed', 'check', 'P'), (0, 'closed proved check P\n', ''))
        self.assertEqual(self.lam('check', 'P'), (0, 'proved check P\n', ''))

    def test_it_is_proved(self):
        status, out, said = self.lam('--closed', '--prove', 'check', 'P')
        self.assertEqual((status, out), (0, 'closed proved check P\n'), said)
        self.assertEqual((self.built('--closed')[0], self.built()[0]), ('proved', 'none'))

    def test_its_book_is_guarded_and_renamed(self):
        write(self.at('P'), 'p')
        write(self.at('W'), 'w')
        for words in ((), ('--base', '{a}/{}'), ('--turns', '9'), ('--turns', '9', '--base', '{a}/{}')):
            self.assertEqual(self.given('--closed', 'run', 'P', 'W', '{}/{}', 'P', *words)[0], 73)
        for status in (0, 8, 9, 10, 11, 12):
            write(self.at('b.book'), 'lam book 1\n0 9\n')
            self.assertEqual(self.given('--closed', 'run', 'P', 'W', '{}/{}', 'b.book', STATUS=str(status))[0], status)
            self.assertEqual(read(self.at('b.book')), 'lam book 1\n0 1\n')
        self.assertIn(' --base {}/{} --turns 9\n', self.given('--closed', 'run', 'P', 'W', '{}/{}', 'b', '--turns', '9', '--base', '{}/{}')[1])

    def test_help_and_version_tell_of_it(self):
        self.assertIn('lam_closed check P W BOOK [--base LABEL]', self.lam('--closed', '--help')[1])
        self.assertIn('./lam --closed', self.lam('--help')[1])
        self.assertTrue(self.lam('--closed', 'run', '--help')[1].startswith('lam_closed run P W OBS BOOKOUT [--base LABEL] [--turns N]\n'))
        self.assertEqual(self.lam('--closed')[:2], (2, ''))
        self.lam('--closed', 'check', 'P')
        sum_of_sources = self.built()[1]
        self.assertEqual(self.lam('--version'), (0, f'lam v1.2.3, sources {sum_of_sources}, lam none, lam_closed optimised\n', ''))
        shutil.rmtree(self.at('crates/lam_closed'))
        write(self.at('crates.txt'), 'lam:\n')
        self.assertEqual(self.lam('--closed', 'help'), (70, '', 'lam: these sources have no program lam_closed\n'))


class Files(Repository):
    """Which file is written."""

    def setUp(self):
        super().setUp()
        write(self.at('P'), 'p')
        write(self.at('W'), 'w')
        self.old = 'lam book 1\n0 9\n'
        self.new = 'lam book 1\n0 1\n'

    def run_to(self, file, **settings):
        return self.given('run', 'P', 'W', '{}/{}', file, **settings)

    def left(self):
        return sorted(it for it in os.listdir(self.top) if it.startswith('.lam-'))

    def begun(self):
        """A run that goes on, and its program's processes."""
        begun = self.at('begun')
        ran = subprocess.Popen([self.at('lam'), 'run', 'P', 'W', '{}/{}', 'b.book'], cwd=self.top, stdin=subprocess.DEVNULL,
                               stdout=subprocess.DEVNULL, stderr=subprocess.DEVNULL,
                               env={**self.settings, 'LAM_PROGRAM': os.path.join(self.stands, 'lam.checked'), 'SLOW': begun})
        while not os.path.exists(begun):
            time.sleep(0.01)
        pids = list(map(int, read(begun).split()))
        for pid in pids:
            self.addCleanup(lambda pid=pid: is_alive(pid) and os.kill(pid, signal.SIGKILL))
        os.remove(begun)
        return ran, pids

    def test_whole_files_are_renamed(self):
        for status in (0, 8, 9, 10):
            write(self.at('b.book'), self.old, 0o640)
            self.assertEqual(self.run_to('b.book', STATUS=str(status))[0], status)
            self.assertEqual(read(self.at('b.book')), self.new)
            self.assertEqual(stat.S_IMODE(os.stat(self.at('b.book')).st_mode), 0o640)
        self.assertEqual(self.left(), [])

    def test_others_leave_the_old_file_or_none(self):
        for status in (1, 7):
            write(self.at('b.book'), self.old)
            self.assertEqual(self.run_to('b.book', STATUS=str(status))[0], status)
            self.assertEqual(read(self.at('b.book')), self.old)
            self.run_to('none.book', STATUS=str(status))
            self.assertFalse(os.path.exists(self.at('none.book')))
        self.assertEqual(self.left(), [])

    def test_a_stopped_run_leaves_the_old_file(self):
        for number in (signal.SIGTERM, signal.SIGQUIT, signal.SIGPIPE, signal.SIGHUP):
            write(self.at('b.book'), self.old)
            ran, pids = self.begun()
            ran.send_signal(number)
            self.assertIn(ran.wait(), (-number, 128 + number))
            self.assertEqual((read(self.at('b.book')), self.left()), (self.old, []))
            self.assertFalse(is_alive(pids[0]))

    def test_a_folder_whose_call_was_killed_is_removed_by_the_next(self):
        write(self.at('b.book'), self.old)
        ran, pids = self.begun()
        ran.kill()
        ran.wait()
        room = self.at(self.left()[0])
        self.run_to('c.book')
        self.assertTrue(os.path.exists(room))       # it is young
        os.utime(room, (time.time() - 1000, time.time() - 1000))
        self.run_to('c.book')
        self.assertTrue(os.path.exists(room))       # the program still runs
        os.kill(pids[0], signal.SIGTERM)
        while any(map(is_alive, pids)):
            time.sleep(0.01)
        os.utime(room, (time.time() - 1000, time.time() - 1000))
        self.assertEqual(self.run_to('c.book')[0], 0)
        self.assertEqual((self.left(), read(self.at('b.book'))), ([], self.old))

    def test_where_no_folder_can_be_made_nothing_is_written(self):
        write(self.at('b.book'), self.old)
        path = self.without('mktemp')
        write(os.path.join(path.split(':')[-1], 'mktemp'), '#!/bin/sh\nexit 1\n', 0o755)
        status, out, said = self.run_to('b.book', PATH=path)
        self.assertEqual((status, out, said), (7, '', 'lam: no folder can be made beside b.book, so it cannot be written\n'))
        self.assertEqual((read(self.at('b.book')), self.left()), (self.old, []))

    def test_links_and_devices_are_written_as_they_are(self):
        write(self.at('b.book'), self.old)
        os.symlink('b.book', self.at('link.book'))
        os.link(self.at('b.book'), self.at('second.book'))
        for name in ('link.book', 'second.book'):
            write(self.at('b.book'), self.old)
            self.run_to(name)
            self.assertEqual(read(self.at('b.book')), self.new)
        self.assertTrue(os.path.islink(self.at('link.book')))
        self.assertEqual(self.run_to('/dev/null')[0], 0)
        self.assertIn(self.new, self.run_to('/dev/stdout')[1])
        self.assertEqual(self.run_to('nowhere/b.book')[0], 7)

    def test_nothing_else_is_lost(self):
        write(self.at('package.json'), '{"name": "x", "version": "1.0.0"}\n')
        write(self.at('w2.world'), '{"version": 1, "tags": [], "tree": [], "pipes": [], "threads": []}')
        write(self.at('B'), self.old)
        for words in (('next', 'P', 'W', 'B', 'package.json'), ('next', 'P', 'W', 'B', 'B'), ('run', 'P', 'W', '{}/{}', 'package.json'),
                      ('run', 'P', 'W', '{}/{}', 'W'), ('run', 'P', 'W', '{}/{}', 'W', '--workers', '1'), ('make', '1', '1', 'package.json')):
            self.assertEqual(self.given(*words)[0], 73, words)
        self.assertEqual(self.given('next', 'P', 'W', 'B', 'w2.world')[0], 0)
        self.assertEqual(self.given('--overwrite', 'next', 'P', 'W', 'B', 'package.json')[0], 0)

    def test_words_in_no_form_are_for_the_program(self):
        for words in (('run', '--workers', '1', 'P', 'W', '{}/{}', 'b.book'), ('run', 'P', 'W', 'P', 'W'),
                      ('run', 'P', 'W', '{}/{}', 'P', '--worker', '1'), ('make', 'P', '1', 'P')):
            status, out, said = self.given(*words, SAYS='lam: 2 word 1', STATUS='2')
            self.assertEqual((status, out, said), (2, 'lam: 2 word 1\n', ''))

    def test_a_book_that_cannot_be_read_is_not_written_over(self):
        if not os.geteuid() and not shutil.which('setpriv'):
            self.skipTest('who may read all has no such file')
        write(self.at('b.book'), self.old, 0o200)
        command = [self.at('lam'), 'run', 'P', 'W', '{}/{}', 'b.book']
        if not os.geteuid():
            for folder, _, files in os.walk(os.path.dirname(self.top)):
                for name in ('.', *files):
                    os.chown(os.path.join(folder, name), 65534, 65534)
            os.chmod(os.path.dirname(self.top), 0o755)
            command = ['setpriv', '--reuid=65534', '--regid=65534', '--clear-groups', *command]
        ran = subprocess.run(command, cwd=self.top, stdin=subprocess.DEVNULL, capture_output=True, text=True, check=False,
                             env={**self.settings, 'LAM_PROGRAM': os.path.join(self.stands, 'lam.checked')})
        if 'Permission denied' in ran.stderr and 'lam:' not in ran.stderr:
            self.skipTest('this repository is closed to others')
        self.assertEqual((ran.returncode, ran.stdout), (73, ''), ran.stderr)
        self.assertEqual(ran.stderr, 'lam: b.book is there and cannot be read, so nobody knows whether it is a book; '
                         'name another file, or say ./lam --overwrite run ..\n')

    def test_a_name_that_is_no_text_is_for_the_program(self):
        self.assertIn(' \udcff.book\n', self.run_to('\udcff.book')[1])
        self.assertNotIn(' b\xfccher.book\n', self.run_to('b\xfccher.book')[1])

    def test_control_characters_are_shown(self):
        write(self.at('a\x1b[31m'), 'x')
        self.assertIn(r"lam: $'a\E[31m' is there and is no book", self.run_to('a\x1b[31m')[2])

    def test_options_come_in_either_order(self):
        for words in (('--workers', '1', '--turns', '9'), ('--turns', '9', '--workers', '1')):
            self.assertIn(' --workers 1 --turns 9\n', self.given('run', 'P', 'W', '{}/{}', 'b.book', *words)[1])


class Words(Repository):
    """What the starter answers itself."""

    def test_help_has_the_forms_of_the_program(self):
        def lam(*words):
            return subprocess.run([os.path.join(ROOT, 'lam'), *words], stdin=subprocess.DEVNULL, capture_output=True, text=True, check=False)
        for closed in ([], ['--closed']):
            if lam(*closed, '--built').stdout.startswith('none'):
                continue
            forms = lam(*closed, 'help').stdout.splitlines()
            shown = lam(*closed, '--help').stdout.splitlines()
            self.assertEqual([line.split('  ')[0] for line in shown[:len(forms)]], forms)
            for form in forms:
                self.assertEqual(lam(*closed, 'help', form.split()[1]).stdout.splitlines()[0], form)

    def test_help_in_each_form(self):
        self.assertEqual(self.lam('-h'), self.lam('--help'))
        for command in ('run', 'check', 'next'):
            self.assertEqual(self.lam(command, '--help'), self.lam('help', command))
        self.assertTrue(self.lam('run', '--help')[1].startswith('lam run P W OBS BOOKOUT [--workers N] [--turns N]\n'))

    def test_no_words_print_help_as_an_error(self):
        status, out, said = self.lam()
        self.assertEqual((status, out), (2, ''))
        self.assertIn('lam check P', said)

    def test_refusals_have_a_line_without_a_terminal(self):
        write(self.at('notes.lam'), 'fn main(): int {\n  return 1 +;\n}\n')
        place = {'SAYS': 'lam: 3 Unexpected at 29', 'STATUS': '3'}
        self.assertEqual(self.given('check', 'notes.lam', **place), (
            3, 'lam: 3 Unexpected at 29\n', 'lam: notes.lam: line 2, column 13: `;` cannot stand here; what could: an expression\n'))
        self.assertEqual(self.given('check', 'notes.lam', LAM_QUIET='1', **place)[2], '')
        missing = {'SAYS': 'lam: 6 Absent note.lam', 'STATUS': '6'}
        self.assertEqual(self.given('check', 'note.lam', **missing)[2], 'lam: note.lam: the program is not there; did you mean notes.lam?\n')
        os.mkdir(self.at('folder'))
        self.assertEqual(self.given('check', 'folder', STATUS='7')[2], 'lam: folder, the program, could not be read: it is a folder\n')
        self.assertEqual(self.given('check', 'notes.lam', SAYS='lam: 2 word 1', STATUS='2')[2], '')

    def test_explains_where_it_is_asked_to(self):
        write(self.at('notes.lam'), '')
        missing = {'SAYS': 'lam: 6 Absent note.lam', 'STATUS': '6'}
        self.assertEqual(self.given('--explain', 'check', 'note.lam', **missing)[2], 'the program is not there; did you mean notes.lam?\n')

    def test_nothing_is_read_from_the_folder_of_the_caller(self):
        elsewhere = os.path.join(self.stands, 'elsewhere')
        write(os.path.join(elsewhere, 'tools', 'programs.sh'), 'echo mine; exit\n')
        ran = subprocess.run(['bash', '-s'], input=read(self.at('lam')), cwd=elsewhere, capture_output=True, text=True, check=False)
        self.assertEqual((ran.returncode, ran.stdout), (70, ''))
        os.symlink(self.at('lam'), os.path.join(self.stands, 'bin', 'lam'))
        ran = subprocess.run(['bash', 'lam', '--version'], cwd=elsewhere, capture_output=True, text=True, check=False, env=self.settings)
        self.assertTrue(ran.stdout.startswith('lam v1.2.3'), ran)


class Parts(unittest.TestCase):
    """A program's code in parts."""

    def test_each_function_is_in_one_part_or_copied(self):
        first, second = (part.decode() for part in parts.divided(CODE.encode(), 2))
        self.assertIn('define hidden noundef i32 @"a::large"(', first)
        self.assertIn('declare hidden noundef i32 @"a::large"(ptr noundef %a0) #0\n', second)
        self.assertIn('define i32 @main()', second)
        self.assertNotIn('@main', first)
        self.assertIn('define internal noundef i32 @"a::small"', second)
        self.assertNotIn('a::small', first)
        self.assertIn('@static.0 = hidden global [1 x i8] zeroinitializer', first)
        self.assertIn('@static.0 = external hidden global [1 x i8]\n', second)
        for part in (first, second):
            self.assertNotIn('unused', part)
            self.assertNotIn('sanitize', part)
            self.assertNotIn('@open', part)
            self.assertIn('target triple', part)
            self.assertIn('attributes #1', part)
        self.assertEqual((first + second).count('i8 -86'), 1)       # that of a variable which is no fresh one

    def test_one_part_is_whole(self):
        whole, = parts.divided(CODE.encode(), 1)
        self.assertNotIn(b'define hidden', whole)
        self.assertNotIn(b'declare hidden', whole)
        self.assertEqual(whole.count(b'\ndefine '), 3)

    def test_another_form_is_not_read(self):
        for text in (CODE.replace('private unnamed_addr constant', 'internal constant'), CODE.replace('@main', '@start'), ''):
            with self.assertRaises(parts.NotRead):
                parts.divided(text.encode(), 2)


class Lines(unittest.TestCase):
    """How far a build is, and where its tools stand."""

    def test_progress_has_lines_without_a_terminal(self):
        said = io.StringIO()
        with contextlib.redirect_stderr(said):
            progress = trial.Progress()
            progress.tell('reading the crates', 0.5)
            self.assertEqual(said.getvalue(), '')
            progress.start, progress.last = progress.start - 40, progress.last - 40
            progress.tell('reading the crates', 0.5)
            progress.tell('reading the crates', 0.5)
            progress.clear()
        self.assertEqual(said.getvalue(), 'lam: reading the crates; 50% done in 40 s, about 40 s left\n')

    def test_progress_stands_in_place_at_a_terminal(self):
        said = io.StringIO()
        said.isatty = lambda: True
        with contextlib.redirect_stderr(said):
            progress = trial.Progress()
            for _ in range(2):
                progress.last -= 1
                progress.tell('optimising', 0.0)
            progress.clear()
        self.assertEqual(said.getvalue(), '\r\x1b[Klam: optimising; 0% done in 0 s' * 2 + '\r\x1b[K')

    def test_a_link_to_a_tool_is_followed(self):
        with tempfile.TemporaryDirectory() as folder:
            os.mkdir(f'{folder}/tools')
            os.symlink(os.path.join(ROOT, 'tools', 'help.py'), f'{folder}/tools/one')
            os.symlink('one', f'{folder}/tools/two')
            self.assertEqual(trial.home(f'{folder}/tools/two'), ROOT)
            self.assertEqual(trial.home(f'{folder}/tools/three'), folder)
            ran = subprocess.run([f'{folder}/tools/two', 'run'], capture_output=True, text=True, check=False)
            self.assertTrue(ran.stdout.startswith('lam run P W'), ran)


if __name__ == '__main__':
    sys.exit(not unittest.main(argv=sys.argv[:1] + sys.argv[1:], exit=False, verbosity=0).result.wasSuccessful())
