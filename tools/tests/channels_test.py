#!/usr/bin/env python3
"""Tests of tools/align.py, tools/share.py and the channels of tools/why.py.

Usage: tools/tests/channels_test.py

Each test makes runs of small programs, and has the proved program (or the one that LAM_PROGRAM names) compare them.
"""
import os
import re
import subprocess
import sys
import tempfile

HERE = os.path.dirname(os.path.realpath(__file__))
TOOLS = os.path.dirname(HERE)
CLOCK = os.path.join(TOOLS, '..', 'examples', 'cases', 'clock')
sys.path[:0] = [TOOLS, HERE]
import world as worlds                                      # pylint: disable=wrong-import-position
from channels_planted import EXAMPLES, PLANTED, TAGS        # pylint: disable=wrong-import-position
from lam_source import channels, courses, machine, runs, world    # pylint: disable=wrong-import-position
from why import label_of                                    # pylint: disable=wrong-import-position

LAM = os.path.join(TOOLS, '..', 'lam')
ALL = 1000

LENGTH = '''fn main(ann: tag): int {
  region (label{ann;}, caps{ann-}) [] {
    let n: int = length(open_file(root(), "notes"));
    while (n == 7) { }
    region (label{;}, caps{}) [n] { say(text(n)); } catch (e) { }
  } catch (e) { }
  return 0;
}
fn other(ann: tag): int { say("a"); say("b"); return 0; }
'''
# The second thread waits for a monitor that the first holds while it works in Ann's region, and the third for its end.
HELD = '''class Box { value: int; }
fn holder(ann: tag, box: Box): int {
  sync (box) {
    region (label{ann;}, caps{}) [] {
      let i: int = 0;
      while (i < length(open_file(root(), "notes"))) { i = i + 1; }
    } catch (e) { }
  }
  return 0;
}
fn waiter(box: Box): int { sync (box) { say("mine"); } return 0; }
fn main(ann: tag): int {
  let box: Box = new Box();
  let held: thread = spawn(caps{}) holder(ann, box);
  spawn(caps{}) waiter(box);
  return join(held);
}
'''


class Room:
    """A folder with a program and worlds."""

    def __init__(self, folder, program):
        self.folder, self.program = folder, os.path.join(folder, 'it.lam')
        self.write('it.lam', program)

    def write(self, name, text):
        path = os.path.join(self.folder, name)
        with open(path, 'w', encoding='utf-8') as out:
            out.write(text)
        return path

    def world(self, name, notes, *functions):
        threads = ', '.join(f'{{"run": "{it}", "args": [{{"tag": "ann"}}], "caps": {{"plus": [], "minus": ["ann"]}}}}'
                            for it in functions)
        return self.write(name, '{"version": 2, "tags": [{"name": "ann", "kind": "export"}], "tree": [{"path": "notes", '
                          f'"label": "{{ann}}/{{}}", "text": "{notes}"}}], "pipes": [], "threads": [{threads}]}}')

    def path(self, name):
        return os.path.join(self.folder, name)

    def turns(self, world, *stretches):
        """The turns of a run: in each stretch a thread goes on for so many turns, or as long as it can."""
        run = runs.Run(LAM, self.program, world)
        course = courses.Course(run.world, machine.PUBLIC)
        for thread, most in stretches:
            for _ in range(most):
                if course.lives(thread) and run.world.is_ready(thread):
                    course.take(thread)
        return run, course.turns


def tool(name, *words):
    done = subprocess.run([os.path.join(TOOLS, name), *words], capture_output=True, text=True, check=False)
    return done.returncode, done.stdout.splitlines(), done.stderr


def check(what, got, wanted):
    if got != wanted:
        sys.exit(f'DIFFERS  tools/tests/channels_test.py: {what}\n  wanted {wanted!r}\n  got    {got!r}')


def aligned(folder):
    """A second run follows the first, to its end or to where it departs."""
    room = Room(folder, LENGTH)
    first = room.world('first.world', 'abc', 'main', 'other')
    courses.write_book(room.path('first.book'), room.turns(first, (0, ALL), (1, ALL))[1])
    def align(notes, *more):
        other = room.world('other.world', notes, 'main', 'other')
        status, lines, said = tool('align.py', room.program, first, room.path('first.book'), other, '{}/{}',
                                   '-o', room.path('other.book'), *more)
        return status, [line.replace(room.folder + os.sep, '') for line in lines] or said
    check('the same length', align('xyz', '--tries', '2'), (0, ['2 runs, drawn from 0 to 1, each agree 22']))
    status, lines = align('abcd')
    check('another length, pair', (status, lines[0]), (1, 'releases differ 6'))
    check('another length, why', lines[2:4], [
        't0 (main) releases `enter {}/{} caps +{}-{} depth 2 region 1 (4)`, and in the first run it releases `enter {}/{} '
        'caps +{}-{} depth 2 region 1 (3)`', '  it.lam line 5: region (label{;}, caps{}) [n] { say(text(n)); } catch (e) { }'])
    status, lines = align('abcdefg', '--turns', '50')
    check('no book', tool('align.py', room.program, first, room.path('first.book'), first, '{}/{}', '-o', room.program)[:2],
          (1, []))
    check('no way out', (status, lines[2]), (1, 't0 (main) does not come to its next noted turn within 50 unseen turns'))


def shared(folder):
    """Under a fixed share the spy of the clock reads the same for each PIN."""
    del folder
    with tempfile.TemporaryDirectory() as place:
        program = os.path.join(CLOCK, 'clock.lam')
        found = []
        for name in ('clock', 'other'):
            world, book = os.path.join(CLOCK, f'{name}.world'), os.path.join(place, f'{name}.book')
            status, lines, said = tool('share.py', program, world, '{}/{}', '-o', book, '--share', '100', '--rounds', '60')
            check('the shares', (status, lines[0].partition('; ')[2], said), (0, 'times out of sight: 4, late: 0', ''))
            found += [world, book]
        seen = runs.printed(LAM, 'replay', program, *found[:2], '{}/{}')
        check('what the spy says', [line for line in seen.splitlines() if ' say ' in line],
              ['t1 {}/{} say "the PIN is 0000" = done'])
        check('pair', runs.printed(LAM, 'pair', program, *found, '{}/{}').split()[0], 'agree')


def named(folder):
    """The monitor that is held over unseen turns is named, with who waits for it, and who waits for the end."""
    room = Room(folder, HELD)
    run, turns = room.turns(room.world('it.world', 'abc', 'main'), (0, ALL), (1, 6), (2, ALL), (1, ALL), (2, ALL), (0, ALL))
    said = channels.lines(runs.Run(LAM, room.program, room.path('it.world')), turns, machine.PUBLIC)
    check('the run', run.world.threads[2].result, ('value', 0))
    check('stretches', said[:4], [
        'unseen turns between visible ones',
        '  t1 (holder), region 0 at {ann}/{}, line 4: 1 time, 46 unseen turns; meanwhile no other thread took a visible turn',
        '    the loop of line 6: 3 rounds', '    t0 (main) waits for its end'])
    check('monitors', said[4:6], [
        'monitors held at a visible label over unseen turns',
        '  t1 (holder), the monitor of obj<{}/{}|{}/{}|0>, taken at line 3: held over 46 unseen turns of region 0 at {ann}/{}; '
        't2 (waiter) waits for it'])
    check('polls', said[6:], ['loops that poll at a visible label: none'])


# The lines that tell of a channel, as facts.
FACTS = (('stretch', r'  t(\d+) \(\w+\), region \d+ at \S+, line (\d+): (not over)?'),
         ('stretch', r'  t(\d+) \(\w+\), at \S+ from its (start), which is out of sight: (not over)?'),
         ('loop', r'    the loop of line (\d+):'),
         ('monitor', r'  t(\d+) \(\w+\), the monitor of \S+, taken at line (\d+):'),
         ('poll', r'  t(\d+) \(\w+\), lines? ([\d, ]+): (?:[\d to]+ looks?, and (nothing) had changed)?'),
         ('captured', r'  t(\d+) \(\w+\), line (\d+): the entry shows '))


def facts(lines):
    """What the lines of `why.py --channels` say, in the words of channels_planted.py."""
    found = set()
    for line in lines:
        found |= {f'waits t{number}' for number in re.findall(r't(\d+) \(\w+\) waits for it', line)}
        kind, parts = next(((kind, match.groups()) for kind, match in reversed([(kind, re.match(form, line)) for kind, form in FACTS])
                            if match), (None, ()))
        if kind == 'loop':
            found.add(f'loop {parts[0]}')
        elif kind:
            numbers = ' '.join([f't{parts[0]}', *re.findall(r'\w+', parts[1])])
            found.add(f'{"open " if parts[2:] and parts[2] else ""}{kind} {numbers}')
    return sorted(found)


def wanted_of(text):
    return sorted(text.split(', ')) if text else []


def examples(folder):
    """What is said of the examples: but for the loops of cases, how many of which there are is the schedule's."""
    del folder
    for place, programs in EXAMPLES.items():
        for (program, document, book), wanted in programs.items():
            where = os.path.join(TOOLS, '..', 'examples', *place.split('/'))
            run = runs.Run(LAM, os.path.join(where, f'{program}.lam'), os.path.join(where, f'{document}.world'))
            said = facts(channels.lines(run, world.turns_of(runs.text_of(os.path.join(where, f'{book}.book'))), machine.PUBLIC))
            if place.startswith('cases/') and 'loop' not in wanted:
                said = [it for it in said if not it.startswith('loop ')]
            check(f'{place}, {book}.book', said, wanted_of(wanted))


def planted(folder):
    """What is said of planted channels, and of what is none."""
    for name, (program, threads, stretches, observer, wanted) in PLANTED.items():
        room = Room(folder, program)
        short = room.write('it.short', TAGS + ''.join(f'thread {it}\n' for it in threads.split('|')))
        made = worlds.read_world(short, {})
        check(f'{name}, the world', made.faults, [])
        document = room.write('it.world', worlds.document_of(made))
        run, turns = room.turns(document, *stretches)
        said = channels.lines(runs.Run(LAM, room.program, document), turns, label_of(observer, run.texts.tags))
        check(f'{name}\n  ' + '\n  '.join(said), facts(said), wanted_of(wanted))


def main():
    for test in (aligned, shared, named, examples, planted):
        with tempfile.TemporaryDirectory() as folder:
            test(folder)
    print('same     tools/tests/channels_test.py')


if __name__ == '__main__':
    main()
