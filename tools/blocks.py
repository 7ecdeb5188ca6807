#!/usr/bin/env python3
"""Compares the blocks of the pages with what the commands in them print.

Usage: tools/blocks.py [PAGE..]    without a page: README.md, and the pages of docs/ that are named in PAGES

A block is fenced by ``` or indented by four blanks. It shows a command where a line of it begins with `$ `; a status other
than 0 is a line `[status N]`, as in a session. A line `..` stands for any lines of the output that are left out.

* After the comment <!-- in FOLDER --> its commands run in that folder. So do those that begin with ./lam, at the top of the
  repository. The blocks of a page run one after another, in one copy of the examples: a later one finds the earlier one's
  book, and nothing is written into the checkout.
* After the comment <!-- of FILE --> its lines stand in that file, next to each other. Nothing is run.
* Any other block that shows a command stands in one of the sessions, which examples/run plays. In TUTORIAL and RECIPES so
  does every fenced block.

A fence with a word behind it, as ```rust, has no output of a command, and is compared after such a comment alone.
"""
import difflib
import glob
import os
import re
import shlex
import shutil
import stat
import subprocess
import sys
import tempfile

from lam_source import last_catch

HERE = os.path.dirname(os.path.dirname(os.path.realpath(__file__)))
PAGES = ['README.md'] + [f'docs/{name}.md' for name in ('TUTORIAL', 'RECIPES', 'EMBEDDING', 'CALLING', 'COMPARED', 'SECURITY')]
WHOLE = {'docs/TUTORIAL.md', 'docs/RECIPES.md'}    # each fenced block of these stands in a session
COMMENT = re.compile(r'<!-- (in|of) (\S+) -->')
CUT = '..'


class Block:
    """The lines of a block, where it begins, and what the comment before it says."""

    def __init__(self, page, line, fence, comment):
        self.page, self.line, self.fence, self.comment, self.lines = page, line, fence, comment, []

    def shows(self):
        return any(it.startswith('$ ') for it in self.lines)

    def is_compared(self):
        if self.comment or self.shows():
            return True
        return self.fence == '```' and self.page in WHOLE

    def folder(self):
        """Where its commands run, from the top of the repository; None where a session runs them."""
        if self.comment and self.comment[0] == 'in':
            return self.comment[1]
        return '.' if any(it.startswith('$ ./lam ') for it in self.lines) else None


def blocks_of(page):
    """The blocks of a page, from its top."""
    with open(os.path.join(HERE, page), encoding='utf-8') as file:
        lines = file.read().split('\n')
    found, inside, comment, before = [], None, None, ''
    for number, line in enumerate(lines, 1):
        if inside and inside.fence and line.startswith('```'):
            inside = comment = None
        elif inside and inside.fence:
            inside.lines.append(line)
        elif line.startswith('```'):
            inside = Block(page, number, line.rstrip(), comment)
            found.append(inside)
        elif line.startswith('    ') and (inside or not before.strip()):
            if not inside:
                inside = Block(page, number, '', comment)
                found.append(inside)
            inside.lines.append(line[4:])
        elif COMMENT.fullmatch(line.strip()):
            comment = COMMENT.fullmatch(line.strip()).groups()
        elif line.strip():
            inside = comment = None
        before = line
    return found


def text_of(lines):
    return ''.join(f'{line}\n' for line in lines)


def pattern_of(wanted):
    """The texts that wanted lines stand for."""
    return ''.join(r'(?:.*\n)*?' if line == CUT else re.escape(f'{line}\n') for line in wanted)


def is_printed(wanted, text):
    return re.fullmatch(pattern_of(wanted), text) is not None


def stands_in(wanted, text):
    return re.search(f'^{pattern_of(wanted)}', text, re.MULTILINE) is not None


def words_of(command):
    """The program and the words of a command line of a page: lam, cat, or a tool, as `why` or tools/why.py."""
    first, *words = shlex.split(command)
    if first == 'cat':
        return [first, *words]
    tool = os.path.join(HERE, 'tools', f'{os.path.basename(first).removesuffix(".py")}.py')
    if first not in ('lam', './lam') and not os.path.exists(tool):
        raise ValueError(f'no command that is run here: {command}')
    return [os.path.join(HERE, 'lam') if first in ('lam', './lam') else tool, *words]


def output_of(command, folder):
    done = subprocess.run(words_of(command), cwd=folder, stdout=subprocess.PIPE, stderr=subprocess.DEVNULL, check=False)
    status = f'[status {done.returncode}]\n' if done.returncode else ''
    return done.stdout.decode('utf-8', 'replace') + status


def told(block, got):
    """The lines of a block beside what there is."""
    return '\n'.join(difflib.unified_diff(block.lines, got, f'{block.page}:{block.line}', 'is printed', lineterm=''))


def commands_of(block):
    """The commands of a block, each with the lines behind it."""
    found = []
    for line in block.lines:
        if line.startswith('$ '):
            found.append((line, []))
        elif found:
            found[-1][1].append(line)
        else:
            raise ValueError('the block does not begin with a command')
    return found


def run_fault(block, room):
    """What differs in a block whose commands run, command by command."""
    got, fine = [], True
    for command, wanted in commands_of(block):
        text = output_of(command[2:], os.path.join(room, block.folder()))
        same = is_printed(wanted, text)
        fine = fine and same
        got += [command] + (wanted if same else text.rstrip('\n').split('\n'))
    return None if fine else told(block, got)


def fault_of(block, room, sessions):
    """What is wrong with a block, or None."""
    at = f'{block.page}:{block.line}'
    try:
        if block.comment and block.comment[0] == 'of':
            with open(os.path.join(HERE, block.comment[1]), encoding='utf-8') as file:
                return None if stands_in(block.lines, file.read()) else f'{at}: not in {block.comment[1]}'
        if block.folder() is not None:
            return run_fault(block, room)
    except (OSError, ValueError) as fault:
        return f'{at}: {fault}'
    if any(stands_in(block.lines, text) for text in sessions):
        return None
    return f'{at}: in no session, and no comment says where it runs:\n{text_of(block.lines)}'


def copied(room):
    """The repository with examples of its own, which the commands may write into."""
    for name in os.listdir(HERE):
        if name not in ('examples', '.git'):
            os.symlink(os.path.join(HERE, name), os.path.join(room, name))
    examples = shutil.copytree(os.path.join(HERE, 'examples'), os.path.join(room, 'examples'))
    for folder, _, names in os.walk(examples):
        for path in [folder] + [os.path.join(folder, name) for name in names]:
            os.chmod(path, os.stat(path).st_mode | stat.S_IWUSR)
    return room


def sessions_of():
    for path in glob.glob(os.path.join(HERE, 'examples', '**', '*.session'), recursive=True):
        with open(path, encoding='utf-8') as file:
            yield file.read()


def is_same(page, sessions):
    """Whether all blocks of a page are as they are printed; what is not is told."""
    blocks = [it for it in blocks_of(page) if it.is_compared()]
    with tempfile.TemporaryDirectory() as room:
        if any(it.folder() is not None for it in blocks):
            copied(room)
        faults = [it for it in (fault_of(block, room, sessions) for block in blocks) if it]
    for fault in faults:
        print(fault, file=sys.stderr)
    print(f'{"DIFFERS " if faults else "same    "} {page}, {len(blocks)} blocks')
    return not faults


def main():
    pages = [os.path.relpath(os.path.abspath(it), HERE) for it in sys.argv[1:]]
    pages = pages or [it for it in PAGES if os.path.exists(os.path.join(HERE, it))]
    try:
        sessions = list(sessions_of())
        return int(not all([is_same(page, sessions) for page in pages]))
    except (OSError, UnicodeError) as fault:
        return f'blocks: {fault}'


if __name__ == '__main__':
    last_catch.run(main)
