#!/usr/bin/env python3
"""Proves and builds the program lam, or another one, and says how far it is. ./lam --prove runs this.

Usage: tools/build.py [PROGRAM]

The crates that PROGRAM, lam where none is named, stands on are copied to a temporary folder, without the crates of tests and without the edits that
must fail, and `rt ci` proves them there, beside each other where their order allows it; LAM_JOBS=N keeps to N
processors. Where the toolchain keeps what an earlier run on this machine has proved, that is not proved again. Each crate
has a line when it is proved. All that the tools said is in build.log. The program, crates/PROGRAM/out/PROGRAM, is given the
time at which its sources were read, so that a source that changed meanwhile is newer.
"""
import os
import re
import shutil
import subprocess
import sys
import tempfile
import threading
import time

import trial

from lam_source import last_catch

HERE = trial.HERE
LOG = os.path.join(HERE, 'build.log')
QUIET = 30          # seconds after which a line says what goes on


def say(text):
    print(f'lam: {text}', file=sys.stderr, flush=True)


def took(seconds):
    return f'{seconds:.0f} s' if seconds < 100 else f'{seconds // 60:.0f} min {seconds % 60:.0f} s'


def lines_below(program):
    """The lines of crates.txt for a program and the crates of the repository that it stands on, by their names."""
    lines, uses = {}, {}
    with open(os.path.join(HERE, 'crates.txt'), encoding='utf-8') as all_lines:
        for line in all_lines:
            name, found, below = line.partition('#')[0].partition(':')
            if found:
                lines[name.split()[0]], uses[name.split()[0]] = line, below.split()
    known, left = set(), [program]
    while left:
        name = left.pop()
        if name in uses and name not in known:
            known.add(name)
            left += uses[name]
    return {name: line for name, line in lines.items() if name in known}


def copy_to(folder, lines):
    """Copies these crates to a folder, as a repository of their own."""
    for name in lines:
        shutil.copytree(os.path.join(HERE, 'crates', name), os.path.join(folder, 'crates', name),
                        ignore=shutil.ignore_patterns('out', 'must-fail', 'edits'))
    with open(os.path.join(folder, 'crates.txt'), 'w', encoding='utf-8') as out:
        out.writelines(lines.values())
    shutil.copy(os.path.join(HERE, 'HANDLES'), folder)


def kept_to():
    """The processors that LAM_JOBS allows, or all."""
    processors = sorted(os.sched_getaffinity(0))
    jobs = os.environ.get('LAM_JOBS', '')
    return processors[:max(int(jobs), 1)] if jobs.isdigit() else processors


def proofs_under(top):
    """The crates that processes below this one are proving now."""
    parents, crates = {}, {}
    for pid in filter(str.isdigit, os.listdir('/proc')):
        try:
            with open(f'/proc/{pid}/stat', encoding='utf-8', errors='replace') as stat:
                parents[pid] = stat.read().rpartition(')')[2].split()[1]
            with open(f'/proc/{pid}/cmdline', encoding='utf-8', errors='replace') as words:
                words = words.read().split('\0')
        except OSError:
            continue
        if '--crate-name' in words:
            crates[pid] = words[words.index('--crate-name') + 1]
    found = set()
    for pid, crate in crates.items():
        up = pid
        while up in parents and up != str(top):
            up = parents[up]
        if up == str(top):
            found.add(crate)
    return found


class Progress:
    """What was proved, and what is being proved since when."""

    def __init__(self, crates):
        self.crates, self.done, self.since = crates, set(), {}
        self.start = self.last = time.monotonic()
        self.lock = threading.Lock()

    def so_far(self):
        return f'{len(self.done)} of {len(self.crates)} crates'

    def look(self, now):
        """Takes note of the crates that are being proved now."""
        with self.lock:
            at = time.monotonic()
            now &= self.crates - self.done
            for crate in now:
                self.since.setdefault(crate, at)
            if at - self.last > QUIET:
                names = ', '.join(sorted(now)) or 'what was proved before is read'
                say(f'{self.so_far()}, {took(at - self.start)}; now {names}')
                self.last = at

    def end(self, crate):
        """A crate was looked at; the proof of one that was kept takes no time and no line."""
        with self.lock:
            if crate not in self.crates:
                return
            self.done.add(crate)
            at = time.monotonic()
            if crate in self.since:
                say(f'{self.so_far()}, {took(at - self.start)}; {crate} took {took(at - self.since.pop(crate))}')
                self.last = at


def prove(program, folder, log):
    """Proves the crates and builds the program in a folder, and answers the lines of those that failed."""
    lines, processors = lines_below(program), kept_to()
    say(f'proving {len(lines)} crates, {len(processors)} at a time; ./lam without --prove does not wait for it')
    copy_to(folder, lines)
    tool = subprocess.Popen(['rt', 'ci'], cwd=folder, stdin=subprocess.DEVNULL, stdout=subprocess.PIPE,
                            stderr=subprocess.STDOUT, text=True, errors='replace',
                            preexec_fn=lambda: os.sched_setaffinity(0, processors))
    progress, ended = Progress(set(lines)), threading.Event()

    def watch():
        while not ended.wait(1):
            progress.look(proofs_under(tool.pid))

    watcher = threading.Thread(target=watch, daemon=True)
    watcher.start()
    failed = []
    for line in tool.stdout:
        log.write(line)
        log.flush()
        done = re.match(r'rt: (\w+) (proved$|is kept:|NOT PROVED)', line)
        if done and done[2] == 'NOT PROVED':
            failed.append(line.strip())
        elif done:
            progress.end(done[1])
    ended.set()
    watcher.join()
    return failed if not tool.wait() else failed or [f'rt ended with status {tool.returncode}']


def put(made, place, moment):
    """Copies the program to its place, so that nobody meets half of it, as old as this moment."""
    os.makedirs(os.path.dirname(place), exist_ok=True)
    shutil.copy(made, f'{place}.new')
    os.utime(f'{place}.new', (moment, moment))
    os.replace(f'{place}.new', place)


def main():
    if len(sys.argv) > 2:
        sys.exit(__doc__)
    start, moment = time.monotonic(), time.time()
    program = sys.argv[1] if len(sys.argv) > 1 else 'lam'
    made = os.path.join('crates', program, 'out', program)
    with tempfile.TemporaryDirectory(prefix='lam-build-') as folder, open(LOG, 'w', encoding='utf-8') as log:
        failed = prove(program, folder, log)
        if not failed:
            put(os.path.join(folder, made), os.path.join(HERE, made), moment)
    for line in failed:
        say(line)
    if not failed:
        say(f'proved and built in {took(time.monotonic() - start)}')
    return 1 if failed else 0


def in_a_line():
    """Builds, and says in a line what stopped it."""
    try:
        return main()
    except KeyboardInterrupt:
        return trial.stopped()
    except OSError as fault:
        say(f'not built: {fault}')
        return 1


if __name__ == '__main__':
    last_catch.run(in_a_line)
