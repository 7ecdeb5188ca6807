#!/usr/bin/env python3
"""Times the proved program on inputs at and below its limits, and prints a table for docs/MEASURED.md.

Usage: tools/measure.py [play|format|check ..]      (all of them where none is named)
       LAM_PROGRAM=FILE tools/measure.py ..         (another program than crates/lam/out/lam, which ./lam --prove leaves)
Each input is made anew in a temporary folder; each time is the best of five runs on one core, in seconds.
"""
import os
import subprocess
import sys
import tempfile
import time

from lam_source import last_catch

HERE = os.path.dirname(os.path.abspath(__file__))
LAM = os.environ.get('LAM_PROGRAM') or os.path.join(HERE, '..', 'crates', 'lam', 'out', 'lam')
RUNS = 5


def best_time(words, folder):
    best = None
    for _ in range(RUNS):
        start = time.perf_counter()
        done = subprocess.run([LAM] + words, cwd=folder, stdout=subprocess.DEVNULL)
        took = time.perf_counter() - start
        best = took if best is None else min(best, took)
    return best, done.returncode


def play_script(lines):
    """A third of the lines declare tags, a third actors and cells with labels, a third are steps."""
    third = lines // 3
    text = [f'tag t{n:x}' for n in range(third)]
    for n in range(third):
        text.append(f'actor p{n:x} {{t{n:x}}}/{{}}' if n % 2 else f'cell c{n:x} {{t{n:x}}}/{{}} {n % 10}')
    while len(text) < lines:
        n = 2 * (len(text) % 128)
        text.append(f'p{n + 1:x} read c{n:x}')
    return '\n'.join(text) + '\n'


def steps_script(lines):
    """Nearly all lines are steps on a few cells."""
    text = ['tag a', 'actor p {a}/{} +{}-{a}', 'actor q {}/{}', 'cell c {a}/{} 1', 'cell d {}/{} 0']
    steps = ['p read c', 'p write c 12345', 'p copy c d', 'q read d', 'q read c']
    while len(text) < lines:
        text.append(steps[len(text) % 5])
    return '\n'.join(text) + '\n'


LOOP = ('  while (i < len(ys)) {\n    if (ys[i] > x && i % 2 == 0) {\n      sum = sum + ys[i] * 3 - (x - 1);\n'
        '    } else {\n      sum = sum - 1;\n    }\n    i = i + 1;\n  }\n')


def program(size, last='sum'):
    """Functions of ordinary statements, up to so many bytes; what the last one returns."""
    parts, total, n = [], 0, 0
    while total < size - 2000:
        part = f'fn f{n}(x: int, ys: [int]): int {{\n  let sum: int = 0;\n  let i: int = 0;\n{LOOP * 6}  return sum;\n}}\n\n'
        parts.append(part)
        total += len(part)
        n += 1
    parts[-1] = parts[-1].replace('return sum;', f'return {last};')
    return ''.join(parts)[:-1], n


def classes(count, fields):
    body = ''.join(f'a{n:x}:int;' for n in range(fields))
    return ''.join(f'class C{n:x}{{{body}}}' for n in range(count))


def regions(count):
    each = 'region(label{;},caps{})[]{}catch(e){}'
    per = 64
    return ''.join(f'fn f{n}(){{{each * per}}}' for n in range(count // per))


def table(title, rows):
    print(f'\n{title}\n')
    print('| input | bytes | seconds | status |\n|---|---|---|---|')
    for name, size, seconds, status in rows:
        print(f'| {name} | {size} | {seconds:.3f} | {status} |')


def measure_play(folder):
    rows = []
    for kind, make in (('names', play_script), ('steps', steps_script)):
        for lines in (8192, 16384, 32768, 65536):
            text = make(lines)
            with open(os.path.join(folder, 's'), 'w') as f:
                f.write(text)
            seconds, status = best_time(['play', 's', '{}/{}'], folder)
            rows.append((f'{kind}, {lines} lines', len(text), seconds, status))
    table('`lam play`, observer `{}/{}`', rows)


def measure_program(command, folder):
    rows = []
    for size in (131072, 262144, 524288, 1048576):
        text, count = program(size)
        with open(os.path.join(folder, 'p'), 'w') as f:
            f.write(text)
        seconds, status = best_time([command, 'p'], folder)
        rows.append((f'{count} functions', len(text), seconds, status))
    hostile = [('a mebibyte of `(`', '(' * 1048576), ('a mebibyte of `!`', 'fn f(): int { return ' + '!' * 1048500),
               ('a mebibyte of `/`', '/' * 1048576), ('one identifier', 'a' * 1048576), ('an open text', '"' + 'a' * 1048000)]
    for name, text in hostile:
        with open(os.path.join(folder, 'p'), 'w') as f:
            f.write(text)
        seconds, status = best_time([command, 'p'], folder)
        rows.append((name, len(text), seconds, status))
    if command == 'check':
        full = program(1048576, last='none')[0]
        for name, text in [('1,024 classes of 64 fields', classes(1024, 64)), ('512 classes of 224 fields', classes(512, 224)),
                           ('4,096 regions', regions(4096)), ('a break at the end', full), ('one region too many', regions(4096 + 64))]:
            with open(os.path.join(folder, 'p'), 'w') as f:
                f.write(text)
            seconds, status = best_time([command, 'p'], folder)
            rows.append((name, len(text), seconds, status))
    table(f'`lam {command}`', rows)


def main():
    wanted = sys.argv[1:] or ['play', 'format', 'check']
    with tempfile.TemporaryDirectory() as folder:
        for command in wanted:
            if command == 'play':
                measure_play(folder)
            else:
                measure_program(command, folder)


if __name__ == '__main__':
    last_catch.run(main)
