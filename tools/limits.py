#!/usr/bin/env python3
"""Times the proved program on inputs that are within the limits and take it longest, and prints a table for docs/MEASURED.md.

Usage: tools/limits.py [WORD ..]      (the rows whose name has one of the words; all of them where none is given)
       LAM=PROGRAM tools/limits.py    (another program than crates/lam/out/lam)

Each input is made anew in a temporary folder, and each call is made once: these take seconds. A row has the processor
seconds of the call, the most memory that it held, and how it ended.
"""
import json
import os
import random
import subprocess
import sys
import tempfile
import time

from lam_source import last_catch

HERE = os.path.dirname(os.path.abspath(__file__))
LAM = os.path.abspath(os.environ.get('LAM') or os.path.join(HERE, '..', 'crates', 'lam', 'out', 'lam'))
MILLION = '1000000'


def thread(args=(), plus=(), minus=(), function='main'):
    return {'run': function, 'args': list(args), 'caps': {'plus': list(plus), 'minus': list(minus)}}


def world(threads, tags=(), tree=()):
    return json.dumps({'version': 1, 'tags': list(tags), 'tree': list(tree), 'pipes': [], 'threads': threads})


def bare(text):
    """A program that one thread runs on nothing."""
    return {'P': text, 'W': world([thread()])}


def waiting():
    return bare('class C { v: int; }\n'
                'fn wait(c: C): int { sync (c) { } return 0; }\n'
                'fn main(): int {\n  let c: C = new C();\n  let n: int = 0;\n'
                '  sync (c) {\n    while (n < 4094) { spawn(caps{}) wait(c); n = n + 1; }\n'
                '    while (true) { say("x"); }\n  }\n  return 0;\n}\n')


def many_tags():
    tags = [f't{n}' for n in range(60_000)]
    label = '{' + ','.join(tags) + '}/{}'
    text = ('class C { v: int; }\nfn main(): int {\n'
            '  region (label_of(open_file(root(), "f")), caps{}) [] {\n'
            '    let c: C = new C();\n    while (true) { c.v = c.v + 1; }\n  } catch (e) { }\n  return 0;\n}\n')
    return {'P': text, 'W': world([thread(plus=tags)], tags, [{'path': 'f', 'label': label, 'text': ''}])}


def last_region(which):
    regions = ''.join('  region (label{;}, caps{}) [] { } catch (e) { }\n' for _ in range(4095))
    loop = '  while (true) { region (label{;}, caps{}) [] { } catch (e) { } }\n'
    return bare('fn others(): int {\n' + regions + '  return 0;\n}\nfn main(): int {\n' + loop + '  return 0;\n}\n'
                if which == 'last' else 'fn main(): int {\n' + loop + '  return 0;\n}\nfn others(): int {\n' + regions + '  return 0;\n}\n')


def minting():
    return bare('fn main(): int { let n: int = 0; while (n < 65000) { mint(); n = n + 1; } return 0; }\n')


def holding(body):
    tags = [f't{n}' for n in range(60_000)]
    return {'P': 'fn idle(): int { return 0; }\nfn main(): int {\n  let n: int = 0;\n' + body + '  return 0;\n}\n', 'W': world([thread(plus=tags)], tags)}


def deep(item, count, units=1):
    """Units with a barrier, each with a label of so many items in one expression."""
    body = f'  let b: bool = c.b;\n  let l: label = label{{{", ".join([item] * count)};}};\n  return 0;\n'
    return bare('class C { t: tag; b: bool; }\nfn f(b: bool): tag { return null; }\n'
                + ''.join(f'fn g{n}(c: C): int {{\n{body}}}\n' for n in range(units))
                + 'fn main(): int { return 0; }\n')


def minted(count):
    return bare(f'fn main(): int {{\n  let l: label = label{{{", ".join(["mint()"] * count)};}};\n  return 0;\n}}\n')


def read_by_book(turns):
    """A book of a run that reads 65,536 bytes again and again."""
    return {**reading(), 'B': f'lam book 1\n0 {turns}\n'}


def reading():
    tree = [{'path': 'f', 'label': '{}/{}', 'text': 'x' * 65_536}]
    text = 'fn main(): int { let f: file = open_file(root(), "f"); while (true) { read(f, 0, 65536); } return 0; }\n'
    return {'P': text, 'W': world([thread()], (), tree)}


def byte_values():
    double = '  let b: bytes = "x";\n  let n: int = 0;\n  while (n < 16) { b = cat(b, b); n = n + 1; }\n'
    text = ('fn main(): int {\n' + double + '  let a: [bytes] = new [bytes](25000);\n  n = 0;\n'
            '  while (n < 25000) { a[n] = b; n = n + 1; }\n  return 0;\n}\n')
    return bare(text)


def byte_frames(goes_on='return 0;'):
    double = '  let b: bytes = "x";\n  let n: int = 0;\n  while (n < 16) { b = cat(b, b); n = n + 1; }\n'
    names = ', '.join(f'b{n}: bytes' for n in range(60))
    args = ', '.join(f'b{n}' for n in range(60))
    text = (f'fn deep(n: int, {names}): int {{ if (n == 0) {{ {goes_on} }} return deep(n - 1, {args}); }}\n'
            'fn main(): int {\n' + double + '  return deep(200, ' + ', '.join(['b'] * 60) + ');\n}\n')
    return bare(text)


def removing():
    text = ('fn main(): int {\n  let n: int = 0;\n  while (n < 4090) { make_file(root(), text(n), label{;}); n = n + 1; }\n'
            '  n = 0;\n  while (true) {\n    remove(root(), text(n));\n    make_file(root(), text(n), label{;});\n'
            '    n = n + 1;\n    if (n == 4090) { n = 0; }\n  }\n  return 0;\n}\n')
    return bare(text)


LOOP = ('  while (i < len(ys)) {\n    if (ys[i] > x && i % 2 == 0) {\n      sum = sum + ys[i] * 3 - (x - 1);\n'
        '    } else {\n      sum = sum - 1;\n    }\n    i = i + 1;\n  }\n')


def mebibyte():
    parts, total = [], 0
    while total < 1_045_000:
        parts.append(f'fn f{len(parts)}(x: int, ys: [int]): int {{\n  let sum: int = 0;\n  let i: int = 0;\n{LOOP * 6}  return sum;\n}}\n\n')
        total += len(parts[-1])
    return {'P': ''.join(parts)}


def constants(count):
    """A program of so many constants, none of them twice, in a drawn order."""
    numbers, parts = [*range(1_000_000, 1_000_000 + count)], []
    random.Random(1).shuffle(numbers)
    for at in range(0, count, 30_000):
        lines = ''.join(f'x={number};\n' for number in numbers[at:at + 30_000])
        parts.append(f'fn f{at}(): int {{\n  let x: int = 0;\n{lines}  return x;\n}}\n')
    return {'P': ''.join(parts)}


def own_labels(count):
    """Files with a label each, so that there are as many homes."""
    tree = []
    for n in range(count):
        if n % 4_000 == 0:
            tree.append({'path': f'd{n // 4_000}', 'label': '{}/{}', 'dir': True})
        tree.append({'path': f'd{n // 4_000}/f{n}', 'label': f'{{t{n}}}/{{}}', 'text': 'x'})
    given = bare('fn main(): int { return 0; }\n')
    return {**given, 'W': world([thread()], [f't{n}' for n in range(count)], tree), 'B': 'lam book 1\n0 2\n'}


def run(turns=MILLION):
    return ['run', 'P', 'W', '{}/{}', 'B', '--workers', '1', '--turns', turns]


ROWS = [
    ('4,094 threads that wait, one that speaks, 1,000,000 turns', waiting, run()),
    ('a label of 60,000 tags, accesses, 400,000 turns', many_tags, run('400000')),
    ('entering the first of 4,096 regions, 1,000,000 turns', lambda: last_region('first'), run()),
    ('entering the last of 4,096 regions, 1,000,000 turns', lambda: last_region('last'), run()),
    ('`mint()` 65,000 times', minting, run()),
    ('60,000 capabilities held, 4,000 spawns that pass all',
     lambda: holding('  while (n < 4000) { spawn(my_caps()) idle(); n = n + 1; }\n'), run()),
    ('60,000 capabilities held, 40,000 regions that pass all',
     lambda: holding('  while (n < 40000) { region (label{;}, my_caps()) [] { } catch (e) { } n = n + 1; }\n'), run()),
    ('`read` of 64 KB in a loop, seen, 300,000 turns', reading, run('300000')),
    ('an array of 25,000 byte values of 64 KB', byte_values, run()),
    ('200 frames with 60 byte values of 64 KB', byte_frames, run()),
    ('200 frames with 60 byte values of 64 KB, and then a loop, 1,000,000 turns',
     lambda: byte_frames('while (true) { n = n + 1; } return 0;'), run()),
    ('removing and making the first of 4,090 entries, 1,000,000 turns', removing, run()),
    *((f'`label{{mint(), ..}}` of {count:,}, one turn', lambda count=count: minted(count), run('1'))
      for count in (8_000, 16_000, 32_000, 60_000)),
    *((f'jumps under a deep stack, `label{{f(b && b), ..}}` of {count:,}, one turn', lambda count=count: deep('f(b && b)', count), run('1'))
      for count in (1_350, 2_700, 5_400, 10_800)),
    ('eight units with 10,800 of them', lambda: deep('f(b && b)', 10_800, 8), run('1')),
    *((f'barriers on copies, `label{{c.t, ..}}` of {count:,}, one turn', lambda count=count: deep('c.t', count), run('1'))
      for count in (2_700, 5_400, 10_800, 21_600)),
    ('eight units with 21,600 of them', lambda: deep('c.t', 21_600, 8), run('1')),
    *((f'`walk` of {turns:,} turns that read 64 KB again and again', lambda turns=turns: read_by_book(turns), ['walk', 'P', 'W', 'B'])
      for turns in (37_500, 75_000, 150_000, 300_000)),
    ('`next` of 8,000 files, each with a label of its own', lambda: own_labels(8_000), ['next', 'P', 'W', 'B', 'N']),
    ('`next` of 16,000 of them', lambda: own_labels(16_000), ['next', 'P', 'W', 'B', 'N']),
    ('`next` of 32,000 of them', lambda: own_labels(32_000), ['next', 'P', 'W', 'B', 'N']),
    ('`next` of 64,000 of them', lambda: own_labels(64_000), ['next', 'P', 'W', 'B', 'N']),
    ('`check` of a mebibyte', mebibyte, ['check', 'P']),
    *((f'`check` of {count:,} constants', lambda count=count: constants(count), ['check', 'P']) for count in (21_500, 43_000, 86_000)),
    ('`format` of a mebibyte', mebibyte, ['format', 'P']),
]


def most_held(pid):
    """The most memory that a running process has held, in MB. What the kernel tells after its end counts this tool's own, too."""
    try:
        with open(f'/proc/{pid}/status', encoding='utf-8') as status:
            return next((int(line.split()[1]) / 1024 for line in status if line.startswith('VmHWM:')), 0)
    except OSError:
        return 0


def taken(files, words):
    """The processor seconds of a call, its most memory in MB, and how it ended."""
    with tempfile.TemporaryDirectory() as room:
        for name, text in files.items():
            with open(os.path.join(room, name), 'w', encoding='utf-8') as file:
                file.write(text)
        call = subprocess.Popen([LAM] + words, cwd=room, stdout=subprocess.DEVNULL)
        most, ended = 0, 0
        while not ended:
            most = max(most, most_held(call.pid))
            time.sleep(0.002)
            ended, status, used = os.wait4(call.pid, os.WNOHANG)
        call.returncode = os.waitstatus_to_exitcode(status)
    return used.ru_utime + used.ru_stime, most, call.returncode


def main():
    wanted = sys.argv[1:]
    print('| input | seconds | MB | status |')
    print('|---|---|---|---|')
    for name, files, words in ROWS:
        if not wanted or any(word in name for word in wanted):
            seconds, most, status = taken(files(), words)
            print(f'| {name} | {seconds:.2f} | {most:.0f} | {status} |', flush=True)


if __name__ == '__main__':
    last_catch.run(main)
