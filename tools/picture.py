#!/usr/bin/env python3
"""Takes the picture of a run, docs/timeline.png, and writes down what it shows, docs/timeline.txt.

Usage: tools/picture.py            takes the picture by Chromium (Debian's package `chromium`), and writes both
       tools/picture.py --check    whether docs/timeline.txt is what the page of that run has now, and the picture its own

The page is that of the calendar in examples/worlds, by tools/timeline.py, with the release chosen. The text has the lanes,
each event, what the page says of the release, and the picture's checksum.
"""
from lam_source import early    # pylint: disable=unused-import,wrong-import-order
import difflib
import hashlib
import json
import os
import re
import shutil
import subprocess
import sys
import tempfile

from lam_source import last_catch

HERE = os.path.dirname(os.path.dirname(os.path.realpath(__file__)))
PICTURE, TEXT = (os.path.join(HERE, 'docs', name) for name in ('timeline.png', 'timeline.txt'))
RUN = ('../programs/calendar.lam', 'calendar.world', 'run_calendar.book', '{a,b}/{}')
SIZE = '1000,860'
PATIENCE = 60     # seconds for the browser


class NoPicture(Exception):
    """The picture, or its text, can't be made."""


def make_page(path):
    """The page of the run, as tools/timeline.py writes it."""
    words = [sys.executable, os.path.join(HERE, 'tools', 'timeline.py'), *RUN, path]
    done = subprocess.run(words, cwd=os.path.join(HERE, 'examples', 'worlds'), stderr=subprocess.PIPE, check=False)
    if done.returncode:
        raise NoPicture(done.stderr.decode('utf-8', 'replace').strip() or 'tools/timeline.py made no page')


def data_of(path):
    """What the page has of the run."""
    with open(path, encoding='utf-8') as file:
        data = re.search(r'^const run = (\{.*\});?$', file.read(), re.MULTILINE)
    try:
        return json.loads(data[1])
    except (TypeError, ValueError) as fault:
        raise NoPicture('the page has its run in another form: data_of of tools/picture.py reads it') from fault


def release_of(data):
    """The event that the picture has chosen."""
    return next(it for it in data['events'] if it['kind'] == 'declassification')


def text_of(data):
    """What the picture shows, but for the picture's checksum."""
    yield f'{" ".join(os.path.basename(word) for word in RUN[:3])}, as {RUN[3]} sees it'
    for number, thread in enumerate(data['threads']):
        yield f't{number} {thread["name"]}, {thread["turns"]} turns'
    for event in data['events']:
        yield f'turn {event["turn"]}: {event["line"]}'
    yield 'chosen:'
    yield from release_of(data)['told'].rstrip('\n').split('\n')


def checksum():
    with open(PICTURE, 'rb') as file:
        return hashlib.sha256(file.read()).hexdigest()


def wanted():
    with tempfile.TemporaryDirectory() as room:
        page = os.path.join(room, 'timeline.html')
        make_page(page)
        return [*text_of(data_of(page)), f'docs/timeline.png {checksum()}']


def check():
    with open(TEXT, encoding='utf-8') as file:
        kept = file.read().rstrip('\n').split('\n')
    lines = list(difflib.unified_diff(kept, wanted(), 'docs/timeline.txt', 'the page of the run', lineterm=''))
    if lines:
        raise NoPicture('\n'.join(lines + ['run tools/picture.py, which takes the picture again']))
    print('same     docs/timeline.png, by docs/timeline.txt')


def take():
    browser = shutil.which('chromium') or shutil.which('chromium-browser')
    if not browser:
        raise NoPicture('there is no chromium; on Debian: apt-get install chromium')
    with tempfile.TemporaryDirectory(ignore_cleanup_errors=True) as room:
        page, taken = os.path.join(room, 'timeline.html'), os.path.join(room, 'timeline.png')
        make_page(page)
        turn = release_of(data_of(page))['turn']
        words = [browser, '--headless', '--no-sandbox', '--disable-gpu', '--hide-scrollbars', f'--user-data-dir={room}/profile',
                 f'--window-size={SIZE}', f'--screenshot={taken}', f'file://{page}#{turn}']
        subprocess.run(words, stdout=subprocess.DEVNULL, stderr=subprocess.DEVNULL, timeout=PATIENCE, check=False)
        if not os.path.exists(taken):
            raise NoPicture('chromium took no picture')
        shutil.copyfile(taken, PICTURE)
    with open(TEXT, 'w', encoding='utf-8') as file:
        file.write('\n'.join(wanted()) + '\n')
    print('taken    docs/timeline.png; look at it before you commit it')


def main():
    if sys.argv[1:] not in ([], ['--check']):
        sys.exit(__doc__)
    try:
        check() if sys.argv[1:] else take()
    except (NoPicture, OSError, UnicodeError, subprocess.SubprocessError) as fault:
        sys.exit(f'picture: {fault}')


if __name__ == '__main__':
    last_catch.run(main)
