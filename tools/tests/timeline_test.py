#!/usr/bin/env python3
"""Tries the page of a run in a browser: keys, search, zoom and addresses.

Usage: tools/tests/timeline_test.py [PICTURE.png]

The browser is chromium without a window. Where it is not installed, or no program is built, the test is left out. With a
PICTURE it also writes one of the page.
"""
import html
import os
import re
import shutil
import subprocess
import sys
import tempfile
import unittest

HERE = os.path.dirname(os.path.realpath(__file__))
sys.path.insert(0, os.path.dirname(HERE))
from lam_source import program  # noqa: E402

WORLDS = os.path.join(program.HERE, 'examples', 'worlds')
BROWSER = next((path for path in map(shutil.which, ('chromium', 'chromium-browser', 'google-chrome')) if path), None)
PICTURE = None
# Runs in the page; each step's result is a line.
SCRIPT = r'''
<script>
const said = [];
const press = (key, more) => document.dispatchEvent(new KeyboardEvent('keydown', { key, bubbles: true, ...more }));
const turn = () => chosen && chosen.turn;
const note = (name, value) => said.push(`${name}: ${value}`);
window.addEventListener('load', () => {
  note('address', turn());
  press('Home'); note('first', turn());
  press('ArrowRight'); note('right', turn());
  press('ArrowLeft'); note('left', turn());
  press('End'); note('last', turn());
  press('ArrowRight'); note('round', turn());
  press('r'); note('release', turn());
  note('told', document.getElementById('told').textContent.split('\n').at(-1));
  note('link', document.querySelector('#link a').getAttribute('href'));
  press('ArrowDown'); note('below', chosen.thread);
  press('ArrowUp'); note('above', chosen.thread);
  field.value = 'kind:say'; field.dispatchEvent(new Event('input'));
  note('found', document.getElementById('count').textContent);
  press('n'); note('match', turn());
  field.value = 'kind:release kind:say'; field.dispatchEvent(new Event('input'));
  note('either', matches().map(e => e.turn));
  field.value = 'thread:sched kind:send'; field.dispatchEvent(new Event('input'));
  note('by words', matches().map(e => e.turn));
  field.value = 'file:cal/alice'; field.dispatchEvent(new Event('input'));
  note('unseen', matches().length);
  watch(run.observers.at(-1));
  note('seen', matches().map(e => e.turn));
  field.value = 'tag:b kind:read_file'; field.dispatchEvent(new Event('input'));
  note('by tag', matches().map(e => e.turn));
  note('dim', document.querySelectorAll('svg .dim').length > 10);
  press('Escape'); note('cleared', [turn(), words.length, document.querySelectorAll('svg .dim').length]);
  const before = document.querySelectorAll('#chart svg')[1].getBoundingClientRect().width;
  press('+'); note('larger', document.querySelectorAll('#chart svg')[1].getBoundingClientRect().width > before * 1.2);
  press('0'); note('fits', document.getElementById('chart').scrollWidth <= document.getElementById('chart').clientWidth + 1);
  location.hash = '#128'; go(); note('hash', turn());
  location.hash = '#129'; go(); note('between', turn());
  location.hash = '#127'; go(); note('joined', turn());
  watch(run.first); location.hash = '#42'; go(); note('hidden', turn());
  document.body.innerHTML = '<pre id="said"></pre>';
  document.getElementById('said').textContent = said.join('\n');
});
</script>
'''
WANTED = {
    'address': '128', 'first': '4', 'right': '7', 'left': '4', 'last': '156', 'round': '4', 'release': '128',
    'told': 'released into region 1 at {}/{}: i = 2, out = pipe<{}/{}|{}/{}|2>, which is out', 'link': '#128', 'below': '3',
    'above': '2', 'found': '1 of 15 events', 'unseen': '0', 'by words': '132', 'dim': 'true', 'cleared': ',0,0', 'larger': 'true', 'fits': 'true',
    'hash': '128', 'between': '132', 'joined': '104', 'hidden': '104', 'either': '128,153', 'match': '153',
}


@unittest.skipUnless(BROWSER and program.found(), 'no chromium, or no program is built')
class Page(unittest.TestCase):
    def setUp(self):
        self.room = tempfile.mkdtemp(prefix='lam-page-')
        self.addCleanup(shutil.rmtree, self.room, ignore_errors=True)

    def made(self, *words):
        out = os.path.join(self.room, 'run.html')
        subprocess.run([os.path.join(program.HERE, 'tools', 'timeline.py'), '../programs/calendar.lam', 'calendar.world',
                        'run_calendar.book', '{}/{}', out, *words], cwd=WORLDS, check=True,
                       env={**os.environ, 'LAM_PROGRAM': program.found()})
        return out

    def browse(self, *words):
        home = f'--user-data-dir={os.path.join(self.room, "home")}'
        return subprocess.run([BROWSER, '--headless', '--no-sandbox', '--disable-gpu', home, '--window-size=1400,900', *words],
                              stdout=subprocess.PIPE, stderr=subprocess.DEVNULL, check=True, timeout=120).stdout.decode()

    def test_keys_search_zoom_and_addresses(self):
        out = self.made()
        with open(out, 'a', encoding='utf-8') as file:
            file.write(SCRIPT)
        page = self.browse('--dump-dom', f'file://{out}#128')
        said = re.search(r'<pre id="said">(.*?)</pre>', page, re.S)
        self.assertTrue(said, page[-2000:])
        found = dict(line.split(': ', 1) for line in html.unescape(said[1]).split('\n'))
        self.assertEqual({name: found.get(name) for name in WANTED}, WANTED, found)
        self.assertEqual((found['seen'], found['by tag']), ('42,45', '45,52'), found)

    def test_a_picture(self):
        if PICTURE is None:
            self.skipTest('no picture is wanted')
        self.browse(f'--screenshot={PICTURE}', f'file://{self.made("--kind", "release", "--kind", "say")}#128')
        self.assertGreater(os.path.getsize(PICTURE), 10_000)


if __name__ == '__main__':
    if len(sys.argv) > 2:
        sys.exit(__doc__)
    PICTURE = os.path.abspath(sys.argv[1]) if len(sys.argv) == 2 else None
    unittest.main(argv=sys.argv[:1])
