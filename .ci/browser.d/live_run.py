"""What the tests share: a run of tools/live, the program alone, and what is read in the page."""

import atexit
import http.client
import json
import os
import signal
import subprocess
import sys
import tempfile
import unittest
from urllib.parse import urlsplit

from chromium import ENTER, wait

TOP = os.path.dirname(os.path.dirname(os.path.dirname(os.path.realpath(__file__))))
sys.path[1:1] = os.path.join(TOP, 'tools'), os.path.join(TOP, 'tools', 'live.d')
PROGRAM = os.environ.get('PILEPUMICE') or os.path.join(TOP, 'pilepumice')
LIVE = sys.executable, os.path.join(TOP, 'tools', 'live')
RELIEF = os.path.join(TOP, 'examples', 'maunga_whau', 'elevation.asc')
NULL = -1_000_000_000_000_001
TILE = 32
WATER = b'''Depth = LocalDifference of 165 and Elevation
Water = LocalRating of Depth with null for -2000 to 0
new Crater null
Lake = LocalProduct of Water and Crater
Slope = IncrementalGradient of Elevation
'''


def heed_control_c():
    """What a shell puts into the background is told to take no notice of control-C."""
    signal.signal(signal.SIGINT, signal.SIG_DFL)


class Live:
    """tools/live at work."""

    def __init__(self, words):
        self.words = words
        self.process = subprocess.Popen([*LIVE, *words], stdout=subprocess.PIPE, stderr=subprocess.PIPE, preexec_fn=heed_control_c)
        atexit.register(self.end)  # where tests are broken off
        self.beginning = b''
        while (line := self.process.stdout.readline()) and not line.startswith(b'http://'):
            self.beginning += line
        self.address = line.decode().strip()
        url = urlsplit(self.address)
        self.host, self.path = url.netloc, url.path

    def request(self, method, path, body=None, host=None, **headers):
        """The status and the body of what the server answers; `path` is below the token."""
        connection = http.client.HTTPConnection(self.host, timeout=60)
        try:
            connection.request(method, self.path + path, body, {'Host': host or self.host, **headers})
            answer = connection.getresponse()
            return answer.status, answer.read()
        finally:
            connection.close()

    def get(self, path):
        status, body = self.request('GET', path)
        assert status == 200, (status, body)
        return body

    def say(self, lines, **headers):
        status, body = self.request('POST', 'say', json.dumps({'lines': lines, 'shown': {}}), **headers)
        return status, json.loads(body.partition(b'\n')[0]) if status == 200 else body.decode()

    def state(self):
        return json.loads(self.get('state'))['state']

    def lines(self):
        """The lines of the saved session, without the comment that begins it."""
        return self.get('live.session').decode().splitlines()[1:]

    def program_number(self):
        """The process number of the program, which the launcher may have started in its turn."""
        number, below = None, [self.process.pid]
        while below:
            number = below[0]
            with open(f'/proc/{number}/task/{number}/children') as file:
                below = list(map(int, file.read().split()))
        return number

    def end(self):
        """Control-C; answers the status and what was told on standard error."""
        atexit.unregister(self.end)
        if self.process.poll() is None:
            self.process.send_signal(signal.SIGINT)
        _, told = self.process.communicate()
        return self.process.returncode, told.decode()


def play(words, session):
    """What the program writes by itself over a session."""
    return subprocess.run([PROGRAM, *words], input=session, stdout=subprocess.PIPE, stderr=subprocess.DEVNULL).stdout


def grids_after(words, session, names):
    """The rows of layers as the program prints them after a session, by name."""
    asked = b''.join(b'grid ' + name.encode() + b'\n' for name in names)
    text = play(words, session + asked).decode().splitlines()
    starts = [index for index, line in enumerate(text) if line.startswith('ncols ')][-len(names):]
    grids = {}
    for name, start in zip(names, starts):
        rows = int(text[start + 1].split()[1])
        grids[name] = [list(map(int, line.split())) for line in text[start + 6:start + 6 + rows]]
    return grids


def changed_tiles(before, after):
    """The tiles, by row and column from 0, in which two grids differ."""
    return sorted({(row // TILE, column // TILE) for row, (old, new) in enumerate(zip(before, after))
                   for column, (first, second) in enumerate(zip(old, new)) if first != second})


class Case(unittest.TestCase):
    """A test with a folder of its own, in which lies a model file with a crater that can be filled."""

    def setUp(self):
        room = tempfile.TemporaryDirectory()
        self.addCleanup(room.cleanup)
        self.folder = room.name

    def write(self, name, text):
        path = os.path.join(self.folder, name)
        with open(path, 'wb') as file:
            file.write(text)
        return path

    def live(self, words=None):
        live = Live(words or ['run', '2', self.write('water.model', WATER), f'Elevation={RELIEF}'])
        self.addCleanup(live.end)
        return live

    def replays(self, live):
        """The saved session, played by the program alone, has the replies that were saved."""
        self.assertEqual(play(live.words, live.get('live.session')), live.get('live.out'))


class Page:
    """A page of tools/live in the browser."""

    def __init__(self, browser, live):
        self.browser = browser
        browser.go(live.address)
        self.wait_for_layers()

    def wait_for_layers(self):
        self.browser.wait('''return window.live && live.layers.size > 0 && document.querySelectorAll('#layers input:checked').length > 0
            && [...live.layers.values()].every(({cells, missing}) => cells || missing)''', 'the layers to be drawn')

    def turns(self):
        return int(self.browser.run("return document.getElementById('told').dataset.turns || 0"))

    def after(self, act):
        """Acts, and waits until what it sent is answered and drawn."""
        before = self.turns()
        act()
        wait(lambda: self.turns() > before, 'a line to be answered')

    def type(self, line):
        self.after(lambda: self.browser.type('#line', line + ENTER))

    def choose(self, **values):
        """Sets the controls of the brush."""
        for name, value in values.items():
            self.browser.run('''const control = document.getElementById(arguments[0]);
                if (control.type === 'checkbox') control.checked = arguments[1]; else control.value = arguments[1];
                control.dispatchEvent(new Event('change'))''', name, value)

    def hold(self, hand):
        self.browser.click(f'input[name=hand][value={hand}]')

    def place(self, row, column, panel=0):
        """Where the middle of a cell is seen, in pixels of the page. Rows and columns count from 1."""
        return self.browser.run('''const {left, top} = live.panels.panels[arguments[2]].marks.getBoundingClientRect(), {scale, x, y} = live.panels.view;
            return [left + (arguments[1] - 0.5 - x) * scale, top + (arguments[0] - 0.5 - y) * scale]''', row, column, panel)

    def stroke(self, *cells):
        """Moves the mouse over cells with its button held, and lets go."""
        first, *others = [self.place(*cell) for cell in cells]
        moves = [('to', *place) for place in others]
        self.after(lambda: self.browser.pointer(('to', *first), ('down',), *moves, ('up',)))

    def cells(self, name):
        return self.browser.run('''const {cells, rows, columns} = live.layers.get(arguments[0]);
            return Array.from({length: rows}, (_, row) => [...cells.slice(row * columns, (row + 1) * columns)])''', name)

    def pixels(self, name, tile):
        """The colours that are seen in the middle of a tile's cells, row by row, each of red, green, blue and opacity."""
        return self.browser.run('''
            const panel = live.panels.panels.find(({layers}) => layers.some(({name}) => name === arguments[0]));
            const {left, top, width, height} = live.layers.get(arguments[0]).area(arguments[1]), {scale, x, y} = live.panels.view;
            const context = panel.picture.getContext('2d'), {data} = context.getImageData(0, 0, panel.picture.width, panel.picture.height);
            const at = (place) => Math.floor(place * scale * devicePixelRatio);
            return Array.from({length: height}, (_, row) => Array.from({length: width}, (_, column) => {
                const place = 4 * (at(top + row + 0.5 - y) * panel.picture.width + at(left + column + 0.5 - x));
                return [...data.slice(place, place + 4)];
            }))''', name, tile)

    def log(self):
        return self.browser.run("return [...document.getElementById('log').children].map(({textContent}) => textContent)")
