"""How long a stroke of ten cells takes until all shown layers are seen with it, and a layer's first picture; and the server's memory.

The map has the four layers of the program's sample, and its six statements, all of which are shown. A stroke is timed by the page's
clock, from the time stamp of the mouse's release to the time at which Chromium presented the frame in which the new pictures were
drawn: a word that is put into the page together with them is watched by the Element Timing interface. The driver sends the release,
and then waits without asking."""

import os
import statistics
import sys
import tempfile
import time

from chromium import Chromium, wait
from live_run import Live, Page, TOP

sys.path.insert(1, os.path.join(TOP, '.ci', 'second'))
from second import LAYERS, STATEMENTS

WARM, STROKES = 2, 20
CALM = 2  # seconds after a stroke, in which its rings fade and its legends are asked for
WATCH = '''
    live.stroke = {};
    const {panels} = live, redraw = panels.redraw.bind(panels);
    addEventListener('pointerup', ({timeStamp}) => { live.stroke = {released: timeStamp, heard: performance.now()}; }, true);
    panels.redraw = (layers) => {
        if (live.stroke.taken) { // the rest, which isn't in sight
            redraw(layers);
            live.stroke.whole = performance.now();
            return;
        }
        live.stroke.taken = performance.now();
        redraw(layers);
        live.stroke.whole = live.stroke.drawn = performance.now();
        document.getElementById('watched')?.remove();
        const word = document.createElement('p');
        word.id = 'watched';
        word.setAttribute('elementtiming', 'watched');
        word.textContent = String(layers.length);
        word.style = 'position: fixed; right: 0; top: 40px; margin: 0';
        document.body.append(word);
    };
    new PerformanceObserver((list) => {
        for (const {presentationTime} of list.getEntries()) live.stroke.seen ??= presentationTime;
    }).observe({type: 'element'});'''
STROKE = '''
    const done = arguments[0], look = () => {
        const {stroke} = live;
        const isWhole = [...live.layers.values()].every(({since, asked}) => since === asked);
        if (!stroke.seen || !isWhole) return void setTimeout(look, 100);
        const request = performance.getEntriesByType('resource').filter(({name, startTime}) => name.endsWith('/say') && startTime >= stroke.released)[0];
        const {startTime, requestStart, responseStart, responseEnd, serverTiming, encodedBodySize} = request;
        performance.clearResourceTimings();
        done({...stroke, startTime, requestStart, responseStart, responseEnd, server: serverTiming[0].duration, bytes: encodedBodySize,
              program: Number(document.getElementById('told').dataset.program), layers: Number(document.getElementById('watched').textContent)});
    };
    look();'''
PARTS = {  # what happens between two times of a stroke
    'until the page hears of the release': ('released', 'heard'),
    'until its request is begun': ('heard', 'requestStart'),
    'until the reply begins to come': ('requestStart', 'responseStart'),
    'until it is there': ('responseStart', 'responseEnd'),
    'until its cells are taken in': ('responseEnd', 'taken'),
    'until pictures are drawn': ('taken', 'drawn'),
    'until they are presented': ('drawn', 'seen'),
}


def write_grid(path, size, cell):
    with open(path, 'w') as file:
        file.write(f'ncols {size}\nnrows {size}\nxllcorner 0\nyllcorner 0\ncellsize 1\nNODATA_value -9999\n')
        for row in range(1, size + 1):
            cells = (cell(row, column) for column in range(1, size + 1))
            file.write(' '.join('-9999' if it is None else str(it) for it in cells) + '\n')


def start(folder, size):
    words = ['run', str(os.cpu_count()), os.path.join(folder, 'model')]
    with open(words[2], 'w') as file:
        file.write(STATEMENTS)
    for name, cell in LAYERS.items():
        write_grid(os.path.join(folder, f'{name}.asc'), size, cell)
        words.append(f'{name}={folder}/{name}.asc')
    return Live(words)


def first_picture(browser, name):
    """Milliseconds from the choice of a layer until it is drawn."""
    browser.run('''const [name] = arguments, began = performance.now();
        document.querySelector(`#layers input[data-layer=${name}]`).click();
        const look = () => {
            if (live.layers.get(name)?.cells) live.firstPicture = performance.now() - began;
            else requestAnimationFrame(look);
        };
        delete live.firstPicture;
        look()''', name)
    return wait(lambda: browser.run('return live.firstPicture'), f'the picture of {name}')


def first_pictures(browser):
    names = [line.split()[0] for line in STATEMENTS.splitlines()]
    for box in browser.run("return [...document.querySelectorAll('#layers input:checked')].map(({dataset}) => dataset.layer)"):
        browser.click(f'input[data-layer={box}]')
    return [first_picture(browser, name) for name in names]


class Strokes:
    """Strokes of ten cells, each with its times and the processor time of all who have a part in it, in milliseconds."""

    def __init__(self, live, browser, page, size):
        self.live, self.browser, self.page, self.size = live, browser, page, size
        self.count = 0

    def look(self, row, column, is_zoomed):
        view = '{scale: 4, x: arguments[1] - 20, y: arguments[0] - 20}; live.panels.isFitted = false' if is_zoomed else 'null; live.panels.isFitted = true'
        self.browser.run(f'live.panels.view = {view}; live.panels.draw()', row, column)

    def stroke(self, is_zoomed):
        self.count += 1
        row, column = 1 + (37 * (self.count + 2)) % (self.size - 1), 1 + (53 * (self.count + 2)) % (self.size - 10)
        self.page.choose(value=str(100 * self.count))
        self.look(row, column, is_zoomed)
        self.browser.pointer(('to', *self.page.place(row, column)), ('down',), ('to', *self.page.place(row, column + 9)))
        time.sleep(CALM)
        before = self.processor_times()
        self.browser.pointer(('up',))
        times = self.browser.run_until_told(STROKE)
        after = self.processor_times()
        return times, {part: after[part] - before[part] for part in before}

    def several(self, what, is_zoomed):
        strokes = [self.stroke(is_zoomed) for _ in range(WARM + STROKES)][WARM:]
        tell(what, *zip(*strokes))

    def processor_times(self):
        numbers = {'the program': [self.live.program_number()], 'the server': [self.live.process.pid], **self.browser.processes()}
        return {part: sum(map(processor_time, several)) for part, several in numbers.items()}


def tell(what, times, work):
    def between(first, last):
        return middle([it[last] - it[first] for it in times])
    print(f'{what}: {between("released", "seen")}')
    for part, (first, last) in PARTS.items():
        print(f'    {part}: {between(first, last)}')
    print(f'    all cells of the changed tiles are there, those out of sight too: {between("released", "whole")}')
    for part, key in {'of it the server, with the program': 'server', 'the program over the paint line': 'program'}.items():
        print(f'    {part}: {middle([it[key] for it in times])}')
    print(f'    bytes of the reply: {middle([it["bytes"] for it in times], "")}; layers that changed: {middle([it["layers"] for it in times], "")}')
    processors = {part: statistics.median(it[part] for it in work) for part in work[0] if part != 'others'}
    print('    processor time, in the middle: ' + ', '.join(f'{part} {spent:.0f} ms' for part, spent in processors.items()))


def processor_time(number):
    """Milliseconds that all threads of a process have had so far."""
    total = 0
    for thread in os.listdir(f'/proc/{number}/task'):
        with open(f'/proc/{number}/task/{thread}/schedstat') as file:
            total += int(file.read().split()[0])
    return total / 1e6


def most_memory(number):
    with open(f'/proc/{number}/status') as file:
        return next(int(line.split()[1]) for line in file if line.startswith('VmHWM')) / 1024


def middle(numbers, unit=' ms'):
    return f'{statistics.median(numbers):.0f}{unit} in the middle, {min(numbers):.0f} to {max(numbers):.0f}'


def taken_away():
    """Shares of the processors' time that others' work had, and that the host took away, since the machine was started."""
    with open('/proc/stat') as file:
        return list(map(int, file.readline().split()[1:9]))


def measure(live, browser, size):
    page = Page(browser, live)
    print(f'first picture of a layer: {middle(first_pictures(browser))}')
    page.hold('paint')
    page.choose(source='H', size=1)
    browser.run(WATCH)
    strokes = Strokes(live, browser, page, size)
    strokes.several('stroke of ten cells, zoomed, from the release of the mouse until all layers are seen with it', True)
    strokes.several('the same with the whole map in sight', False)


def main(size='1201'):
    size = int(size)
    with tempfile.TemporaryDirectory() as folder, Chromium() as browser:
        live = start(folder, size)
        before = taken_away()
        print(f'{size} by {size} cells, {len(STATEMENTS.splitlines())} layers shown')
        try:
            measure(live, browser, size)
            memory = most_memory(live.process.pid)
            lines = live.lines()
        finally:
            live.end()
    spent = [last - first for first, last in zip(before, taken_away())]
    print(f"the server's memory: {memory:.0f} MB at most; {len(lines)} lines were sent")
    print(f'load {os.getloadavg()[0]:.0f} on {os.cpu_count()} processors, of whose time {100 * spent[7] / sum(spent):.0f} % was taken away by the host '
          f'and {100 * spent[3] / sum(spent):.0f} % was idle meanwhile')
    return 0
