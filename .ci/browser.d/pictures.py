"""Takes the pictures of README and docs/LIVE.md: a fence that is painted over Maunga Whau with the brush, and the ways that it lengthens;
a crater that is dug out, and the lake in it."""

import os
import tempfile

from animated import animated
from chromium import Chromium
from live_run import RELIEF, TOP, Live, Page

MODEL = b'''Depth = LocalDifference of 165 and Elevation
Water = LocalRating of Depth with null for -2000 to 0
new Crater null
Lake = LocalProduct of Water and Crater
Bands = LocalRatio of Elevation and 10
label Crater 1 dug out
'''
WAYS = b'''Climb = IncrementalGradient of Elevation
Effort = LocalRatio of Climb and 6
new Open 1
Friction = LocalSum of Effort and Open
new Gate null
paint Gate 80 12 80 12 1
Way = FocalProximity of Gate spreading in Friction
'''
FENCE = (52, 44), (66, 44), (72, 46), (87, 46)
STROKE = (56, 23), (55, 26), (57, 32), (61, 33), (63, 28), (61, 23), (57, 24), (58, 28)
SETTLED = 'return !live.panels.isPlanned && [...document.querySelectorAll(".legend")].every(({textContent}) => textContent.length > 8)'


def take(browser, page, folder):
    for name in ('Depth', 'Water'):
        browser.click(f'input[data-layer={name}]')
    browser.run('''const kind = [...document.querySelectorAll("#layers li")].find((item) => item.textContent.includes("Lake")).querySelector("select");
        kind.value = "logarithm";
        kind.dispatchEvent(new Event("change"))''')
    page.type('Wet = LocalSum of Elevation')
    page.hold('paint')
    page.choose(source='Crater', value='1', size=7)
    page.stroke(*STROKE)
    browser.wait("return /dug out/.test(document.querySelector('#panels').textContent)", 'the legend')
    browser.screenshot(os.path.join(folder, 'live-beside.png'))
    browser.run('live.panels.rings = []')
    for name in ('Crater', 'Bands'):
        browser.click(f'input[data-layer={name}]')
    page.choose(arranged='over')
    x, y = page.place(57, 28)
    browser.run('''const [clientX, clientY] = arguments;
        live.panels.panels[0].marks.dispatchEvent(new WheelEvent('wheel', {deltaY: -300, clientX, clientY, cancelable: true}))''', x, y)
    browser.pointer(('to', x, y))
    browser.wait(SETTLED, 'the picture')
    browser.screenshot(os.path.join(folder, 'live-over.png'))


def hold_rings(browser):
    """Keeps rings as they are when they are drawn first."""
    browser.run('''const {panels} = live, ring = panels.ring.bind(panels);
        panels.ring = (layer, tiles) => { ring(layer, tiles); panels.rings.forEach((it) => { it.until = performance.now() + 1e9; }); }''')


def fence(browser, page):
    """Screenshots of a stroke over three layers, and of a line that is refused, each with the milliseconds for which it is seen."""
    for name in ('Gate', 'Climb', 'Effort', 'Friction'):
        browser.click(f'input[data-layer={name}]')
    browser.click('input[data-layer=Way]')
    page.wait_for_layers()
    page.hold('paint')
    page.choose(source='Open', null=True, size=2)
    first, *others = [page.place(*cell) for cell in FENCE]
    browser.run("document.querySelector('aside').scrollTop = 0")
    browser.pointer(('to', *first))
    browser.wait(SETTLED, 'the legends')
    frames = [(browser.screenshot(), 1500)]
    browser.pointer(('down',))
    for place in others:
        browser.pointer(('to', *place))
        frames.append((drawn(browser), 300))
    page.after(lambda: browser.pointer(('up',)))
    browser.wait("return /null/.test(document.querySelector('.legend div[data-layer=Open]').textContent)", 'the legend')
    frames.append((drawn(browser), 2000))
    browser.run('live.panels.rings = []; live.panels.planMarks()')
    for line in ('Far = LocalMaximum of Way', 'Far = LocalRating of Way with null for 0 to 2000'):
        page.type(line)
        page.wait_for_layers()
        browser.wait(SETTLED, 'the legends')
        frames.append((drawn(browser), 2500))
    return frames


def drawn(browser):
    browser.wait('return !live.panels.isPlanned', 'the picture')
    return browser.screenshot()


def scene(browser, folder, model, act):
    """Acts at a page of a run over Maunga Whau with a model file."""
    path = os.path.join(folder, 'model')
    with open(path, 'wb') as file:
        file.write(model)
    live = Live(['run', '2', path, f'Elevation={RELIEF}'])
    try:
        page = Page(browser, live)
        hold_rings(browser)
        return act(page)
    finally:
        live.end()


def main(folder=os.path.join(TOP, 'docs')):
    with tempfile.TemporaryDirectory() as room:
        with Chromium(1240, 820) as browser:
            scene(browser, room, MODEL, lambda page: take(browser, page, folder))
        with Chromium(1000, 700) as browser:
            picture = animated(browser, scene(browser, room, WAYS, lambda page: fence(browser, page)))
            with open(os.path.join(folder, 'live-fence.png'), 'wb') as file:
                file.write(picture)
    return 0
