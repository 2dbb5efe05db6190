"""What a person does at the page, and whether what is seen is what the program says."""

import re
import unittest

from chromium import Chromium, wait
from live_run import NULL, RELIEF, TILE, Case, Page, changed_tiles, grids_after, play

from common import colours

LAYERS = ['Elevation', 'Crater', 'Depth', 'Water', 'Lake', 'Slope']
CLEAR = [0, 0, 0, 0]
SETTLED = 'return new Set([...live.layers.values()].map(({since}) => since)).size === 1'


def colours_of(grid):
    """How each value of a grid is drawn."""
    values = colours.different(None if cell == NULL else cell for row in grid for cell in row)
    colour = colours.usual(values) if values else None
    return {NULL: CLEAR, **{value: [*colour(value), 255] for value in values}}


def tile_of(grid, tile):
    row, column = (TILE * place for place in tile)
    return [cells[column:column + TILE] for cells in grid[row:row + TILE]]


def setUpModule():
    Browsing.browser = unittest.enterModuleContext(Chromium())


class Browsing(Case):
    def setUp(self):
        super().setUp()
        self.run_of_live = self.live()
        self.page = Page(self.browser, self.run_of_live)

    def grids(self, names=LAYERS):
        """What the program prints after the lines so far, when it is run anew."""
        return grids_after(self.run_of_live.words, self.run_of_live.get('live.session'), names)

    def is_seen(self, grid, name, tiles):
        drawn = colours_of(grid)
        for tile in tiles:
            wanted = [[drawn[cell] for cell in row] for row in tile_of(grid, tile)]
            self.are_same(self.page.pixels(name, tile), wanted, name, tile)

    def are_same(self, found, wanted, *what):
        """Compares row by row, since it takes minutes to tell in what whole grids differ."""
        self.assertEqual(len(found), len(wanted), what)
        for row, (cells, others) in enumerate(zip(found, wanted)):
            self.assertEqual(cells, others, (*what, row))

    def paint(self, *cells, **brush):
        self.page.hold('paint')
        self.page.choose(**{'source': 'Crater', 'value': '1', 'null': False, 'size': 5, **brush})
        self.page.stroke(*cells)


class Strokes(Browsing):
    def test_pixels_of_all_layers_are_those_of_the_printed_grids(self):
        every = [(row, column) for row in range(3) for column in range(2)]
        for name, grid in self.grids().items():
            self.is_seen(grid, name, every)

    def test_pixels_of_changed_tiles_are_those_of_the_printed_grids(self):
        before = self.grids()
        self.paint((57, 24), (62, 30), (55, 36))
        after = self.grids()
        changed = {name: changed_tiles(before[name], after[name]) for name in LAYERS}
        self.assertTrue(changed['Crater'] and changed['Lake'])
        for name, grid in after.items():
            self.is_seen(grid, name, changed[name])
            self.are_same(self.page.cells(name), grid, name)

    def test_only_tiles_that_changed_are_ringed(self):
        before = self.grids()
        self.browser.run('''live.ringed = {};
            const ring = live.panels.ring.bind(live.panels);
            live.panels.ring = (layer, tiles) => { if (tiles.length) live.ringed[layer.name] = tiles; ring(layer, tiles); };''')
        self.paint((57, 24), (62, 30))
        after = self.grids()
        changed = {name: [list(tile) for tile in changed_tiles(before[name], after[name])] for name in LAYERS}
        self.assertEqual(self.browser.run('return live.ringed'), {name: tiles for name, tiles in changed.items() if tiles})
        self.browser.wait('return live.panels.rings.length === 0', 'the rings to fade')

    def test_cells_of_a_stroke_are_painted_and_no_others(self):
        self.paint((40, 10), (40, 14), size=1)
        self.assertEqual(self.run_of_live.lines(), ['paint Crater 40 10 40 14 1'])

    def test_square_is_painted_round_the_cell_that_is_pointed_at(self):
        self.paint((40, 10), size=3)
        self.assertEqual(self.run_of_live.lines(), ['paint Crater 39 9 41 11 1'])

    def test_stroke_over_the_edge_is_cut_there(self):
        self.paint((2, 1), size=5)
        self.assertEqual(self.run_of_live.lines(), ['paint Crater 1 1 4 3 1'])

    def test_null_is_painted(self):
        self.paint((57, 24), size=3)
        self.paint((57, 24), size=1, null=True)
        self.assertEqual(self.run_of_live.lines()[-1], 'paint Crater 57 24 57 24 null')
        self.is_seen(self.grids(['Crater'])['Crater'], 'Crater', [(1, 0)])

    def test_counts_and_time_stand_beside_it(self):
        self.paint((57, 24), size=3)
        reply = self.run_of_live.get('live.out').decode().splitlines()[-1]
        told = self.browser.text('#told')
        self.assertRegex(told, re.escape(reply) + r' \| program [0-9.]+ ms, drawn [0-9]+ ms')

    def test_refused_value_changes_nothing(self):
        before = self.grids(['Crater'])
        self.paint((57, 24), value='much')
        self.assertIn('refused syntax', self.browser.text('#told'))
        self.assertEqual(self.grids(['Crater']), before)
        self.assertEqual(self.page.cells('Crater'), before['Crater'])

    def test_undo_takes_the_newest_line_back(self):
        before = self.grids()
        self.paint((57, 24), (62, 30))
        lines = self.run_of_live.lines()
        for _ in lines:
            self.page.after(lambda: self.browser.click('#undo'))
        self.assertEqual(self.run_of_live.lines(), lines + ['undo'] * len(lines))
        self.assertEqual(self.grids(), before)
        for name in ('Crater', 'Lake'):
            self.is_seen(before[name], name, [(1, 0)])
            self.are_same(self.page.cells(name), before[name], name)


class LargeMaps(Browsing):
    """A map of 70 tiles, of whose cells only those in sight are asked for first."""

    NAMES = ['Relief', 'Around', 'Steep']

    def live(self):
        rows = '\n'.join(' '.join(str((7 * row + 13 * column) % 50) for column in range(300)) for row in range(200))
        relief = self.write('relief.asc', f'ncols 300\nnrows 200\nxllcorner 0\nyllcorner 0\ncellsize 1\n{rows}\n'.encode())
        model = self.write('model', b'Around = FocalSum of Relief at 9\nSteep = IncrementalGradient of Relief\n')
        return super().live(['run', '2', model, f'Relief={relief}'])

    def stroke_in_view(self, view, *cells, **brush):
        """Paints, with a part of the map in sight. Answers of which layers the cells in sight came alone, and whether the cells in sight
        that were drawn first are those that are there in the end."""
        self.browser.run(f'''Object.assign(live.panels, {{view: {view}, isFitted: false}});
            live.panels.draw();
            const {{panels}} = live, redraw = panels.redraw.bind(panels);
            live.inSight = [];
            live.seen = () => {{
                const {{rows, columns}} = panels.sight();
                return JSON.stringify([...live.layers.values()].map((layer) => rows.map((row) => columns.map((column) => layer.cell(row - 1, column - 1)))));
            }};
            for (const layer of live.layers.values()) {{
                const take = layer.take.bind(layer);
                layer.take = (change, ...rest) => {{
                    if (change.in_sight) live.inSight.push(layer.name);
                    return take(change, ...rest);
                }};
            }}
            panels.redraw = (layers) => {{
                redraw(layers);
                live.first ??= live.seen();
            }}''')
        self.paint(*cells, **{'source': 'Relief', **brush})
        self.browser.wait(SETTLED, 'the rest of the cells')
        return self.browser.run('return [live.inSight, live.first === live.seen()]')

    def is_whole(self):
        for name, grid in self.grids(self.NAMES).items():
            self.are_same(self.page.cells(name), grid, name)

    def test_cells_in_sight_come_first_and_then_the_rest(self):
        in_sight, is_same = self.stroke_in_view('{scale: 16, x: 90, y: 60}', (70, 100), (72, 104), size=1, value=-300)
        self.assertEqual(in_sight, self.NAMES)
        self.assertTrue(is_same)
        self.is_whole()

    def test_cells_between_the_pixels_come_when_the_map_is_seen_small(self):
        in_sight, is_same = self.stroke_in_view('{scale: 0.1, x: -400, y: -400}', (20, 30), (180, 280), size=9, value=7)
        self.assertEqual(in_sight, self.NAMES)
        self.assertTrue(is_same)
        self.is_whole()

    def test_one_tile_and_many_come_whole(self):
        for cells in [(10, 10), (10, 12)], [(20, 30), (180, 280)]:
            in_sight, _ = self.stroke_in_view('{scale: 1, x: -40, y: -20}', *cells, value=99)
            self.assertEqual(in_sight, [])
            self.is_whole()

    def test_stroke_out_of_sight_is_taken_in(self):
        self.browser.run('Object.assign(live.panels, {view: {scale: 16, x: 90, y: 60}, isFitted: false}); live.panels.draw()')
        self.page.type('paint Relief 190 290 200 300 -40')
        self.browser.wait(SETTLED, 'the rest of the cells')
        self.is_whole()


class WidestValues(Browsing):
    """A map with the greatest and the least value, each beside the one next to it. Its last tile is so small that its cells are asked for
    one by one."""

    NAMES = ['Widest', 'Range', 'Turned']
    SIZE = TILE + 2
    MOST = 10 ** 15
    VALUES = [MOST, MOST - 1, NULL, 0, 1 - MOST, -MOST]

    def live(self):
        widest = self.grid_of('widest.asc', [self.VALUES[column % len(self.VALUES)] for column in range(self.SIZE)])
        spread = self.grid_of('range.asc', [2 * self.MOST * column // (self.SIZE - 1) - self.MOST for column in range(self.SIZE)])
        model = self.write('model', b'Turned = LocalDifference of 0 and Widest\n')
        return super().live(['run', '2', model, f'Widest={widest}', f'Range={spread}'])

    def grid_of(self, name, cells):
        """A file with the same cells in each row."""
        rows = self.SIZE * f'{" ".join(map(str, cells))}\n'
        header = f'ncols {self.SIZE}\nnrows {self.SIZE}\nxllcorner 0\nyllcorner 0\ncellsize 1\nNODATA_value {NULL}\n'
        return self.write(name, (header + rows).encode())

    def is_whole(self):
        for name, grid in self.grids(self.NAMES).items():
            self.is_seen(grid, name, [(row, column) for row in range(2) for column in range(2)])
            self.are_same(self.page.cells(name), grid, name)

    def legend(self, name):
        return self.browser.run('''return [...document.querySelectorAll(`.legend div[data-layer=${arguments[0]}] tr`)]
            .map((row) => [...row.children].slice(1).map(({textContent}) => textContent))''', name)

    def test_they_are_drawn_as_the_program_prints_them(self):
        self.assertEqual(self.grids(['Widest'])['Widest'][0][:len(self.VALUES)], self.VALUES)
        self.is_whole()

    def test_they_are_told_under_the_pointer(self):
        for column, value in enumerate(self.VALUES, 1):
            self.browser.pointer(('to', *self.page.place(20, column)))
            told, turned = ('null', 'null') if value == NULL else (value, -value)
            self.assertRegex(self.browser.text('#place'), f'^row 20 column {column}  Widest {told}  Range -?[0-9]+  Turned {turned}$')

    def test_they_are_painted(self):
        for row, column in (10, 12), (self.SIZE, self.SIZE):
            for value in self.MOST, 1 - self.MOST, -self.MOST:
                self.paint((row, column), source='Widest', value=str(value), size=1)
                self.assertEqual(self.run_of_live.lines()[-1], f'paint Widest {row} {column} {row} {column} {value}')
                self.assertIn(f'Widest {value}  ', self.browser.text('#place'))
                self.assertEqual(self.page.cells('Turned')[row - 1][column - 1], -value)
                self.is_whole()
        self.replays(self.run_of_live)

    def test_value_beyond_them_is_refused(self):
        for value in self.MOST + 1, -self.MOST - 1:
            self.paint((10, 12), source='Widest', value=str(value), size=1)
            self.assertIn('refused number', self.browser.text('#told'))
            wait(lambda: f'> paint Widest 10 12 10 12 {value}' in self.page.log(), 'the log')
            self.assertEqual(self.page.log()[-1], f'# a cell is a number from {-self.MOST} to {self.MOST}, or null')
        self.is_whole()

    def test_they_stand_in_the_legends(self):
        counted = play(self.run_of_live.words, b'legend Widest\n').decode().splitlines()[-len(self.VALUES):]
        wanted = [[value, count, ''] for value, count, *_ in map(str.split, counted)]
        self.assertEqual([value for value, *_ in wanted], ['null', *map(str, sorted(set(self.VALUES) - {NULL}))])
        wait(lambda: self.legend('Widest') == wanted, f'the legend {wanted}')
        half = self.MOST // 2
        self.assertEqual(self.legend('Range'), [[str(value)] for value in (self.MOST, half, 0, -half, -self.MOST)])

    def test_field_of_the_brush_shows_them_whole(self):
        self.page.choose(value=str(-self.MOST))
        self.assertTrue(self.browser.run("const {scrollWidth, clientWidth} = document.getElementById('value'); return scrollWidth <= clientWidth"))


class Lines(Browsing):
    def test_refused_line_is_explained_under_its_column(self):
        self.page.type('Wet = LocalSum of Elevation')
        line, caret, reply, sentence = wait(self.page.log, 'the log')
        self.assertEqual(line, '> Wet = LocalSum of Elevation')
        self.assertEqual(caret, ' ' * len(line) + '^')
        self.assertEqual(reply, 'refused syntax 28')
        self.assertIn('ends too early', sentence)

    def test_session_replays_to_the_same_bytes(self):
        self.page.type('Wet = LocalSum of Elevation')
        self.page.type('# the floor of the crater')
        self.page.type('grid Lake')
        self.paint((57, 24), (62, 30))
        self.page.type('paint Lake 1 1 1 1 0')
        self.page.type('legend Lake')
        self.assertEqual(len(self.run_of_live.lines()), 5 + sum(line.startswith('paint Crater') for line in self.run_of_live.lines()))
        self.replays(self.run_of_live)

    def test_new_statement_is_shown(self):
        self.page.type('drop Slope')
        self.page.type('Bands = LocalRatio of Elevation and 10')
        self.browser.wait("return live.layers.get('Bands')?.cells && true", 'the new layer')
        self.is_seen(self.grids(['Bands'])['Bands'], 'Bands', [(0, 0), (2, 1)])

    def test_statement_under_the_pointer_is_the_newest(self):
        self.page.type('Lake = LocalMaximum of Elevation and Crater')
        self.browser.wait('return document.querySelector(\'input[data-layer="Lake"]\').closest("label").title.includes("LocalMaximum") && true', 'the title')

    def test_layer_that_lacks_one_says_so(self):
        self.page.type('drop Crater')
        self.assertIn('undefined Lake: Crater', self.browser.text('#panels'))
        self.page.type('new Crater 1')
        self.browser.wait("return live.layers.get('Lake').cells && true", 'the layer')
        self.assertEqual(self.page.cells('Lake'), self.grids(['Lake'])['Lake'])

    def test_legend_is_the_programs(self):
        self.page.type('label Crater 1 filled')
        self.page.type('symbol Crater 1 ~')
        self.paint((57, 24))
        rows = play(self.run_of_live.words, self.run_of_live.get('live.session') + b'legend Crater\n').decode().splitlines()[-2:]
        self.assertEqual(rows[1].split()[2:], ['~', 'filled'])
        wanted = [[sign if sign == '~' else '', value, count, ' '.join(text)] for value, count, sign, *text in map(str.split, rows)]
        shown = '''return [...document.querySelectorAll('.legend div[data-layer=Crater] tr')]
            .map((row) => [...row.children].map(({textContent}) => textContent))'''
        wait(lambda: self.browser.run(shown) == wanted, f'the legend {wanted}')

    def test_grid_is_saved_with_its_projection(self):
        with open(RELIEF, 'rb') as file:
            relief = self.write('relief.asc', file.read())
        self.write('relief.prj', b'LOCAL_CS["here"]\n')
        words = ['run', '1', '-', f'Relief={relief}']
        live = self.live(words)
        Page(self.browser, live)
        links = self.browser.run("return [...document.querySelectorAll('#layers a')].map(({href, download}) => [href, download])")
        self.assertEqual([name for _, name in links], ['Relief.asc', 'Relief.prj'])
        grid, projection = (live.get(href.removeprefix(live.address)) for href, _ in links)
        self.assertEqual(grid, play(words, b'grid Relief\n').partition(b'\n')[2])
        self.assertEqual(projection, b'LOCAL_CS["here"]\n')

    def test_end_of_the_program_is_shown(self):
        self.page.type('quit')
        self.browser.wait("return !document.getElementById('ended').hidden", 'the end to be shown')
        self.assertEqual(self.browser.text('#ended'), 'the program ended with status 0')


class Looks(Browsing):
    def test_value_under_the_pointer(self):
        with open(RELIEF) as file:
            row = file.read().splitlines()[6 + 68 - 1]
        self.browser.pointer(('to', *self.page.place(68, 31)))
        self.assertIn(f'row 68 column 31  Elevation {row.split()[30]}  Crater null', self.browser.text('#place'))

    def test_value_under_the_pointer_follows_an_edit(self):
        self.paint((57, 24), size=1)
        self.assertIn('row 57 column 24', self.browser.text('#place'))
        self.assertIn('Crater 1', self.browser.text('#place'))

    def test_pixels_hold_when_panned_and_zoomed(self):
        first = self.browser.run('return live.panels.view')
        x, y = self.page.place(57, 24)
        self.browser.run('''const {marks} = live.panels.panels[0], {left, top} = marks.getBoundingClientRect();
            marks.dispatchEvent(new WheelEvent('wheel', {deltaY: -200, clientX: arguments[0], clientY: arguments[1], cancelable: true}))''', x, y)
        self.browser.pointer(('to', x, y), ('down',), ('to', x + 10, y - 14), ('up',))
        self.browser.wait('return !live.panels.isPlanned', 'the picture')
        self.assertGreater(self.browser.run('return live.panels.view.scale'), first['scale'])
        moved = self.page.place(57, 24)
        self.assertAlmostEqual(moved[0], x + 10, delta=1)
        self.assertAlmostEqual(moved[1], y - 14, delta=1)
        scale = self.browser.run('return live.panels.view.scale')
        self.assertGreater(scale, 1)
        grid = self.grids(['Slope'])['Slope']
        seen = self.page.pixels('Slope', (1, 0))[24][24]
        self.assertEqual(seen, colours_of(grid)[grid[56][24]])

    def test_null_of_an_upper_layer_lets_the_lower_one_through(self):
        for name in ('Crater', 'Depth', 'Lake', 'Slope'):
            self.browser.click(f'input[data-layer={name}]')
        self.page.choose(arranged='over')
        grids = self.grids(['Elevation', 'Water'])
        lower, upper = (colours_of(grids[name]) for name in grids)
        wanted = [[upper[above] if above != NULL else lower[below] for below, above in zip(*rows)]
                  for rows in zip(tile_of(grids['Elevation'], (1, 0)), tile_of(grids['Water'], (1, 0)))]
        self.assertIn(NULL, [cell for row in grids['Water'] for cell in row])
        wait(lambda: self.page.pixels('Water', (1, 0)) == wanted, 'one layer over another')
