"""tools/fill: worked pictures, two slow ways to the same surface over random grids, and drainage by the program."""

import os
from random import Random

from support import TOP, Case, functions, grid_of, grid_text, process, program, rows_of, tool

UNREACHED = 10 ** 12
AROUND = [(down, right) for down in (-1, 0, 1) for right in (-1, 0, 1) if down or right]


def neighbours(rows, row, column):
    """The cells beside a cell, those off the map as None."""
    for down, right in AROUND:
        y, x = row + down, column + right
        yield (y, x) if 0 <= y < len(rows) and 0 <= x < len(rows[0]) else None


def places(rows):
    return [(row, column) for row in range(len(rows)) for column in range(len(rows[0])) if rows[row][column] is not None]


def is_outlet(rows, row, column):
    return any(it is None or rows[it[0]][it[1]] is None for it in neighbours(rows, row, column))


def settled(rows, step):
    """The filled heights by lowering again and again: first nothing but the outlets has a way out, and each turn gives every
    cell the least height that one of its neighbours lets it have, until no turn changes one."""
    here = places(rows)
    heights = {place: rows[place[0]][place[1]] if is_outlet(rows, *place) else UNREACHED for place in here}
    while True:
        lower = {}
        for place in here:
            ways = [heights[it] + step for it in neighbours(rows, *place) if it in heights]
            lower[place] = heights[place] if is_outlet(rows, *place) else max(rows[place[0]][place[1]], min(ways, default=UNREACHED))
        if lower == heights:
            return [[heights.get((row, column)) for column in range(len(rows[0]))] for row in range(len(rows))]
        heights = lower


def drained(rows, level):
    """The cells that are joined to an outlet by cells up to a level."""
    low = {place for place in places(rows) if rows[place[0]][place[1]] <= level}
    reached = [place for place in low if is_outlet(rows, *place)]
    low -= set(reached)
    for place in reached:
        beside = [it for it in neighbours(rows, *place) if it in low]
        low -= set(beside)
        reached += beside
    return set(reached)


def by_levels(rows):
    """The level lakes: each cell's height is the least level at which it is joined to an outlet."""
    filled = [[None] * len(row) for row in rows]
    for level in sorted({cell for row in rows for cell in row if cell is not None}, reverse=True):
        for row, column in drained(rows, level):
            filled[row][column] = level
    return filled


class Fill(Case):
    def filled(self, rows, *words, **rest):
        self.grid('in.asc', rows, **rest)
        out, told, status = tool('fill', 'in.asc', 'out.asc', *words, folder=self.folder)
        self.assertEqual((told, status), ('', 0))
        self.told = out.decode()
        return rows_of(self.read('out.asc').decode())

    def test_worked(self):
        pit = [[9, 9, 9, 9, 9], [9, 2, 3, 4, 9], [9, 8, 8, 8, 7], [9, 9, 9, 9, 9]]
        self.assertEqual(self.filled(pit, '--step', '0'), [[9, 9, 9, 9, 9], [9, 7, 7, 7, 9], [9, 8, 8, 8, 7], [9, 9, 9, 9, 9]])
        self.assertEqual(self.told, 'out.asc: 3 of 20 cells raised, by 5 at most\n')
        self.assertEqual(self.filled(pit), [[9, 9, 9, 9, 9], [9, 10, 9, 8, 9], [9, 10, 9, 8, 7], [9, 9, 9, 9, 9]])
        self.assertEqual(self.told, 'out.asc: 5 of 20 cells raised, by 8 at most\n')

    def test_a_null_is_an_outlet(self):
        rows = [[9] * 5, [9, 5, 6, 7, 9], [9, 6, None, 6, 9], [9, 7, 6, 7, 9], [9] * 5]
        self.assertEqual(self.filled(rows), rows)
        self.assertEqual(self.told, 'out.asc: 0 of 25 cells raised\n')

    def test_random_grids(self):
        random, fill = Random(49), functions('fill').fill
        for _ in range(60):
            height, width, most = random.randint(1, 12), random.randint(1, 12), random.choice([2, 9, 100])
            share = random.choice([0, .02, .3])
            rows = [[None if random.random() < share else random.randint(-most, most) for _ in range(width)] for _ in range(height)]
            for step in (0, 1, 7):
                self.assertEqual(fill(grid_of(rows), step), grid_of(settled(rows, step)).cells)
            self.assertEqual(fill(grid_of(rows), 0), grid_of(by_levels(rows)).cells)

    def test_water_runs_out_everywhere(self):
        """By the program: only outlets have no way down, and all rain of the shipped relief, in centimetres, comes out there."""
        relief = rows_of(open(os.path.join(TOP, 'examples', 'maunga_whau', 'elevation.asc')).read())
        random = Random(3)
        rows = [[100 * cell + random.randint(-99, 99) for cell in row] for row in relief]
        rows[40][20] = None
        filled = self.filled(rows)
        session = b'Way = IncrementalDrainage of H\nFlow = IncrementalDrainage of H carrying 1\ngrid Way\ngrid Flow\n'
        out, status = program(['run', '1', '-', 'H=' + self.path('out.asc')], session)
        self.assertEqual(status, 0)
        lines = out.decode().splitlines()[3:]
        size = 6 + len(rows)
        way, flow = rows_of('\n'.join(lines[:size])), rows_of('\n'.join(lines[size:]))
        ends = [place for place in places(filled) if way[place[0]][place[1]] == 0]
        self.assertTrue(all(is_outlet(filled, *place) for place in ends))
        self.assertEqual(sum(flow[row][column] for row, column in ends), len(places(filled)))

    def test_header_nulls_and_projection(self):
        """Null is printed as the number that no height can become: here a cell is raised to what was the null number."""
        self.write('in.prj', 'a projection')
        rows = [[5, 5, 5], [5, 1, 5], [5, None, 5]]
        self.assertEqual(self.filled(rows, null=6), rows)
        self.assertEqual(self.filled([*rows[:2], [5, 5, 5], rows[2]], null=6), [[5, 5, 5], [5, 6, 5], [5, 5, 5], [5, None, 5]])
        self.assertEqual(self.read('out.asc').decode().splitlines()[2:6], ['xllcorner 100', 'yllcorner 200.5', 'cellsize 10', 'NODATA_value -1000000000000001'])
        self.assertEqual(self.read('out.prj'), b'a projection')

    def test_a_name_that_is_no_text(self):
        name = os.fsdecode(b'f\xfclled.asc')
        self.grid('in.asc', [[5]])
        for variables in ({}, {'PYTHONIOENCODING': 'utf-8:strict'}):
            told = process('fill', 'in.asc', name, folder=self.folder, **variables)
            self.assertEqual(told, (b'f\xfclled.asc: 0 of 1 cells raised\n', '', 0))

    def test_a_projection_that_is_there_by_a_link(self):
        self.write('in.prj', 'a projection')
        os.link(self.path('in.prj'), self.path('out.prj'))
        os.symlink('.', self.path('here'))
        self.grid('in.asc', [[5]])
        for path in ('out.asc', 'here/in.asc', './in.asc'):
            self.assertEqual(tool('fill', 'in.asc', path, folder=self.folder), (f'{path}: 0 of 1 cells raised\n'.encode(), '', 0))
        self.assertEqual(self.read('in.prj'), b'a projection')

    def test_refused(self):
        self.refused('fill', 'in.asc', 'out.asc', saying='in.asc: No such file')
        self.write('in.asc', grid_text([[1, 2], [3, 4]]).replace('3', '3.5'))
        self.refused('fill', 'in.asc', 'out.asc', saying="cell 3 is '3.5', which is no whole number (tools/to-grid makes whole numbers; docs/INTEROP.md ")
        top = 10 ** 15
        self.grid('in.asc', [[top] * 3, [top, 1, top], [top] * 3])
        self.refused('fill', 'in.asc', 'out.asc', saying='a filled cell would be above 1000000000000000')
        self.assertFalse(os.path.exists(self.path('out.asc')))
        self.refused('fill', '.', 'out.asc', saying='Is a directory')
        for step in ('-1', 'x'):
            self.assertEqual(tool('fill', 'in.asc', 'out.asc', '--step', step)[2], 2)
