"""The tools read and print grids as the second program does (.ci/second), which was written from the language's documents alone."""

from random import Random

from support import Case, grid_text

import grids
from common import grid_text as ours
from common.refusals import Refused

STRANGE = ['ncols', 'NROWS', 'dx', '7.5', '7.00', '-7', '+7', '007', '1e3', 'nan', '1000000000000000', '1000000000000001', '-1000000000000001', '9' * 18,
           '9' * 19, '-', '.', '5.', '.5', '0', '4097', '1_0', '1٣', 'x' * 41, '1' * 41, '0' * 5000 + '7', '\x0b', '-0']


def spoiled(random, words):
    words = list(words)
    for _ in range(random.choice([0, 1, 1, 2])):
        at = random.randrange(len(words))
        words[at:at + random.choice([0, 1, 1, 1, 2])] = [random.choice(STRANGE)] * random.choice([0, 1, 1, 1])
    return words


class GridText(Case):
    def test_random_texts(self):
        random, taken = Random(51), 0
        for _ in range(3000):
            rows = [[random.choice([None, 0, 5, -12]) for _ in range(random.randint(1, 3))]] * random.randint(1, 3)
            text = grid_text(rows, null=random.choice([-9999, 0, -2000000001, -10 ** 15 - 1, 10 ** 17]))
            words = spoiled(random, text.split())
            data = ''.join(word + random.choice([' ', '\n', '\r\n', '\t']) for word in words).encode()
            try:
                extent, header, cells = grids.read_grid(data)
            except grids.Refused:
                self.assertRaises(Refused, ours.parse_grid, data, 'it')
                continue
            taken += 1
            grid = ours.parse_grid(data, 'it')
            self.assertEqual((grid.rows, grid.columns, list(grid.header), tuple(grid.cells)), (extent.rows, extent.columns, header, cells))
            self.assertEqual(ours.print_grid(grid).splitlines(), grids.print_grid(extent, header, cells))
        self.assertTrue(500 < taken < 2500, taken)

    def test_place(self):
        first = ours.parse_grid(grid_text([[1, 2]]).encode(), 'it')
        for header, apart in (('xllcenter 105\nyllcenter 205.5\ncellsize 10\n', False), ('xllcorner 100.09\nyllcorner 200.5\ncellsize 10\n', False),
                              ('xllcorner 100.2\nyllcorner 200.5\ncellsize 10\n', True), ('xllcorner 100\nyllcorner 200\ncellsize 10\n', True),
                              ('xllcorner 100\nyllcorner 200.5\ncellsize 11\n', True)):
            self.assertEqual(ours.elsewhere(first, ours.parse_grid(grid_text([[1, 2]], header=header).encode(), 'it')), apart, header)
