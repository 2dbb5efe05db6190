"""tools/picture: pixels of small grids that are worked by hand, and a ramp as gdaldem draws it, where that is installed."""

import os
import shutil
from unittest import mock, skipUnless

from png import decode
from support import TOP, Case, call, grid_text, program, tool

CLEAR = (0, 0, 0, 0)
FIRST, SECOND, THIRD = (141, 211, 199, 255), (255, 237, 111, 255), (190, 186, 218, 255)  # the first colours of classes
LOW, HIGH = (38, 84, 60, 255), (250, 246, 236, 255)  # the ends of the ramp
RED, PAPER, INK = (214, 39, 40, 255), (255, 255, 255, 255), (40, 40, 40, 255)


class Picture(Case):
    def picture(self, name, *words, **rest):
        out, told, status = tool('picture', name, 'out.png', *words, folder=self.folder, **rest)
        self.assertEqual((out, told, status), (b'out.png\n', '', 0))
        return decode(self.read('out.png'))

    def test_classes(self):
        self.grid('a.asc', [[7, None, 5], [5, 7, 9]])
        self.assertEqual(self.picture('a.asc', '--pixels', 1), [[SECOND, CLEAR, FIRST], [FIRST, SECOND, THIRD]])
        wide = [[SECOND] * 2 + [CLEAR] * 2 + [FIRST] * 2, [FIRST] * 2 + [SECOND] * 2 + [THIRD] * 2]
        self.assertEqual(self.picture('a.asc', '--pixels', 2), [wide[0], wide[0], wide[1], wide[1]])

    def test_all_null(self):
        self.grid('a.asc', [[None, None]])
        self.assertEqual(self.picture('a.asc', '--pixels', 1), [[CLEAR, CLEAR]])
        self.assertEqual(len(self.picture('a.asc', '--pixels', 1, '--ramp', '--legend')), 2 * 10 + 24)

    def test_usual_size(self):
        for columns, side in ((1, 16), (40, 16), (41, 15), (700, 1)):
            self.grid('a.asc', [[0] * columns])
            picture = self.picture('a.asc')
            self.assertEqual((len(picture), len(picture[0])), (side, columns * side))

    def test_ramp(self):
        """Stops stand at 0, 35, 70 and 100 percent; halfway from the first to the second is the mean of both, rounded up at a half."""
        self.grid('a.asc', [[0, 350, 700, 1000, 175, None]])
        wanted = [LOW, (146, 170, 96, 255), (196, 160, 108, 255), HIGH, (92, 127, 78, 255), CLEAR]
        self.assertEqual(self.picture('a.asc', '--pixels', 1, '--ramp'), [wanted])
        self.grid('a.asc', [list(range(13))])
        picture = self.picture('a.asc', '--pixels', 1)
        self.assertEqual((picture[0][0], picture[0][12]), (LOW, HIGH))
        self.grid('a.asc', [[4, 4]])
        self.assertEqual(self.picture('a.asc', '--pixels', 1, '--ramp')[0], [HIGH, HIGH])

    def test_flow(self):
        """By the logarithm of the value above the least, plus one: 9 of 99 is halfway."""
        self.grid('a.asc', [[1, 10, 100]])
        self.assertEqual(self.picture('a.asc', '--pixels', 1, '--flow'), [[(247, 251, 255, 255), (107, 174, 214, 255), (8, 48, 107, 255)]])

    def test_colours_given(self):
        self.write('colours', '# of cover\n1 10 20 30 open water\n 2 40 50 60\nnv 1 2 3\n')
        self.grid('a.asc', [[1, 2, None]])
        exact = [(10, 20, 30, 255), (40, 50, 60, 255), (1, 2, 3, 255)]
        self.assertEqual(self.picture('a.asc', '--pixels', 1, '--colours', 'colours'), [exact])
        self.write('colours', '0% 0 0 0\n100% 100 200 50\n15 90 90 90\n')
        self.grid('a.asc', [[10, 20, 15, 11]])
        self.assertEqual(self.picture('a.asc', '--pixels', 1, '--colours', 'colours'), [[(0, 0, 0, 255), (100, 200, 50, 255), (90, 90, 90, 255), (18, 18, 18, 255)]])

    def test_labels_beyond_ascii(self):
        """Each letter takes the room of one, also those of whose bytes one ends a line in other alphabets."""
        self.grid('a.asc', [[1]])
        widths = set()
        for label in ('\u00c5ker', 'Aker', '\u00c5ker'.encode('latin-1')):
            self.write('colours', b'1 10 20 30 ' + (label if isinstance(label, bytes) else label.encode()) + b'\r\n')
            widths.add(len(self.picture('a.asc', '--pixels', 1, '--legend', '--colours', 'colours')[0]))
        self.assertEqual(widths, {1 + 3 * 10 + 18 + (6 * len('1 Aker') - 1) * 2})

    @skipUnless(shutil.which('gdaldem') and shutil.which('gdal_translate'), 'GDAL is not installed')
    def test_ramp_as_gdaldem_draws_it(self):
        relief = shutil.copy(os.path.join(TOP, 'examples', 'maunga_whau', 'elevation.asc'), self.folder)  # GDAL writes beside it
        self.write('colours', '0% 38 84 60\n120 9 99 199\n70% 196 160 108\n100% 250 246 236\n')
        call('gdaldem', 'color-relief', '-q', relief, 'colours', 'a.tif', folder=self.folder)
        call('gdal_translate', '-q', '-of', 'PNG', 'a.tif', 'a.png', folder=self.folder)
        theirs, ours = decode(self.read('a.png')), self.picture(relief, '--pixels', 1, '--colours', 'colours')
        self.assertEqual([len(row) for row in theirs], [len(row) for row in ours])
        apart = [abs(a - b) for their_row, row in zip(theirs, ours) for their, our in zip(their_row, row) for a, b in zip(their[:3], our[:3])]
        self.assertLessEqual(max(apart), 1)  # they reckon with fewer digits

    def test_relief(self):
        """Heights rise by 4 to the east: stretched, by a half. The light is (1/4 + 0.7071) / sqrt(5/4) = 0.8561, which is 0.5086 of the
        way from that on level ground to full light; so 100 becomes 100 + 155 * 0.35 * 0.5086 = 127.6. Falling to the east, the light is
        (-1/4 + 0.7071) / sqrt(5/4) = 0.4089, and 100 becomes 100 * (0.35 + 0.65 * 0.4089 / 0.7071) = 72.6."""
        self.write('colours', '1 100 100 100\n2 0 0 0\n')
        self.grid('a.asc', [[1, 1, 1], [1, 1, None]])
        for row, grey, bare in (([0, 4, 8], 128, 205 + 9), ([8, 4, 0], 73, 149)):
            self.grid('heights.asc', [row, row])
            wanted = (grey, grey, grey, 255)
            self.assertEqual(self.picture('a.asc', '--pixels', 1, '--colours', 'colours', '--classes', '--relief', 'heights.asc'),
                             [[wanted] * 3, [wanted, wanted, (bare, bare, bare, 255)]])
        self.grid('heights.asc', [[None, 5, 5], [5, 5, 5]])
        level = (100, 100, 100, 255)
        self.assertEqual(self.picture('a.asc', '--pixels', 1, '--colours', 'colours', '--classes', '--relief', 'heights.asc'),
                         [[level] * 3, [level, level, (205, 205, 205, 255)]])

    def test_rings_by_an_older_grid(self):
        """Of four tiles two changed: the upper left one, and the lower right one, which is one row high and three columns wide."""
        old = [[1] * 35 for _ in range(33)]
        new = [list(row) for row in old]
        new[10][31], new[32][34] = 1, 1
        old[10][31], old[32][34] = 2, None
        self.grid('old.asc', old)
        self.grid('new.asc', new)
        picture = self.picture('new.asc', '--pixels', 2, '--before', 'old.asc')
        ringed = {(y, x) for y in range(66) for x in range(70) if picture[y][x] == RED}
        first = {(y, x) for y in range(64) for x in range(64) if min(y, x) < 2 or max(y, x) >= 62}
        last = {(y, x) for y in (64, 65) for x in range(64, 70)}
        self.assertEqual(ringed, first | last)
        self.assertEqual({pixel for row in picture for pixel in row}, {RED, FIRST})
        small = self.picture('new.asc', '--pixels', 1, '--before', 'old.asc')
        self.assertEqual(small[32], [FIRST] * 32 + [RED] * 3)
        self.assertEqual([row[32:] for row in small[:32]], [[FIRST] * 3] * 32)
        self.assertEqual(self.picture('new.asc', '--pixels', 1, '--before', 'new.asc'), [[FIRST] * 35] * 33)

    def test_replies_of_the_program(self):
        """The last grid, the labels of the last legend, the tiles that changed since an edit by the last stamps."""
        self.grid('a.asc', [[1] * 40 for _ in range(2)])
        session = b'grid A\npaint A 1 33 1 33 2\nlabel A 2 two\npaint A 1 34 1 34 3\nshow A\nlist\nstamps A\nlegend A\ngrid A\n'
        out, status = program(['run', '1', '-', 'A=' + self.path('a.asc')], session)
        self.assertEqual(status, 0)
        self.write('replies', out)
        plain = self.picture('replies', '--pixels', 2)
        self.assertEqual(plain[0][64:70], [SECOND, SECOND, THIRD, THIRD, FIRST, FIRST])
        ringed = [[RED if x >= 64 else FIRST for x in range(80)] for y in range(4)]
        self.assertEqual(self.picture('replies', '--pixels', 2, '--since', 4), ringed)
        self.assertEqual(self.picture('replies', '--pixels', 2, '--since', 5), plain)
        self.assertEqual(self.picture('-', '--pixels', 2, given=out), plain)
        label = self.picture('replies', '--pixels', 2, '--legend')
        self.assertEqual(len(label[0]), 80 + 3 * 10 + 18 + (6 * len('2 two') - 1) * 2)

    def test_a_grid_from_the_middle_of_replies(self):
        printed = grid_text([[5, 6]], null=-1000000000000001)
        self.write('replies', printed + printed.replace('5 6', '6 5') + 'value A 1 1 6\n')
        self.assertEqual(self.picture('replies', '--pixels', 1), [[SECOND, FIRST]])
        for text in ('NROWS 1 NCOLS\n2 cellsize 1 xllcorner 0 yllcorner 0\n5\n6', 'ncols 2\nnrows 1\nxllcorner 0\nyllcorner 0\ncellsize 1\n5\n6\n\n'):
            self.write('a.asc', text)
            self.assertEqual(self.picture('a.asc', '--pixels', 1), [[FIRST, SECOND]])

    def test_replies_that_are_longer_than_a_grid_may_be(self):
        first, last = (grid_text([row], null=-1000000000000001) for row in ([5, 6], [7, 7, 7]))
        self.write('replies', first + 'value A 1 1 5\n' * 99 + last)
        with mock.patch('common.grid_text.MOST_BYTES', 500):
            self.assertEqual(self.picture('replies', '--pixels', 1), [[FIRST] * 3])

    def test_legend_of_classes(self):
        """A swatch of 18 pixels with an edge stands 10 pixels from the map; each text begins 10 pixels from it, two pixels a dot."""
        self.grid('a.asc', [[1, 7, None]])
        picture = self.picture('a.asc', '--pixels', 4, '--legend')
        self.assertEqual((len(picture), len(picture[0])), (20 + 3 * 24, 12 + 30 + 18 + (6 * len('null') - 1) * 2))
        self.assertEqual([picture[19][12 + 9:12 + 12], picture[43][12 + 9:12 + 12]], [[PAPER, INK, FIRST], [PAPER, INK, SECOND]])
        self.assertEqual(picture[67][12 + 9:12 + 12], [PAPER, INK, CLEAR])
        self.assertEqual({pixel for row in picture[4:] for pixel in row[:12]}, {CLEAR})
        one = ['..#..', '.##..', '..#..', '..#..', '..#..', '..#..', '.###.']
        drawn = [''.join('#' if picture[12 + 2 * y][50 + 2 * x] == INK else '.' for x in range(5)) for y in range(7)]
        self.assertEqual(drawn, one)

    def test_legend_of_a_ramp(self):
        """A strip of 160 pixels, from the greatest value at the top to the least."""
        self.grid('a.asc', [[0, 1000]])
        picture = self.picture('a.asc', '--pixels', 1, '--ramp', '--legend')
        self.assertEqual((len(picture), len(picture[0])), (20 + 160 + 10, 2 + 30 + 18 + (6 * 4 - 1) * 2))
        self.assertEqual((picture[9][12], picture[10][12], picture[10][29], picture[169][12], picture[170][12]), (PAPER, HIGH, HIGH, LOW, PAPER))

    def test_legend_names_the_ring(self):
        self.grid('old.asc', [[1, 2]])
        self.grid('a.asc', [[1, 1]])
        picture = self.picture('a.asc', '--pixels', 1, '--legend', '--before', 'old.asc')
        self.assertEqual(picture[34 + 9][12:12 + 3], [RED, RED, CLEAR])

    def test_every_letter_is_another(self):
        from common.letters import LETTERS
        self.assertEqual(sorted(map(ord, LETTERS)), list(range(0x20, 0x7F)))
        self.assertEqual(len(set(LETTERS.values())), 95)
        self.assertTrue(all(len(rows) == 7 and all(len(row) == 5 and set(row) <= {'#', '.'} for row in rows) for rows in LETTERS.values()))

    def test_refused(self):
        self.grid('a.asc', [[1, 2]])
        self.grid('tall.asc', [[1], [2]])
        self.grid('many.asc', [list(range(13))])
        self.write('short', '1 0 0 0\n')
        self.write('wrong', '1 0 0 0\n2 0 0 256\n')
        self.write('replies', 'ok 1 changed 0 evaluated 0 worked 0\n')
        out = 'out.png'
        self.refused('picture', 'none.asc', out, saying='none.asc: No such file')
        self.refused('picture', 'replies', out, saying='replies: there is no grid in it')
        self.write('replies', 'list -1\n')
        self.refused('picture', 'replies', out, saying='replies: there is no grid in it')
        for line in ('1 0 0', 'x 0 0 0', 'inf 0 0 0', 'nan% 0 0 0', '1 0 0 0.5'):
            self.write('wrong', line)
            self.refused('picture', 'a.asc', out, '--colours', 'wrong', saying='wrong, line 1: a colour is')
        self.write('wrong', 'ok 1 changed 0 evaluated 0 worked 0\nstamps A 1 1\nx\n' + grid_text([[1]], null=-1000000000000001))
        self.refused('picture', 'wrong', out, saying='wrong: the last stamps or the last legend are not as the program writes them')
        self.write('wrong', grid_text([[1, 2]]).replace('2\n', '2.5\n'))
        self.refused('picture', 'wrong', out, saying="wrong: ")
        self.write('wrong', '1 0 0 0\n2 0 0 256\n')
        self.refused('picture', '-', out, saying='standard input: there is no grid in it')
        self.refused('picture', 'a.asc', out, '--relief', 'tall.asc', saying='tall.asc has 2 rows and 1 columns, and a.asc 1 rows and 2 columns')
        self.refused('picture', 'a.asc', out, '--before', 'tall.asc', saying='tall.asc has 2 rows')
        self.refused('picture', 'a.asc', out, '--since', 3, saying='a.asc has no reply to stamps')
        self.refused('picture', 'many.asc', out, '--classes', saying='many.asc has 13 different values')
        self.refused('picture', 'a.asc', out, '--classes', '--colours', 'short', saying='there is no colour for the value 2')
        self.refused('picture', 'a.asc', out, '--colours', 'wrong', saying='wrong, line 2: a colour is')
        self.refused('picture', 'a.asc', 'none/out.png', saying='none/out.png: No such file')
        self.grid('wide.asc', [[1] * 4096] * 6)
        self.refused('picture', 'wide.asc', out, '--pixels', 64, saying='the picture would have 262144 by 384 pixels')
        for words in (('--pixels', 0), ('--flow', '--colours', 'short'), ('--flow', '--ramp'), ('--since', 1, '--before', 'a.asc')):
            self.assertEqual(tool('picture', 'a.asc', out, *words, folder=self.folder)[2], 2)
        self.assertFalse(os.path.exists(self.path(out)))

