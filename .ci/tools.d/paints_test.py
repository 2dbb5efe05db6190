"""tools/paints: its lines, played on the old grid by hand and by the program, give the new one."""

import os
from random import Random

from support import TOOLS, Case, call, functions, grid_of, program, rows_of, tool


def painted(rows, rectangles):
    rows = [list(row) for row in rows]
    for top, left, bottom, right, cell in rectangles:
        for row in rows[top:bottom + 1]:
            row[left:right + 1] = [cell] * (right + 1 - left)
    return rows


def changed_runs(old, new):
    """How many runs of one new value have a changed cell, row by row: what one line for each run would need."""
    count = 0
    for before, after in zip(old, new):
        start = 0
        for column in range(1, len(after) + 1):
            if column == len(after) or after[column] != after[start]:
                count += before[start:column] != after[start:column]
                start = column
    return count


def drawing(text):
    return [[None if sign == '.' else int(sign) for sign in line] for line in text.split()]


class Paints(Case):
    def paints(self, old, new):
        self.grid('old.asc', old)
        self.grid('new.asc', new, null=77)
        out, told, status = tool('paints', 'old.asc', 'new.asc', 'A', folder=self.folder)
        self.assertEqual((told, status), ('', 0))
        return out.decode().splitlines()

    def test_worked(self):
        cover = drawing('1111 1212 1131 1111')
        self.assertEqual(self.paints(cover, drawing('1111 1222 1222 1111')), ['paint A 2 2 3 4 2'])
        self.assertEqual(self.paints(cover, drawing('1111 12.2 11.1 1111')), ['paint A 2 3 3 3 null'])
        self.assertEqual(self.paints(cover, cover), [])
        self.assertEqual(self.paints(drawing('11 12 12'), drawing('12 12 12')), ['paint A 1 2 1 2 2'])
        cross, disc = drawing('1221 2222 2222 1221'), drawing('11211 12221 22222 12221 11211')
        self.assertEqual(self.paints(drawing('1111 ' * 4), cross), ['paint A 1 2 4 3 2', 'paint A 2 1 3 4 2'])
        self.assertEqual(self.paints(drawing('11111 ' * 5), disc), ['paint A 1 3 5 3 2', 'paint A 2 2 4 4 2', 'paint A 3 1 3 5 2'])

    def test_random_grids(self):
        random, rectangles = Random(50), functions('paints').rectangles
        for number in range(400):
            height, width, kinds = random.randint(1, 14), random.randint(1, 14), random.choice([2, 3, 50])
            value = lambda: random.choice([None, *range(kinds)])
            old = [[value() for _ in range(width)] for _ in range(height)]
            new = [list(row) for row in old]
            for _ in range(random.randint(0, 8)):
                top, left, cell = random.randrange(height), random.randrange(width), value()
                for row in new[top:top + random.randint(1, 6)]:
                    row[left:left + random.randint(1, 6)] = [cell] * len(row[left:left + random.randint(1, 6)])
            new = [row[:width] for row in new]
            new = [row + [0] * (width - len(row)) for row in new]
            found = list(rectangles(grid_of(old), grid_of(new)))
            self.assertEqual(painted(old, found), new)
            self.assertEqual(painted(old, found[::-1]), new)
            self.assertLessEqual(len(found), changed_runs(old, new))
            if number % 80 == 0:
                lines = self.paints(old, new)
                self.assertEqual(len(lines), len(found))
                self.check_by_program(lines, new)

    def check_by_program(self, lines, new):
        out, status = program(['run', '1', '-', 'A=' + self.path('old.asc')], '\n'.join([*lines, 'grid A', '']).encode())
        replies = out.decode().splitlines()
        self.assertEqual(status, 0)
        self.assertTrue(all(reply.startswith('ok ') for reply in replies[:1 + len(lines)]))
        self.assertEqual(rows_of('\n'.join(replies[1 + len(lines):])), new)

    def test_refused(self):
        self.grid('old.asc', [[1, 2]])
        self.grid('new.asc', [[1], [2]])
        self.refused('paints', 'old.asc', 'new.asc', 'A', saying='old.asc has 1 rows and 2 columns, and new.asc 2 rows and 1 columns')
        for name in ('grid', '1A', 'A.b', 'a' * 33):
            self.refused('paints', 'old.asc', 'old.asc', name, saying=f"'{name}' can't be a layer's name")
        self.write('new.asc', 'ok 1 changed 0 evaluated 0 worked 0\n')
        self.refused('paints', 'old.asc', 'new.asc', 'A', saying="'ok' is no key of a grid's header")

    def test_outputs_that_are_closed_or_full(self):
        """Nothing that is told comes among the lines, and lines that can't be written are no success."""
        self.grid('old.asc', [[1, 2]])
        self.grid('new.asc', [[1, 3]], header='xllcorner 110\nyllcorner 200.5\ncellsize 10\n')
        paints = os.path.join(TOOLS, 'paints') + ' old.asc new.asc A '
        self.assertEqual(call('bash', '-c', paints + '2>&-', folder=self.folder), (b'paint A 1 2 1 2 3\n', '', 0))
        self.assertEqual(call('bash', '-c', paints + '>&-', folder=self.folder), (b'', 'paints: standard output is closed\n', 2))
        self.grid('new.asc', [[1, 3]])
        told = call('bash', '-c', paints + '> /dev/full', folder=self.folder, PYTHONUNBUFFERED='')
        self.assertEqual(told, (b'', 'paints: No space left on device\n', 2))

    def test_a_grid_elsewhere_is_told(self):
        self.grid('old.asc', [[1, 2]])
        self.grid('new.asc', [[1, 3]], header='xllcenter 105.000\nyllcenter 2.055e2\ncellsize 10.0\n')
        self.assertEqual(tool('paints', 'old.asc', 'new.asc', 'A', folder=self.folder)[:2], (b'paint A 1 2 1 2 3\n', ''))
        self.grid('new.asc', [[1, 3]], header='xllcorner 110\nyllcorner 200.5\ncellsize 10\n')
        out, told, status = tool('paints', 'old.asc', 'new.asc', 'A', folder=self.folder)
        self.assertEqual((out, status), (b'paint A 1 2 1 2 3\n', 0))
        self.assertIn('new.asc lies elsewhere than old.asc', told)
