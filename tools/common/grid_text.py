"""Grids in the Arc/Info ASCII text: read as the program reads them, printed as it prints them."""

import contextlib
import math
import os
import re
import shutil

from common.refusals import Refused

GREATEST = 10 ** 15
NULL_NUMBER = -GREATEST - 1  # what null is printed as, since no cell can hold it
USUAL_NULL = -9999
MOST_ROWS = 4096
MOST_CELLS = 1_500_000
MOST_BYTES = 67_108_864
TILE = 32

KINDS = {'ncols': 'columns', 'nrows': 'rows', 'xllcorner': 'x', 'xllcenter': 'x', 'yllcorner': 'y', 'yllcenter': 'y',
         'cellsize': 'side', 'nodata_value': 'null'}
NEEDED = ('columns', 'rows', 'x', 'y', 'side')
TOKEN = re.compile(rb'[^ \t\r\n]+')
WHOLE = re.compile(rb'[+-]?[0-9]+(\.0*)?')
DECIMAL = re.compile(rb'[+-]?(?:[0-9]+\.?[0-9]*|\.[0-9]+)(?:[eE][+-]?[0-9]+)?')


class Grid:
    """Cells row by row from the top, None for null; `header` are the lines of the corner and the cell size."""

    def __init__(self, rows, columns, header, cells):
        self.rows, self.columns, self.header, self.cells = rows, columns, header, cells

    def row(self, number):
        """A row's cells; rows count from 0."""
        return self.cells[number * self.columns:(number + 1) * self.columns]

    def size(self):
        return f'{self.rows} rows and {self.columns} columns'


def whole(token):
    """The whole number that a token writes; None where it writes none, infinity where it has more than 18 digits."""
    if not WHOLE.fullmatch(token):
        return None
    number = token.partition(b'.')[0]
    digits = number.lstrip(b'+-').lstrip(b'0')
    if len(digits) > 18:
        return math.inf
    return int(digits or b'0') * (-1 if number.startswith(b'-') else 1)


def readable(token):
    text = token.decode('ascii', 'backslashreplace')
    return text if len(text) <= 40 else text[:40] + '..'


def header_value(key, token, name):
    kind = KINDS[key]
    if kind in ('x', 'y', 'side'):
        if len(token) <= 40 and DECIMAL.fullmatch(token):
            return token.decode()
    else:
        number = whole(token)
        if number not in (None, math.inf) and (kind == 'null' or number >= 0):
            return number
    raise Refused(f"{name}: the header has '{readable(token)}' for {key}, which is no {'decimal' if kind in ('x', 'y', 'side') else 'whole number'} as it must be")


def read_header(tokens, name):
    """The values by kind, the keys as they are printed, and how many tokens the header has."""
    values, keys, place = {}, {}, 0
    while place < len(tokens) and tokens[place][:1].isalpha():
        key = tokens[place].decode('latin-1').lower()
        kind = KINDS.get(key)
        if kind is None:
            raise Refused(f"{name}: '{readable(tokens[place])}' is no key of a grid's header (ncols, nrows, xllcorner, yllcorner, cellsize, NODATA_value)")
        if kind in values:
            raise Refused(f'{name}: the header has {key} twice')
        if place + 1 == len(tokens):
            raise Refused(f'{name}: the header ends after {key}')
        values[kind], keys[kind] = header_value(key, tokens[place + 1], name), key
        place += 2
    missing = [kind for kind in NEEDED if kind not in values]
    if missing:
        wanted = {kind: key for key, kind in reversed(KINDS.items())}
        raise Refused(f'{name}: this is no grid, or its header lacks {wanted[missing[0]]}')
    return values, keys, place


def read_cells(tokens, null, name):
    """The cells that the tokens write."""
    meaning = {}
    for token in set(tokens):
        number = whole(token)
        meaning[token] = None if number == null else number
        if number is None or number != null and abs(number) > GREATEST:
            refuse_cell(tokens, null, name)
    return [meaning[token] for token in tokens]


def refuse_cell(tokens, null, name):
    """Refuses the first cell that can't be one."""
    for index, token in enumerate(tokens, 1):
        number = whole(token)
        if number is None:
            raise Refused(f"{name}: cell {index} is '{readable(token)}', which is no whole number (tools/to-grid makes whole numbers; docs/INTEROP.md has a way without GDAL)")
        if number != null and abs(number) > GREATEST:
            raise Refused(f'{name}: cell {index} is {readable(token)}, which is beyond {GREATEST}')


def parse_grid(data, name):
    """The grid that the bytes hold; `name` is told where they hold none."""
    if len(data) > MOST_BYTES:
        raise Refused(f'{name}: the file has more than {MOST_BYTES} bytes')
    tokens = TOKEN.findall(data)
    values, keys, place = read_header(tokens, name)
    rows, columns = values['rows'], values['columns']
    if not (1 <= rows <= MOST_ROWS and 1 <= columns <= MOST_ROWS and rows * columns <= MOST_CELLS):
        raise Refused(f'{name}: {rows} rows and {columns} columns are none, or beyond {MOST_ROWS} each or {MOST_CELLS} cells')
    cells = read_cells(tokens[place:place + rows * columns], values.get('null', USUAL_NULL), name)
    if len(tokens) - place != rows * columns:
        raise Refused(f'{name}: there are {len(tokens) - place} cells, and {rows} rows and {columns} columns have {rows * columns}')
    return Grid(rows, columns, tuple(f'{keys[kind]} {values[kind]}' for kind in ('x', 'y', 'side')), cells)


def read_bytes(path):
    with open(path, 'rb') as file:
        return file.read(MOST_BYTES + 1)


def read_grid(path):
    return parse_grid(read_bytes(path), path)


def print_grid(grid):
    """The text of a grid, as the program prints it."""
    head = [f'ncols {grid.columns}', f'nrows {grid.rows}', *grid.header, f'NODATA_value {NULL_NUMBER}']
    texts = [str(NULL_NUMBER) if cell is None else str(cell) for cell in grid.cells]
    lines = [' '.join(texts[first:first + grid.columns]) for first in range(0, len(texts), grid.columns)]
    return '\n'.join(head + lines) + '\n'


def same_size(first, first_name, second, second_name):
    if (first.rows, first.columns) != (second.rows, second.columns):
        raise Refused(f'{first_name} has {first.size()}, and {second_name} {second.size()}')


def corner(grid):
    """The lower left corner and the cells' side, as numbers."""
    (x_key, x), (y_key, y), (_, side) = (line.split() for line in grid.header)
    side = float(side)
    shift = {'corner': 0, 'center': side / 2}
    return float(x) - shift[x_key[3:]], float(y) - shift[y_key[3:]], side


def elsewhere(first, second):
    """Whether two grids lie at places or have cells that differ by more than a hundredth of a cell."""
    x, y, side = corner(first)
    other_x, other_y, other_side = corner(second)
    return abs(other_side - side) * max(first.rows, first.columns) > abs(side) / 100 or max(abs(other_x - x), abs(other_y - y)) > abs(side) / 100


def projection_beside(path):
    return os.path.splitext(path)[0] + '.prj'


def carry_projection(of, to):
    """Copies the .prj beside one grid to the side of another; answers whether there is one."""
    source, target = projection_beside(of), projection_beside(to)
    if not os.path.isfile(source):
        return False
    with contextlib.suppress(shutil.SameFileError):
        shutil.copyfile(source, target)
    return True
