"""Grid files: the Arc/Info ASCII text, read and printed."""

import math
import re

GREATEST = 10 ** 15
NULL_NUMBER = -GREATEST - 1
MOST_CELLS = 1_500_000

KEYS = {b'ncols': 'columns', b'nrows': 'rows', b'xllcorner': 'x', b'xllcenter': 'x', b'yllcorner': 'y',
        b'yllcenter': 'y', b'cellsize': 'size', b'nodata_value': 'null'}
NEEDED = {'columns', 'rows', 'x', 'y', 'size'}
WHOLE = re.compile(rb'([+-]?)([0-9]+)(?:\.0*)?')
DECIMAL = re.compile(rb'[+-]?(?:[0-9]+\.?[0-9]*|\.[0-9]+)(?:[eE][+-]?[0-9]+)?')


class Refused(Exception):
    """A line or a load is refused; its text follows `refused `."""


class Extent:
    """Rows and columns of a map; cells and tiles are numbered from 0, row by row."""

    def __init__(self, rows, columns):
        self.rows, self.columns, self.count = rows, columns, rows * columns
        self.tile_rows, self.tile_columns = (rows + 31) // 32, (columns + 31) // 32

    def place(self, row, column):
        """The cell's number, None off the map; row and column count from 0."""
        inside = 0 <= row < self.rows and 0 <= column < self.columns
        return row * self.columns + column if inside else None

    def tiles_near(self, cells, reach):
        """The tiles whose square, grown by the reach, meets one of the cells."""
        found = set()
        for row, column in {divmod(at, self.columns) for at in cells}:
            top, bottom = max(row - reach, 0) // 32, min(row + reach, self.rows - 1) // 32
            left, right = max(column - reach, 0) // 32, min(column + reach, self.columns - 1) // 32
            found.update(r * self.tile_columns + c for r in range(top, bottom + 1) for c in range(left, right + 1))
        return found


def whole(token):
    """The whole number; None where the token is none, infinity where it has more than 18 digits."""
    match = WHOLE.fullmatch(token)
    if not match:
        return None
    digits = match[2].lstrip(b'0')
    if len(digits) > 18:
        return math.inf
    return int(match[1] + (digits or b'0'))


def header_value(kind, text):
    """The value of a header's key, None where it isn't of its form."""
    if kind in ('x', 'y', 'size'):
        return text.decode() if len(text) <= 40 and DECIMAL.fullmatch(text) else None
    number = whole(text)
    if number is None or number == math.inf or (kind != 'null' and number < 0):
        return None
    return number


def read_header(tokens):
    """-> the values by kind, the keys of x and y as they are printed, and how many tokens the header has."""
    values, spelled, place = {}, {}, 0
    while tokens[place][0][:1].isalpha():
        key, at = tokens[place]
        kind = KEYS.get(key.lower())
        if kind is None or kind in values:
            raise Refused(f'key {at}')
        text, at = tokens[place + 1]
        values[kind] = header_value(kind, text)
        spelled[kind] = key.lower().decode()
        if values[kind] is None:
            raise Refused(f'number {at}')
        place += 2
    if NEEDED - values.keys():
        raise Refused(f'key {tokens[place][1]}')
    return values, spelled, place


def read_grid(data):
    """-> the extent, the header lines that are kept, and the cells; Refused at the first fault."""
    end = (b'', len(data) + 1)
    tokens = [(match[0], match.start() + 1) for match in re.finditer(rb'[^ \t\r\n]+', data)] + [end, end]
    values, spelled, place = read_header(tokens)
    rows, columns = values['rows'], values['columns']
    if not (1 <= rows <= 4096 and 1 <= columns <= 4096 and rows * columns <= MOST_CELLS):
        raise Refused(f'limits {rows} {columns}')
    null, cells = values.get('null', -9999), []
    for text, _ in tokens[place:-2][:rows * columns]:
        number = whole(text)
        if number is None:
            raise Refused(f'cell {len(cells) + 1}')
        if number != null and abs(number) > GREATEST:
            raise Refused(f'range {len(cells) + 1}')
        cells.append(None if number == null else number)
    if len(cells) < rows * columns:
        raise Refused(f'few {len(cells)} {rows * columns}')
    if tokens[place + len(cells)] != end:
        raise Refused(f'more {tokens[place + len(cells)][1]}')
    header = [f"{spelled['x']} {values['x']}", f"{spelled['y']} {values['y']}", f"cellsize {values['size']}"]
    return Extent(rows, columns), header, tuple(cells)


def print_grid(extent, header, cells):
    """The lines of a grid's text."""
    texts = [str(NULL_NUMBER if cell is None else cell) for cell in cells]
    width = extent.columns
    rows = [' '.join(texts[first:first + width]) for first in range(0, extent.count, width)]
    return [f'ncols {width}', f'nrows {extent.rows}', *header, f'NODATA_value {NULL_NUMBER}', *rows]
