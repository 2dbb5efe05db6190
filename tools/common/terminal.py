"""A grid in the colours of a terminal: a sign shows two cells, one above the other."""

import os

from common.colours import are_classes, different, usual

PLAIN = '\033[0m'
UPPER, LOWER = '▀', '▄'


def has_colours():
    return os.environ.get('TERM', 'dumb') != 'dumb' and 'NO_COLOR' not in os.environ


def colour_code(colour):
    """The number of a colour: of 24 bits where the terminal says that it has them, else of the 256 that all have."""
    if os.environ.get('COLORTERM') in ('truecolor', '24bit'):
        return '2;{};{};{}'.format(*colour)
    red, green, blue = (round(part * 5 / 255) for part in colour)
    return f'5;{16 + 36 * red + 6 * green + blue}'


def sign(upper, lower):
    """A sign for two cells, each a colour or None for nothing."""
    if upper is None and lower is None:
        return PLAIN + ' '
    if lower is None:
        return f'{PLAIN}\033[38;{colour_code(upper)}m{UPPER}'
    if upper is None:
        return f'{PLAIN}\033[38;{colour_code(lower)}m{LOWER}'
    return f'\033[38;{colour_code(upper)};48;{colour_code(lower)}m{UPPER}'


def step_for(grid, width, height):
    """How many cells go into one, so that the picture has at most so many signs a row, and rows of signs."""
    return max(1, -(-grid.columns // max(1, width)), -(-grid.rows // max(1, 2 * height)))


def key(values, step):
    """What the colours mean."""
    if not values:
        text = 'all null'
    elif are_classes(values):
        colour = usual(values)
        text = '  '.join(f'\033[48;{colour_code(colour(value))}m  {PLAIN} {value}' for value in values)
    else:
        text = f'{values[0]} (dark) to {values[-1]} (light)'
    return text + (f'; one cell of {step} by {step} is drawn' if step > 1 else '')


def draw(grid, width, height):
    """The lines of the picture, and what its colours mean."""
    values = different(grid.cells)
    colour = usual(values) if values else None
    step = step_for(grid, width, height)
    rows = [[None if cell is None else colour(cell) for cell in grid.row(number)[::step]] for number in range(0, grid.rows, step)]
    rows += [[None] * len(rows[0])] * (len(rows) % 2)
    lines = [''.join(map(sign, upper, lower)) + PLAIN for upper, lower in zip(rows[::2], rows[1::2])]
    return lines, key(values, step)
