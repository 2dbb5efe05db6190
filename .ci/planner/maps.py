"""Maps as lists of rows, in which None is null: written for the program and read from it, and what the words of the library and of the
recipes mean for whole maps. Nothing here is taken from the program or from the procedures."""

import heapq
import math
import os
import re
import subprocess
import sys
from fractions import Fraction
from pathlib import Path

TOP = Path(__file__).resolve().parent.parent.parent
PROGRAM = os.environ.get('PROGRAM', str(TOP / 'pilepumice'))
MODEL = TOP / 'library/planner.model'
PROCEDURES = re.findall(r'^procedure (\w+)', MODEL.read_text(), re.M)
GREATEST = 10 ** 15
NULL_NUMBER = -GREATEST - 1


def write_grid(file, rows, side=1, null=NULL_NUMBER):
    cells = '\n'.join(' '.join(str(null if cell is None else cell) for cell in row) for row in rows)
    file.write_text(f'ncols {len(rows[0])}\nnrows {len(rows)}\nxllcorner 0\nyllcorner 0\ncellsize {side}\nNODATA_value {null}\n{cells}\n')


def model_file(folder, language):
    """The library as a model file that sets the language; 1 is set without a line."""
    if language == 1:
        return MODEL
    file = folder / 'library.model'
    file.write_text(f'model {language}\n{MODEL.read_text()}')
    return file


def play(folder, layers, lines, side=1, language=1):
    """What a session answers after the loads and the model file, line by line."""
    for name, rows in layers.items():
        write_grid(folder / name, rows, side)
    words = [PROGRAM, 'run', '1', str(model_file(folder, language)), *(f'{name}={folder / name}' for name in layers)]
    done = subprocess.run(words, input='\n'.join(lines) + '\n', capture_output=True, text=True)
    if done.returncode != 0:
        sys.exit(f'status {done.returncode}: {done.stdout[-400:]}{done.stderr}')
    return done.stdout.splitlines()


def read_cells(lines):
    return [[None if int(word) == NULL_NUMBER else int(word) for word in line.split()] for line in lines]


def answers(folder, layers, calls):
    """The grid of each call, or what refuses it."""
    lines = [line for call in calls for line in (f'X = {call}', 'grid X', 'drop X')]
    replies = play(folder, layers, lines)
    at, found, height = len(layers) + len(PROCEDURES), [], len(next(iter(layers.values())))
    for _ in calls:
        if replies[at].startswith('ok'):
            found.append(read_cells(replies[at + 7:at + 7 + height]))
            at += 8 + height
        else:
            found.append(replies[at])
            at += 3
    return found


def near(rows, r, c):
    """The neighbours of a place on the map, with the length of the step in tenths of a cell."""
    for y in (r - 1, r, r + 1):
        for x in (c - 1, c, c + 1):
            if (y, x) != (r, c) and 0 <= y < len(rows) and 0 <= x < len(rows[0]):
                yield y, x, 10 if y == r or x == c else 14


def places(rows):
    return [(r, c) for r in range(len(rows)) for c in range(len(rows[0]))]


def mapped(rows, cell_at):
    return [[cell_at(r, c) for c in range(len(rows[0]))] for r in range(len(rows))]


def costs(sources, friction):
    """The cost of the cheapest way to each cell: each half of a step costs half its length times the friction of its own cell."""
    found = mapped(sources, lambda r, c: None)
    queue = [(0, r, c) for r, c in places(sources) if sources[r][c] is not None and (friction[r][c] or 0) > 0]
    while queue:
        cost, r, c = heapq.heappop(queue)
        if found[r][c] is None:
            found[r][c] = cost
            for y, x, length in near(sources, r, c):
                if (friction[y][x] or 0) > 0:
                    heapq.heappush(queue, (cost + length * friction[r][c] // 2 + length * friction[y][x] // 2, y, x))
    return found


def slope_percent(height, cell):
    def at(r, c):
        middle = height[r][c]
        if middle is None or cell[r][c] is None or cell[r][c] == 0:
            return None
        side = {}
        for name, (y, x) in dict(a=(-1, -1), b=(-1, 0), c=(-1, 1), d=(0, -1), f=(0, 1), g=(1, -1), h=(1, 0), i=(1, 1)).items():
            inside = 0 <= r + y < len(height) and 0 <= c + x < len(height[0])
            value = height[r + y][c + x] if inside else None
            side[name] = middle if value is None else value
        east = Fraction(side['c'] + 2 * side['f'] + side['i'] - side['a'] - 2 * side['d'] - side['g'], 8 * cell[r][c])
        south = Fraction(side['g'] + 2 * side['h'] + side['i'] - side['a'] - 2 * side['b'] - side['c'], 8 * cell[r][c])
        square = 10_000 * (east * east + south * south)
        return math.isqrt(math.floor(square))
    return mapped(height, at)


def rescale(a):
    values = [cell for row in a for cell in row if cell is not None]
    low, top = (min(values), max(values)) if values else (0, 0)
    return mapped(a, lambda r, c: None if a[r][c] is None or low == top else math.floor(Fraction(100 * (a[r][c] - low), top - low)))


def zone_percent(yes, zones):
    asked = {}
    for r, c in places(yes):
        if yes[r][c] is not None:
            asked.setdefault(zones[r][c], []).append(yes[r][c] != 0)
    share = {zone: math.floor(Fraction(100 * sum(found), len(found))) for zone, found in asked.items() if zone is not None}
    return mapped(yes, lambda r, c: share.get(zones[r][c]))


def nearest(found, friction):
    """The number of the places, each number by itself, from which the way is shortest; of several the least."""
    numbers = sorted({cell for row in found for cell in row} - {None})
    far = {number: costs(mapped(found, lambda r, c: number if found[r][c] == number else None), friction) for number in numbers}
    ways = mapped(found, lambda r, c: [(far[number][r][c], number) for number in numbers if far[number][r][c] is not None])
    return mapped(ways, lambda r, c: min(ways[r][c])[1] if ways[r][c] else None)


def near_places(found, reach):
    far = costs(found, mapped(found, lambda r, c: 1))
    return mapped(far, lambda r, c: None if far[r][c] is None or reach[r][c] is None else int(far[r][c] <= reach[r][c]))


def corridor(a, b, friction):
    out, back = costs(a, friction), costs(b, friction)
    both = mapped(out, lambda r, c: None if out[r][c] is None or back[r][c] is None else out[r][c] + back[r][c])
    least = min((cell for row in both for cell in row if cell is not None), default=None)
    return mapped(both, lambda r, c: None if both[r][c] is None else both[r][c] - least)


def patches(yes):
    number = mapped(yes, lambda r, c: None)
    for r, c in places(yes):
        waiting = [(r, c)] if yes[r][c] and number[r][c] is None else []
        while waiting:
            y, x = waiting.pop()
            if number[y][x] is None:
                number[y][x] = r * len(yes[0]) + c + 1
                waiting += [(v, u) for v, u, _ in near(yes, y, x) if yes[v][u]]
    return number


def patch_cells(patch):
    counts = {}
    for row in patch:
        for cell in row:
            counts[cell] = counts.get(cell, 0) + 1
    return mapped(patch, lambda r, c: None if patch[r][c] is None else counts[patch[r][c]])


def weighted(a, wa, b, wb, c, wc):
    return math.floor(Fraction(a * wa + b * wb + c * wc, wa + wb + wc)) if wa + wb + wc else None
