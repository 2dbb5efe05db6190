"""Every operation as a function of whole grids, and what an edit's damage and work are for it."""

import heapq
from collections import Counter
from functools import lru_cache
from math import isqrt

from lines import FOCAL, FORMS, SPREADING, ZONAL

EIGHT = ((-1, 0), (-1, 1), (0, 1), (1, 1), (1, 0), (1, -1), (0, -1), (-1, -1))  # N, NE and so on to NW
MOST_VIEWERS = 64


def statistic(name, values):
    if not values:
        return None
    if name == 'Sum':
        return sum(values)
    if name == 'Maximum':
        return max(values)
    if name == 'Minimum':
        return min(values)
    if name == 'Mean':
        return sum(values) // len(values)
    if name == 'Median':
        return sorted(values)[(len(values) - 1) // 2]
    if name == 'Product':
        product = 1
        for value in values:
            product *= value
        return product
    counts = Counter(values)
    if name == 'Majority':
        return min(counts, key=lambda value: (-counts[value], value))
    if name == 'Minority':
        return min(counts, key=lambda value: (counts[value], value))
    return len(counts)


def neighbours(extent, at):
    """The places of the eight neighbours in order, None for those off the map."""
    row, column = divmod(at, extent.columns)
    return [extent.place(row + down, column + right) for down, right in EIGHT]


def local_cell(op, cells):
    if op.extra == 'nulls':
        cells = [cell for cell in cells if cell is not None]
    if None in cells:
        return None
    if op.kind == 'LocalDifference':
        return cells[0] - cells[1]
    if op.kind == 'LocalRatio':
        return cells[0] // cells[1] if cells[1] else None
    if op.kind == 'LocalRating':
        return next((give for give, low, high in op.extra if low <= cells[0] <= high), cells[0])
    return statistic(op.kind[len('Local'):], cells)


def focal(extent, op, grid):
    reach = op.extra or 1
    offsets = [(r, c) for r in range(-reach, reach + 1) for c in range(-reach, reach + 1)
               if op.extra is None or r * r + c * c <= reach * reach]
    result = []
    for at in range(extent.count):
        row, column = divmod(at, extent.columns)
        places = [extent.place(row + r, column + c) for r, c in offsets]
        values = [grid[place] for place in places if place is not None and grid[place] is not None]
        result.append(statistic(op.kind[len('Focal'):], values))
    return result


def zone_statistics(op, values, zones):
    """The statistic of each zone that has values."""
    lists = {}
    for value, zone in zip(values, zones):
        if value is not None and zone is not None:
            lists.setdefault(zone, []).append(value)
    return {zone: statistic(op.kind[len('Zonal'):], listed) for zone, listed in lists.items()}


def form_cell(kind, cell, near):
    """One of the six forms of a cell that isn't null; `near` has None for a neighbour off the map or null."""
    same = [value == cell for value in near]
    if kind == 'IncrementalLinkage':
        return sum(1 << k for k in range(8) if same[k])
    if kind == 'IncrementalLength':
        return sum(7 if k % 2 else 5 for k in range(8) if same[k])
    if kind == 'IncrementalPartition':
        return sum(1 << k for k in range(4) if not same[2 * k])
    if kind == 'IncrementalFrontage':
        return sum(10 for k in range(4) if not same[2 * k])
    n, ne, e, se, s, sw, w, nw = (cell if value is None else value for value in near)
    p, q = (ne + 2 * e + se) - (nw + 2 * w + sw), (nw + 2 * n + ne) - (sw + 2 * s + se)
    return isqrt(p * p + q * q) if kind == 'IncrementalGradient' else aspect(p, q)


def aspect(p, q):
    """The octant to which (-p east, -q north) points; 0 for none."""
    if p == 0 and q == 0:
        return 0
    small, large = sorted((abs(p), abs(q)))
    is_axis = 70 * small <= 29 * large
    east = 0 if is_axis and abs(p) == small else (1 if p < 0 else -1)
    north = 0 if is_axis and abs(q) == small else (1 if q < 0 else -1)
    return 1 + EIGHT.index((-north, east))


def winner(grid, at, near):
    """Which neighbour, from 0, the steepest way down leads to; None for none."""
    best, found = 0, None
    for k, place in enumerate(near):
        if place is not None and grid[place] is not None:
            drop = (grid[at] - grid[place]) * (5 if k % 2 else 7)
            if drop > best:
                best, found = drop, k
    return found


def directions(extent, grid):
    found = [None if cell is None else winner(grid, at, neighbours(extent, at)) for at, cell in enumerate(grid)]
    return [None if cell is None else 0 if way is None else way + 1 for cell, way in zip(grid, found)]


def flow(extent, grid, weights):
    """What a cell carries goes on to its winner; from the highest cell down, all that comes in is there."""
    ways = directions(extent, grid)
    carried = [None if cell is None else weight or 0 for cell, weight in zip(grid, weights)]
    for at in sorted((at for at, cell in enumerate(grid) if cell is not None), key=lambda at: -grid[at]):
        if ways[at]:
            carried[neighbours(extent, at)[ways[at] - 1]] += carried[at]
    return carried


@lru_cache(maxsize=64)
def spread(extent, sources, friction, limit):
    """The least cost of each place, and the least number of a source from which a way costs no more; None where no way leads.
    Found from the least pair of them on: a step adds to the cost and keeps the number."""
    free = [rough is not None and rough >= 1 for rough in friction]
    pairs = [None] * extent.count
    queue = sorted((0, cell, at) for at, cell in enumerate(sources) if cell is not None and free[at])
    while queue:
        cost, number, at = heapq.heappop(queue)
        if pairs[at] is not None or cost > limit:
            continue
        pairs[at] = cost, number
        for k, place in enumerate(neighbours(extent, at)):
            if place is not None and free[place] and pairs[place] is None:
                step = (7 if k % 2 else 5) * (friction[at] + friction[place])
                heapq.heappush(queue, (cost + step, number, place))
    return tuple(pairs)


def regions(extent, grid):
    labels = [None] * extent.count
    for first, value in enumerate(grid):
        reached = [first] if value is not None and labels[first] is None else []
        while reached:
            at = reached.pop()
            if labels[at] is None:
                labels[at] = first + 1
                reached += [place for place in neighbours(extent, at) if place is not None and grid[place] == value]
    return labels


def sees(extent, surface, viewer, target, eye, aim):
    """Whether the line from viewer to target is free; neither has a null surface."""
    (row, column), (end_row, end_column) = divmod(viewer, extent.columns), divmod(target, extent.columns)
    down, right = end_row - row, end_column - column
    n = max(abs(down), abs(right))
    low, high = surface[viewer] + eye, surface[target] + aim
    for k in range(1, n):
        between = extent.place(row + (2 * k * down + n) // (2 * n), column + (2 * k * right + n) // (2 * n))
        if surface[between] is None or (surface[between] - low) * n > (high - low) * k:
            return False
    return True


def sight(extent, viewers, surface, eye, aim, reach):
    result = [None] * extent.count
    for viewer, value in enumerate(viewers):
        if value is None or surface[viewer] is None:
            continue
        row, column = divmod(viewer, extent.columns)
        for r in range(max(0, row - reach), min(extent.rows, row + reach + 1)):
            for c in range(max(0, column - reach), min(extent.columns, column + reach + 1)):
                target = extent.place(r, c)
                if surface[target] is not None and sees(extent, surface, viewer, target, eye, aim):
                    result[target] = (result[target] or 0) + value
    return result


@lru_cache(maxsize=256)
def layer_of(extent, op, operands):
    """The grid of an operation on the grids of its terms."""
    kind, extra = op.kind, op.extra
    if kind.startswith('Local'):
        return tuple(local_cell(op, cells) for cells in zip(*operands))
    if kind in ZONAL:
        found = zone_statistics(op, *operands)
        return tuple(found.get(zone) for zone in operands[1])
    if kind in FOCAL:
        return tuple(focal(extent, op, operands[0]))
    if kind in FORMS:
        near = ([None if place is None else operands[0][place] for place in neighbours(extent, at)]
                for at in range(extent.count))
        return tuple(None if cell is None else form_cell(kind, cell, found) for cell, found in zip(operands[0], near))
    if kind == 'IncrementalDrainage':
        return tuple(directions(extent, operands[0]))
    if kind == 'Flow':
        return tuple(flow(extent, *operands))
    if kind in SPREADING:
        part = 0 if kind == 'FocalProximity' else 1
        return tuple(pair and pair[part] for pair in spread(extent, *operands, extra))
    if kind == 'Sight':
        return tuple(sight(extent, *operands, *extra))
    return tuple(regions(extent, operands[0]))


def differing(old, new):
    """The places at which two grids differ."""
    return set() if old is new else {at for at, (before, after) in enumerate(zip(old, new)) if before != after}


def remade(extent, op, changed, before, after):
    """The places with a changed result cell; of the nearest sources, those with another cost too."""
    if op.kind != 'FocalNeighbor':
        return changed
    return differing(spread(extent, *before, op.extra), spread(extent, *after, op.extra))


def damage(extent, op, touched, changed, before, after):
    """The tiles that an edit damages. Given are the places with a changed operand cell and those that are remade, and
    the operands' grids before and after."""
    if op.kind.startswith('Local'):
        return extent.tiles_near(touched, 0)
    if op.kind in ZONAL:
        was, now = zone_statistics(op, *before), zone_statistics(op, *after)
        differs = {at for at, zone in enumerate(after[1]) if was.get(zone) != now.get(zone)}
        return extent.tiles_near(touched | differs, 0)
    if op.kind == 'Sight':
        return extent.tiles_near(touched, op.extra[2])
    if op.kind in FOCAL:
        return extent.tiles_near(touched, op.extra or 1)
    if op.kind in FORMS or op.kind == 'IncrementalDrainage':
        return extent.tiles_near(touched, 1)
    return extent.tiles_near(touched | changed, 0)


def work(extent, op, touched, changed, layer):
    if op.kind in SPREADING | {'Flow'}:
        return len(touched) + len(changed)
    if op.kind == 'FocalInsularity':
        near = touched.union(*(neighbours(extent, at) for at in touched)) - {None}
        reached = {layer[at] for at in near} - {None}
        return len(touched) + sum(label in reached for label in layer)
    return 0
