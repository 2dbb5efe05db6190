"""Which colour a cell is drawn in."""

import math
from bisect import bisect_right

HEIGHTS = ((0, (38, 84, 60)), (.35, (146, 170, 96)), (.7, (196, 160, 108)), (1, (250, 246, 236)))
FLOW = ((0, (247, 251, 255)), (.5, (107, 174, 214)), (1, (8, 48, 107)))
CLASSES = ((141, 211, 199), (255, 237, 111), (190, 186, 218), (251, 128, 114), (128, 177, 211), (253, 180, 98), (179, 222, 105),
           (252, 205, 229), (217, 217, 217), (188, 128, 189), (204, 235, 197), (255, 255, 179))


def ramp(stops):
    """The colours between stops, which are ascending numbers with colours; beyond the ends the end's own."""
    stops = sorted(stops)
    places = [place for place, _ in stops]

    def colour(value):
        after = bisect_right(places, value)
        if after == 0 or after == len(stops):
            return stops[min(after, len(stops) - 1)][1]
        (low, first), (high, second) = stops[after - 1:after + 1]
        share = (value - low) / (high - low)
        return tuple(int(a + (b - a) * share + .5) for a, b in zip(first, second))
    return colour


def ramp_between(low, high, stops=HEIGHTS):
    return ramp([(low + share * (high - low), colour) for share, colour in stops])


def ramp_of_flow(low, high):
    """By the logarithm, so that brooks are seen beside rivers."""
    colour, most = ramp(FLOW), math.log1p(high - low)
    return lambda value: colour(math.log1p(value - low) / most if most else 0)


def different(cells):
    """The different values of cells, null left out, in ascending order."""
    return sorted({cell for cell in cells if cell is not None})


def are_classes(values):
    return len(values) <= len(CLASSES)


def by_class(values):
    return dict(zip(values, CLASSES)).__getitem__


def usual(values):
    """Classes for few different values, else the ramp of heights."""
    return by_class(values) if are_classes(values) else ramp_between(values[0], values[-1])
