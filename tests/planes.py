# Facets as a plain computation of their own, with exact fractions: what tests/drawings.py holds the program drawings to.
import functools
import math
from fractions import Fraction

from oracle import CEILING, FLOOR, is_height

# The farthest that a vertex may stand to the east or to the south.
FARTHEST = 1000000


# A facet is x, y and z of its three vertices.
def is_facet(facet):
    return all(0 <= n <= FARTHEST for n in facet[0::3] + facet[1::3]) and all(is_height(z) for z in facet[2::3])


# The place of the first facet with a vertex out of range, or nothing.
def first_bad(facets):
    return next((i for i, facet in enumerate(facets) if not is_facet(facet)), None)


# What a facet gives over a point: a height, or nothing.
@functools.lru_cache(maxsize=100000)
def height_over(facet, x, y):
    if not is_facet(facet):
        return CEILING
    ax, ay, az, bx, by, bz, cx, cy, cz = facet
    area = (bx - ax) * (cy - ay) - (cx - ax) * (by - ay)
    if area == 0:
        return None
    # The point is a + u (b - a) + v (c - a) in plan.
    u = Fraction((x - ax) * (cy - ay) - (cx - ax) * (y - ay), area)
    v = Fraction((bx - ax) * (y - ay) - (x - ax) * (by - ay), area)
    if u < 0 or v < 0 or u + v > 1:
        return None
    return math.ceil(az + u * (bz - az) + v * (cz - az))


# The heights that facets give, or the floor where they give none, for each sample in row order.
def drawn(grid, facets):
    columns, rows, pitch = grid
    points = [(c * pitch, r * pitch) for r in range(rows) for c in range(columns)]
    given = [[height_over(tuple(facet), x, y) for facet in facets] for x, y in points]
    return [max((h for h in heights if h is not None), default=FLOOR) for heights in given]
