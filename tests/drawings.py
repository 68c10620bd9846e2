#!/usr/bin/env python3
# What the program drawings is to print, from the rules as tests/planes.py has them.
#
#   python3 tests/drawings.py           prints what drawings is to print
#   python3 tests/drawings.py write     writes crates/drawings/stdout
import os
import sys

from oracle import table
from planes import drawn, first_bad, height_over

ROOT = os.path.join(os.path.dirname(os.path.abspath(__file__)), "..", "crates", "drawings")


def drawings():
    facets = table("drawings", "tables.rt", "FACETS")
    for number, grid in enumerate(table("drawings", "tables.rt", "MAPS")):
        mine = [facet for drawing, *facet in facets if drawing == number]
        bad = first_bad(mine)
        yield f"drawing {number}: " + ("taken" if bad is None else f"no 11 {bad} 0 0 clear")
        heights, columns = drawn(grid, mine), grid[0]
        for start in range(0, len(heights), columns):
            yield " ".join(map(str, heights[start:start + columns]))


def points():
    for case in table("drawings", "points.rt", "POINTS"):
        x, y, *facet = case
        # A negative number stands for the greatest of 32 bits.
        height = height_over(tuple(facet), *(2 ** 32 - 1 if n < 0 else n for n in (x, y)))
        yield f"point {' '.join(map(str, case))}: {'nothing' if height is None else height}"


text = "".join(line + "\n" for line in [*drawings(), *points()])
if sys.argv[1:] == ["write"]:
    with open(os.path.join(ROOT, "stdout"), "w") as file:
        file.write(text)
else:
    sys.stdout.write(text)
