#!/usr/bin/env python3
# What the program trials is to print, from the rules as tests/oracle.py has them, and the stored job that it reads.
#
#   python3 tests/trials.py           prints what trials is to print
#   python3 tests/trials.py write     writes crates/trials/stdin and crates/trials/stdout
import os
import random
import sys

from oracle import CEILING, FLOOR, LOWEST, Bad, Guard, clamp_fault, grid_fault, is_height
from oracle import lines, parse, pose, profile, random_job, round_fault, spell, table

ROOT = os.path.join(os.path.dirname(os.path.abspath(__file__)), "..", "crates", "trials")


def number(fault):
    return str(fault) if fault else "taken"


# The word for an index that the program gives for a negative number: the greatest one.
def index(n):
    return 2 ** 64 - 1 if n < 0 else n


def cover(pitch, radius, dx, dy):
    return "0" if profile((1, pitch, radius, 0, 0), dx, dy) == 0 else "nothing"


def raster(*heights):
    if len(heights) != 6:
        return "1 no 9 0 0 0 clear"
    for i, z in enumerate(heights):
        if not is_height(z):
            return f"1 no 10 {i} 0 0 clear"
    return "taken"


def told(guard, column, row):
    c, r = index(column), index(row)
    if c >= guard.columns or r >= guard.rows:
        return "nothing"
    return "{} {}".format(*guard.told[r * guard.columns + c])


def sample(column, row):
    return told(Guard(3, 2, 100, [FLOOR, 500001, -500001, 7, LOWEST], []), column, row)


# An allowance over a part from the floor to the ceiling, and a clamp over all columns but the first.
def layer(microns, height, column, row):
    c, r = index(column), index(row)
    if c >= 5 or r >= 1:
        return "nothing"
    below = [FLOOR, 0, 400000, 499999, CEILING][c]
    left = min(CEILING, below + microns)
    stands = max(left, height) if c >= 1 else left
    return f"{stands} " + ("fixture" if stands != left else "allowance" if left != below else "part")


def clamp(count, *words):
    fault = clamp_fault(5, 4, *words) or (14 if count >= 16 else None)
    return str(fault or count)


def raising_fault(count, which, height):
    return (None if is_height(height) else 13) or (None if index(which) < count else 15)


def surface(a, b, which, height, column, row):
    heights = [a, b]
    if not raising_fault(2, which, height):
        heights[which] = height
    clamps = [(0, 0, 2, 1, heights[0]), (1, 0, 3, 0, heights[1])]
    return told(Guard(5, 2, 100, [0, 0, 0, 100, 0, 0, -1, 1, 500001], clamps), column, row)


def renewed(long, place=None):
    whole = long == 6
    if place is None:
        return "taken" if whole else "18"
    return str(CEILING if whole else 400000 + place)


# A pose with a cutter of radius 100 on a block with another height at each place.
def posed(guard, pitch, long, column, row, tip):
    block = [400000 + i for i in range(long)]
    text = pose(guard, (1, pitch, 100, 0, 0), block, column, row, tip)
    return f"1 {text}" + (", kept" if block == [400000 + i for i in range(long)] else "")


def clamped(*words):
    heights = [0, 0, 0, 100, 0, 0, 50, 0, 0, 0, 0, 0, 0, 0, -20]
    return posed(Guard(5, 3, 100, heights, [(0, 2, 1, 2, 100), (1, 0, 1, 0, 100), (4, 0, 4, 0, 0)]), *words)


def single(height, tip):
    return posed(Guard(1, 1, 100, [height], []), 100, 1, 0, 0, tip)


def turn(count, place=None):
    guard, block, text = Guard(5, 1, 100, [0, 0, 0, 100, 0], [(2, 0, 2, 0, 50)]), [CEILING] * 5, "nothing"
    for p in table("trials", "turns.rt", "POSES")[:count]:
        text = "1 " + pose(guard, (1, 100, 100, 0, 0), block, *p)
    if place is None:
        return text
    return str(block[place]) if place < 5 else "nothing"


def read(text):
    try:
        parse(text)
    except Bad as bad:
        return str(bad)
    return "taken"


SMALL = [1, 3, 2, 100] + [1, 1, 150, -1, -1] + [6, 0, 10, 20, 30, 40, 50] + [0] + [0]
SMALL += [2, 0, 0, 1, 0, 60, 2, 1, 2, 1, -70] + [2, 1, 1, 1, 80, 7, 8, 9, 1, -1, 0, 90, 0, 0, 0]


def changed(*changes):
    words = list(SMALL)
    for at, word in zip(changes[::2], changes[1::2]):
        words[at] = word
    return read(spell(words))


def amounts(pitch, columns, rows, heights, clamps, moves, over):
    words = [1, columns, rows, pitch, 1, 1, 0, 0, 0, heights] + [0] * heights + [0, 0, clamps] + [0] * 5 * clamps
    return read(spell(words + [moves] + [1, 0, 0, 0, 0, 0, 0] * moves) + bytes(over))


# The lines of the faults as docs/REFUSALS.md and docs/FORMATS.md have them.
def faults():
    named = {10: ["4095 0 0 clear"], 11: ["7 0 0 clear"], 19: ["0 0 0 clear", "1 0 0 clear"], 20: ["0 0 0 clear", "1 0 0 clear"]}
    named |= {22: ["0 3 0 part", "5 1 2 allowance", "6 511 510 fixture"], 23: ["8 9 10 clear"], 26: ["11 0 0 clear"]}
    out = [f"1 no {n} {rest}" for n in range(1, 31) for rest in named.get(n, ["0 0 0 clear"])]
    return out + [f"2 ok 3 1499700 {c}" for c in ("clear", "part", "allowance", "fixture")]


def answers():
    topics = [
        ("grid", "grids.rt", "GRIDS", lambda *w: number(grid_fault(*w))),
        ("flat", "flats.rt", "FLATS", lambda *w: number(round_fault(*w))),
        ("cover", "flats.rt", "OFFSETS", cover),
        ("raster", "rasters.rt", "SHORT", raster),
        ("raster", "rasters.rt", "WHOLE", raster),
        ("raster", "rasters.rt", "LONG", raster),
        ("sample", "rasters.rt", "NODES", sample),
        ("stock", "stocks.rt", "STOCKS", lambda microns: number(None if 0 <= microns <= 100000 else 16)),
        ("layer", "stocks.rt", "LAYERS", layer),
        ("clamp", "clamps.rt", "CLAMPS", clamp),
        ("raise", "clamps.rt", "RAISES", lambda *w: number(raising_fault(*w))),
        ("surface", "surfaces.rt", "SURFACES", surface),
        ("new", "poses.rt", "LENGTHS", renewed),
        ("renewed", "poses.rt", "PLACES", renewed),
        ("pose", "poses.rt", "FORMS", clamped),
        ("pose", "poses.rt", "TIPS", clamped),
        ("single", "poses.rt", "ENDS", single),
        ("turn", "turns.rt", "TURNS", turn),
        ("place", "turns.rt", "PLACES", turn),
        ("bytes", "reading/lengths.rt", "LENGTHS", lambda n: read(spell(SMALL + [1, 1])[:n])),
        ("word", "reading/changes.rt", "ONE", changed),
        ("words", "reading/changes.rt", "THREE", changed),
        ("amounts", "reading/amounts.rt", "AMOUNTS", amounts),
    ]
    for name, file, cases, answer in topics:
        for case in table("trials", file, cases):
            yield name, case, answer(*case)


# The stored job: twelve columns, nine rows, sixteen clamps and sixty poses, of which about half are refused.
def stored():
    rng = random.Random(20)
    while True:
        words = random_job(rng, (12, 9, 100), 16, 60)
        text = spell(words)
        moves = [line.split() for line in lines(text)]
        refused = [m[2] for m in moves if m[1] == "no"]
        lowered = [m[4] for m in moves if m[1] == "ok" and m[2] != "0"]
        wild = not all(is_height(z) for z in words[10:118])
        if wild and 150 <= words[6] <= 450 and 25 <= len(refused) <= 35 and len(lowered) >= 20:
            if {"19", "20", "22"} <= set(refused) and {"clear", "part", "fixture"} <= set(lowered):
                return text


def expected():
    out = faults() + [f"{name} {' '.join(map(str, case))}: {answer}" for name, case, answer in answers()]
    return "".join(line + "\n" for line in out + lines(stored()))


if __name__ == "__main__":
    if sys.argv[1:] == ["write"]:
        with open(os.path.join(ROOT, "stdin"), "wb") as file:
            file.write(stored())
        with open(os.path.join(ROOT, "stdout"), "w") as file:
            file.write(expected())
    else:
        sys.stdout.write(expected())
