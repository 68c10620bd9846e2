#!/usr/bin/env python3
# What the program shapes is to print, from the rules as tests/oracle.py has them.
#
#   python3 tests/shapes.py           prints what shapes is to print
#   python3 tests/shapes.py write     writes crates/shapes/stdout
import os
import sys

from oracle import cutter_fault, profile, table

ROOT = os.path.join(os.path.dirname(os.path.abspath(__file__)), "..", "crates", "shapes")


def rows(far, told):
    for dy in range(-far, far + 1):
        heights = [told(dx, dy) for dx in range(-far, far + 1)]
        yield "".join(f"{'.' if h is None else h} " for h in heights)


def round_cutters():
    for cutter in table("shapes", "rounds.rt", "CUTTERS"):
        yield "cutter " + " ".join(map(str, cutter))
        fault = cutter_fault(*cutter)
        if fault:
            yield f"refused {fault}"
        else:
            yield from rows(16, lambda dx, dy: profile(tuple(cutter), dx, dy))


def measured_cutter():
    entries = {(dx, dy): 0 for dx in range(-7, 8) for dy in range(-7, 8)}

    def told(dx, dy):
        height = entries.get((dx, dy), -1)
        return None if height == -1 else height

    yield "measured, new"
    yield from rows(8, told)
    for dx, dy, height in table("shapes", "measuring.rt", "ENTRIES"):
        answer = "taken"
        if not (-7 <= dx <= 7 and -7 <= dy <= 7):
            answer = 7
        elif not -1 <= height <= 200000 or (dx, dy) == (0, 0) and height != 0:
            answer = 8
        else:
            entries[dx, dy] = height
        yield f"entry {dx} {dy} {height}: {answer}"
    yield "measured, written"
    yield from rows(8, told)


text = "".join(line + "\n" for part in (round_cutters(), measured_cutter()) for line in part)
if sys.argv[1:] == ["write"]:
    with open(os.path.join(ROOT, "stdout"), "w") as file:
        file.write(text)
else:
    sys.stdout.write(text)
