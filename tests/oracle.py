#!/usr/bin/env python3
# The rules of docs/ as a plain computation of their own, and random jobs to hold the program plan to it.
#
#   python3 tests/oracle.py make N SEED [DIR]     writes N random jobs, DIR/K.job, and the lines of each, DIR/K.lines
#   python3 tests/oracle.py run PROGRAM N SEED    runs N random jobs through the program: all agree, or the first difference
import functools
import os
import random
import re
import struct
import subprocess
import sys

FLOOR, CEILING = -500000, 500000
LOWEST, HIGHEST = -2**31, 2**31 - 1
RANK = {"clear": 0, "part": 1, "allowance": 2, "fixture": 3}
# Every offset of the table: nearer ones first, then by dy, then by dx.
RING = sorted(((dx, dy) for dx in range(-15, 16) for dy in range(-15, 16)), key=lambda o: (o[0] ** 2 + o[1] ** 2, o[1], o[0]))


# The cases of a table in the sources of a crate: its numbers only, never an answer.
def table(crate, file, name):
    home = os.path.join(os.path.dirname(os.path.abspath(__file__)), "..", "crates", crate, "src", file)
    with open(home) as source:
        text = re.sub(r"//[^\n]*", "", source.read())
    found = re.search(rf"const {name}: \[(\(Kind, )?\[i32; (\d+)\]\)?; (\d+)\] = \[(.*?)\];", text, re.S)
    width, many = int(found[2]) + (1 if found[1] else 0), int(found[3])
    words = found[4].replace("i32::MIN", str(LOWEST)).replace("i32::MAX", str(HIGHEST))
    for kind, word in enumerate(("Kind::Flat", "Kind::Cone", "Kind::Ball"), 1):
        words = words.replace(word, str(kind))
    numbers = [int(n) for n in re.findall(r"-?\d+", words)]
    assert len(numbers) == width * many, (file, name)
    return [numbers[i:i + width] for i in range(0, len(numbers), width)]


# The refusals of plain numbers: a fault's number, or nothing.

def is_height(z):
    return FLOOR <= z <= CEILING


def pitch_fault(pitch):
    return None if 10 <= pitch <= 1000 else 3


def grid_fault(columns, rows, pitch):
    if not 1 <= columns <= 512:
        return 1
    if not 1 <= rows <= 512:
        return 2
    return pitch_fault(pitch)


def round_fault(pitch, radius):
    return pitch_fault(pitch) or (None if 0 <= radius <= 15999 and radius < 16 * pitch else 4)


def cone_fault(pitch, radius, tip, rise):
    return round_fault(pitch, radius) or (5 if not 0 <= tip <= radius else None) or (6 if not 0 <= rise <= 10000 else None)


# A round cutter is its kind (1 flat, 2 cone, 3 ball), pitch, radius, tip radius and rise.
def cutter_fault(kind, pitch, radius, tip, rise):
    if kind not in (1, 2, 3):
        return 29
    return cone_fault(pitch, radius, tip, rise) if kind == 2 else round_fault(pitch, radius)


def clamp_fault(columns, rows, west, north, east, south, height):
    if not (0 <= west <= east < columns and 0 <= north <= south < rows):
        return 12
    return None if is_height(height) else 13


# The guard: for each sample in row order its height and class.

class Guard:
    def __init__(self, columns, rows, pitch, heights, clamps):
        self.columns, self.rows, self.pitch = columns, rows, pitch
        self.told = []
        for i in range(columns * rows):
            below = heights[i] if i < len(heights) and is_height(heights[i]) else CEILING
            c, r = i % columns, i // columns
            over = [h for west, north, east, south, h in clamps if west <= c <= east and north <= r <= south]
            height = max([below] + over)
            self.told.append((height, "part" if height == below else "fixture"))


# The largest h from 0 to top with the property, which holds at 0 and, once lost, stays lost.
def largest(top, has):
    low, high = 0, top + 1
    while high - low > 1:
        middle = (low + high) // 2
        low, high = (middle, high) if has(middle) else (low, middle)
    return low


# The height of the cutter's underside above the tip, or nothing where the offset is not covered.
@functools.lru_cache(maxsize=100000)
def profile(cutter, dx, dy):
    kind, pitch, radius, tip, rise = cutter
    q = pitch ** 2 * (dx ** 2 + dy ** 2)
    if q > radius ** 2:
        return None
    if kind == 1 or kind == 2 and q <= tip ** 2:
        return 0
    if kind == 2:
        return largest(200000, lambda h: (1000 * h + rise * tip) ** 2 <= rise ** 2 * q) if rise else 0
    return largest(radius, lambda h: (radius - h) ** 2 >= radius ** 2 - q)


# The samples of the map under the cutter and its height over each, in the order of the ring table.
def covered(guard, cutter, column, row):
    for dx, dy in RING:
        c, r = column + dx, row + dy
        if 0 <= c < guard.columns and 0 <= r < guard.rows:
            height = profile(cutter, dx, dy)
            if height is not None:
                yield c, r, height


# What a pose answers, as the words after its number; where it is cut, the block is changed.
def pose(guard, cutter, block, column, row, tip):
    if cutter[1] != guard.pitch:
        return "no 17 0 0 0 clear"
    if len(block) != guard.columns * guard.rows:
        return "no 18 0 0 0 clear"
    if not (0 <= column < guard.columns and 0 <= row < guard.rows):
        return "no 19 0 0 0 clear"
    if not is_height(tip):
        return "no 20 0 0 0 clear"
    under = list(covered(guard, cutter, column, row))
    if not under:
        return "no 21 0 0 0 clear"
    contact = "clear"
    for c, r, up in under:
        height, kind = guard.told[r * guard.columns + c]
        if tip + up < height:
            return f"no 22 0 {c} {r} {kind}"
        if tip + up == height and RANK[kind] > RANK[contact]:
            contact = kind
    samples = loss = 0
    for c, r, up in under:
        i = r * guard.columns + c
        if block[i] > tip + up:
            samples, loss = samples + 1, loss + block[i] - tip - up
            block[i] = tip + up
    return f"ok {samples} {loss} {contact}"


# A bad job.
class Bad(Exception):
    def __init__(self, fault, section, record):
        super().__init__(f"bad {fault} {section} {record}")


class Words:
    def __init__(self, text):
        self.text, self.at = text, 0

    def record(self, many, section, number):
        end = self.at + 4 * many
        if end > len(self.text):
            raise Bad(27, section, number)
        words = struct.unpack(f"<{many}i", self.text[self.at:end])
        self.at = end
        return words

    def count(self, section, low, high):
        (n,) = self.record(1, section, 0)
        if not low <= n <= high:
            raise Bad(28, section, 0)
        return n


# The job of a byte string: grid, cutter, heights, clamps and poses.
def parse(text):
    if len(text) > 65536:
        raise Bad(30, 0, 0)
    words = Words(text)
    words.count(1, 1, 1)
    grid = words.record(3, 1, 0)
    fault = grid_fault(*grid) or (28 if grid[0] * grid[1] > 4096 else None)
    if fault:
        raise Bad(fault, 1, 0)
    words.count(2, 1, 1)
    kind, *sizes = words.record(4, 2, 0)
    cutter = (kind, grid[2], *sizes)
    fault = cutter_fault(*cutter)
    if fault:
        raise Bad(fault, 2, 0)
    samples = grid[0] * grid[1]
    words.count(3, samples, samples)
    heights = [words.record(1, 3, i)[0] for i in range(samples)]
    words.count(4, 0, 0)
    words.count(5, 0, 0)
    clamps = []
    for i in range(words.count(6, 0, 16)):
        clamp = words.record(5, 6, i)
        fault = clamp_fault(grid[0], grid[1], *clamp)
        if fault:
            raise Bad(fault, 6, i)
        clamps.append(clamp)
    poses = []
    for i in range(words.count(7, 0, HIGHEST)):
        kind, column, row, tip, _, _, _ = words.record(7, 7, i)
        if kind != 1:
            raise Bad(29, 7, i)
        poses.append((column, row, tip))
    if words.at < len(text):
        raise Bad(30, 7, 0)
    return grid, cutter, heights, clamps, poses


# What plan prints of a byte string.
def lines(text):
    try:
        grid, cutter, heights, clamps, poses = parse(text)
    except Bad as bad:
        return [str(bad)]
    guard = Guard(*grid, heights, clamps)
    block = [CEILING] * len(guard.told)
    return [f"{i + 1} {pose(guard, cutter, block, *p)}" for i, p in enumerate(poses)]


# Random jobs.

def spell(words):
    return struct.pack(f"<{len(words)}i", *words)


def random_grid(rng):
    columns, rows = rng.randint(1, 12), rng.randint(1, 9)
    shape = rng.randrange(12)
    if shape < 4:
        columns, rows = [(1, 1), (1, rng.randint(1, 40)), (rng.randint(1, 40), 1), rng.choice([(1, 512), (512, 1)])][shape]
    return columns, rows, rng.choice([10, 11, 99, 100, 333, 999, 1000, rng.randint(10, 1000)])


def random_radius(rng, pitch):
    top = min(15999, 16 * pitch - 1)
    return rng.choice([0, pitch - 1, pitch, 2 * pitch, 5 * pitch, top, rng.randint(0, top), rng.randint(0, 4 * pitch)])


def random_cutter(rng, pitch):
    kind, radius = rng.choice([1, 2, 3]), random_radius(rng, pitch)
    if kind != 2:
        return kind, pitch, radius, rng.randint(LOWEST, HIGHEST), 0
    return kind, pitch, radius, rng.choice([0, radius, radius // 2, rng.randint(0, radius)]), rng.choice([0, 1, 1000, 10000, rng.randint(0, 10000)])


def random_heights(rng, many):
    base = rng.choice([0, 0, FLOOR, CEILING - 100, rng.randint(FLOOR, CEILING)])
    spread = rng.choice([0, 1, 3, 100, 400000])
    heights = [max(FLOOR, min(CEILING, base + rng.randint(-spread, spread))) for _ in range(many)]
    if rng.random() < 0.25:
        for _ in range(rng.randint(1, 1 + many // 8)):
            heights[rng.randrange(many)] = rng.choice([LOWEST, HIGHEST, FLOOR - 1, CEILING + 1, FLOOR, CEILING])
    return heights


def random_clamps(rng, columns, rows, heights, many):
    clamps = []
    for _ in range(many):
        west, north = rng.randrange(columns), rng.randrange(rows)
        east, south = rng.randint(west, min(columns - 1, west + 4)), rng.randint(north, min(rows - 1, north + 4))
        near = heights[north * columns + west] + rng.choice([-1, 0, 1, 2, 50, -50])
        height = rng.choice([near, near, near, FLOOR, rng.randint(FLOOR, CEILING)])
        clamps.append((west, north, east, south, max(FLOOR, min(CEILING, height))))
    return clamps


def random_pose(rng, guard, cutter, poses):
    if poses and rng.random() < 0.15:
        return rng.choice(poses)
    column, row = rng.randrange(guard.columns), rng.randrange(guard.rows)
    # The lowest tip that invades nothing here.
    location = max(FLOOR, max(guard.told[r * guard.columns + c][0] - up for c, r, up in covered(guard, cutter, column, row)))
    kind = rng.randrange(20)
    if kind < 2:
        edges = [(-1, row), (guard.columns, row), (column, -1), (column, guard.rows), (LOWEST, row), (column, HIGHEST), (HIGHEST, LOWEST)]
        return *rng.choice(edges), location
    if kind < 4:
        return column, row, rng.choice([FLOOR - 1, CEILING + 1, LOWEST, HIGHEST])
    if kind < 8:
        return column, row, location - 1
    if kind < 10:
        return column, row, rng.randint(FLOOR, location)
    if kind < 14:
        return column, row, location
    if kind < 16:
        return column, row, location + 1
    return column, row, rng.randint(location, CEILING)


def random_job(rng, grid, many_clamps, many_poses):
    columns, rows, pitch = grid
    cutter = random_cutter(rng, pitch)
    heights = random_heights(rng, columns * rows)
    clamps = random_clamps(rng, columns, rows, heights, many_clamps)
    guard = Guard(*grid, heights, clamps)
    poses = []
    for _ in range(many_poses):
        poses.append(random_pose(rng, guard, cutter, poses))
    words = [1, *grid, 1, cutter[0], *cutter[2:], len(heights), *heights, 0, 0, len(clamps)]
    words += [w for clamp in clamps for w in clamp] + [len(poses)]
    words += [w for p in poses for w in (1, *p, rng.randint(-9, 9), LOWEST, HIGHEST)]
    return words


# The job's bytes with something changed: words, a byte, the end, or the length.
def spoiled(rng, words):
    odd = [0, 1, 2, 3, 5, -1, 16, 17, 512, 513, 4096, 4097, 65536, FLOOR - 1, CEILING + 1, LOWEST, HIGHEST]
    kind = rng.randrange(7)
    if kind < 3:
        samples = words[1] * words[2]
        # The counts and kinds, the records of the grid and the cutter, and any other word.
        heads = [*range(10), 10 + samples, 11 + samples, 12 + samples, 13 + samples + 5 * words[12 + samples]]
        heads += list(range(13 + samples, len(words)))
        for _ in range(rng.randint(1, 2)):
            at = rng.choice(heads[:14] if kind == 0 else heads)
            words[at] = rng.choice(odd + [words[at] - 1, words[at] + 1])
            words[at] = max(LOWEST, min(HIGHEST, words[at]))
        return spell(words)
    text = bytearray(spell(words))
    if kind == 3:
        return bytes(text[:rng.randint(0, len(text))])
    if kind == 4:
        return bytes(text) + bytes(rng.choice([1, 2, 3, 4, 28, 70000]))
    if kind == 5:
        return bytes(text) + bytes(max(0, rng.choice([65536, 65537]) - len(text)))
    text[rng.randrange(len(text))] = rng.randrange(256)
    return bytes(text)


def jobs(many, seed):
    rng = random.Random(seed)
    for _ in range(many):
        words = random_job(rng, random_grid(rng), rng.choice([0, 0, 1, 2, 5, 16]), rng.choice([0, 1, 8, 20, 40]))
        yield spoiled(rng, words) if rng.random() < 0.3 else spell(words)


def make(many, seed, folder):
    os.makedirs(folder, exist_ok=True)
    for k, text in enumerate(jobs(many, seed)):
        with open(f"{folder}/{k}.job", "wb") as file:
            file.write(text)
        with open(f"{folder}/{k}.lines", "w") as file:
            file.write("".join(line + "\n" for line in lines(text)))


def run(program, many, seed):
    tally = {}
    for k, text in enumerate(jobs(many, seed)):
        expected = lines(text)
        ran = subprocess.run([program], input=text, capture_output=True, timeout=60)
        printed = ran.stdout.decode("utf-8", "replace").splitlines()
        if ran.returncode != 0 or printed != expected:
            os.makedirs("out", exist_ok=True)
            with open("out/differs.job", "wb") as file:
                file.write(text)
            print(f"job {k} of seed {seed} differs, and is in out/differs.job; status {ran.returncode}")
            for i in range(max(len(printed), len(expected))):
                a, b = (x[i] if i < len(x) else "nothing" for x in (expected, printed))
                if a != b:
                    print(f"line {i + 1}: the rules say '{a}', the program says '{b}'")
                    break
            return 1
        for line in expected:
            words = line.split()
            key = " ".join(words[:2]) if words[0] == "bad" else words[1] + (f" {words[2]}" if words[1] == "no" else f" {words[4]}")
            tally[key] = tally.get(key, 0) + 1
    print(f"{many} jobs agree")
    print(", ".join(f"{key}: {n}" for key, n in sorted(tally.items())))
    return 0


if __name__ == "__main__":
    if len(sys.argv) in (4, 5) and sys.argv[1] == "make":
        make(int(sys.argv[2]), int(sys.argv[3]), sys.argv[4] if len(sys.argv) == 5 else "out/random")
    elif len(sys.argv) == 5 and sys.argv[1] == "run":
        sys.exit(run(sys.argv[2], int(sys.argv[3]), int(sys.argv[4])))
    else:
        sys.exit("usage: make N SEED [DIR], or run PROGRAM N SEED")
