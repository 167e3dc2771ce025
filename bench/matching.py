#!/usr/bin/env python3
"""The time of `chain_matches`, compared with GEOS (through its C interface) on the same lists of rings.

    bench/matching.py                    (proves and builds its program, bench/matching.txt, in a copy of this repository)
    MATCHING=PROGRAM bench/matching.py   a program that was built before

A strip is divided from left to right by vertical chains into parcels with the given number of points each. They are matched with the one
ring around all of them, or, for two rings, with the same parcel starting at another point. So 2, 16 and 17 rings are 1, 15 and 16 parcels
and one ring. In `random` the chains have random jitter. The other cases are unrealistic, and their rings do not match (the answer is no):
in `one line` half of the rings have all points but one on one line, and each of the others has one long edge over all of them and its other
points on a parabola; `combs` have long teeth across all rings, upright, level or slanted, and random positions.

GEOS: the geometries are built before the timing; then the union of each list (GEOSUnaryUnion_r, `unary_union` in shapely) and GEOSEquals_r
of both unions. Each figure is the minimum of nine runs, in milliseconds. GEOS is skipped if its library is not installed.
"""
import ctypes
import ctypes.util
import os
import random
import shutil
import subprocess
import sys
import tempfile
import time
from pathlib import Path

TOP = Path(__file__).resolve().parent.parent
RUNS = 9


def strip(parcels, points, jitter):
    """Returns the parcels of a strip, with a number of points each, and the ring around them."""
    half = points // 2
    lines = []
    for place in range(parcels + 1):
        step = 1_000_000 // (half - 1)
        line = [[place * 100_000 + random.randint(-jitter, jitter), step * up + random.randint(-step // 4, step // 4)] for up in range(half)]
        line[0][1], line[-1][1] = 0, 1_000_000
        lines.append(line)
    rings = [lines[place + 1] + lines[place][::-1] for place in range(parcels)]
    return rings, lines[-1] + lines[0][::-1]


def rotated(ring):
    return ring[len(ring) // 3 :] + ring[: len(ring) // 3]


def tiling(rings, points, jitter):
    parcels, around = strip(rings - 1, points, jitter)
    if rings == 2:
        return parcels, [rotated(parcels[0])]
    mixed = [rotated(ring) for ring in parcels]
    random.shuffle(mixed)
    return mixed, [around]


def on_line(points, place):
    """Returns a ring with all points but one on one line, at different places for each ring."""
    return [[place * 7 + step * 1000, 0] for step in range(points - 1)] + [[0, -1_000_000 - place]]


def over_line(points, place):
    """Returns a ring with one edge over all of those, and the other points on a parabola."""
    width = 1_000_000
    across = [[width - round(2 * width * (step + 1) / (points - 1)), 0] for step in range(points - 2)]
    return [[-width, 0], [width, 0]] + [[x, 1000 + place + (width * width - x * x) // 1000] for x, _ in across]


def lines(rings, points):
    ours = [(on_line if place % 2 else over_line)(points, place) for place in range(rings - 1)]
    return ours, [over_line(points, rings)]


def comb(points, slant):
    """Returns a comb with long teeth of two edges each, at a random place."""
    teeth = (points - 2) // 2
    left, low = random.randint(0, 1000), random.randint(0, 1000)
    ring = []
    for tooth in range(teeth):
        ring += [[left + 4000 * tooth, low], [left + 4000 * tooth + 1000, 1_000_000 + low]]
    ring += [[left + 4000 * teeth, 1_000_000 + low], [left + 4000 * teeth, low - 1000]][: points - len(ring)]
    ring = ring[:-2] + [[left + 4000 * teeth, low - 5000], [left - 4000, low - 5000]]
    if slant == "upright":
        return ring
    if slant == "level":
        return [[y, -x] for x, y in ring]
    return [[x + y, y - x] for x, y in ring]


def combs(rings, points, slant):
    return [comb(points, slant) for _ in range(rings - 1)], [comb(points, slant)]


def wkt(ring):
    return "POLYGON ((" + ", ".join(f"{x} {y}" for x, y in ring + ring[:1]) + "))"


def cases():
    random.seed(20)
    for rings in (2, 16, 17):
        for points in (4, 50, 200):
            yield f"even, {rings} rings of {points}", tiling(rings, points, 0)
            yield f"random, {rings} rings of {points}", tiling(rings, points, 20_000)
            if points > 4:
                yield f"one line, {rings} rings of {points}", lines(rings, points)
    for slant in ("upright", "level", "slanted"):
        yield f"combs, {slant}, 17 rings of 200", combs(17, 200, slant)


def build(folder):
    """Proves and builds the program in a copy of the repository. Returns its path."""
    copy = folder / "copy"
    (copy / "crates").mkdir(parents=True)
    shutil.copytree(TOP / "crates" / "land_shape", copy / "crates" / "land_shape", symlinks=True)
    crate = copy / "crates" / "matching_bench"
    (crate / "src").mkdir(parents=True)
    shutil.copy(TOP / "bench" / "matching.txt", crate / "src" / "main.rt")
    (copy / "crates.txt").write_text("land_shape:\nmatching_bench: land_shape\n")
    done = subprocess.run(["rt", "run"], cwd=crate, stdin=subprocess.DEVNULL, capture_output=True, text=True)
    program = crate / "out" / "matching_bench"
    if not program.exists():
        sys.exit(done.stdout + done.stderr)
    return program


class Geos:
    """The GEOS library, if it is installed."""

    def __init__(self):
        name = ctypes.util.find_library("geos_c")
        self.library = ctypes.CDLL(name) if name else None
        if not name:
            return
        pointer, text = ctypes.c_void_p, ctypes.c_char_p
        for call, result, *arguments in (
            ("GEOS_init_r", pointer), ("GEOSversion", text), ("GEOSWKTReader_create_r", pointer, pointer),
            ("GEOSWKTReader_read_r", pointer, pointer, pointer, text), ("GEOSGeom_destroy_r", None, pointer, pointer),
            ("GEOSGeom_createCollection_r", pointer, pointer, ctypes.c_int, ctypes.POINTER(pointer), ctypes.c_uint),
            ("GEOSUnaryUnion_r", pointer, pointer, pointer), ("GEOSEquals_r", ctypes.c_byte, pointer, pointer, pointer),
        ):
            getattr(self.library, call).restype = result
            getattr(self.library, call).argtypes = arguments
        self.handle = self.library.GEOS_init_r()
        self.reader = self.library.GEOSWKTReader_create_r(self.handle)

    def several(self, rings):
        read = [self.library.GEOSWKTReader_read_r(self.handle, self.reader, wkt(ring).encode()) for ring in rings]
        return self.library.GEOSGeom_createCollection_r(self.handle, 6, (ctypes.c_void_p * len(read))(*read), len(read))

    def equal(self, ours, theirs):
        one, other = (self.library.GEOSUnaryUnion_r(self.handle, rings) for rings in (ours, theirs))
        answer = self.library.GEOSEquals_r(self.handle, one, other)
        for union in (one, other):
            self.library.GEOSGeom_destroy_r(self.handle, union)
        return answer == 1

    def timed(self, ours, theirs):
        ours, theirs = self.several(ours), self.several(theirs)
        best = None
        for _ in range(RUNS):
            start = time.perf_counter()
            answer = self.equal(ours, theirs)
            best = min(best or 1e9, time.perf_counter() - start)
        return answer, best * 1000


def geos_cell(geos, ours, theirs, answer):
    """Returns the time of GEOS, and its answer if that differs."""
    if not geos.library:
        return "not installed"
    found, milliseconds = geos.timed(ours, theirs)
    return f"{milliseconds:.3f}" + ("" if found == (answer == "true") else " (yes)" if found else " (no)")


def main():
    named = list(cases())
    text = "".join("\n".join([*map(wkt, ours), "with", *map(wkt, theirs), "end", ""]) for _, (ours, theirs) in named)
    with tempfile.TemporaryDirectory() as folder:
        program = os.environ.get("MATCHING") or build(Path(folder))
        output = subprocess.run([program], input=text, capture_output=True, text=True, check=True).stdout.splitlines()
    if len(output) != len(named):
        sys.exit("\n".join(line[:200] for line in output if not line.startswith(("true", "false"))))
    geos = Geos()
    if geos.library:
        print(geos.library.GEOSversion().decode())
    print("| lists | match | `chain_matches` | GEOS |\n|---|---|---|---|")
    for (name, (ours, theirs)), line in zip(named, output):
        answer, nanoseconds = line.split()
        print(f"| {name} | {'yes' if answer == 'true' else 'no'} | {int(nanoseconds) / 1e6:.3f} | {geos_cell(geos, ours, theirs, answer)} |")


if __name__ == "__main__":
    main()
