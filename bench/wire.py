#!/usr/bin/env python3
"""The time of reading requests and of writing the bodies of replies, compared with Python's json on the same bodies, in turn.

    bench/wire.py [TURNS]            (5)
    WIRE=PROGRAM bench/wire.py ..    a program that was built before

First wire.txt is proved and built, with the libraries that earlier checks built in crates/*/out: that takes minutes. The program reads
lines with a count, a method, a target and a body. It prints the nanoseconds of reading each request and of its parts, the best of seven
loops with that count, and those of writing the bodies of two replies. These are leaked, since the proof that frees a whole reply takes
minutes. Python reads the same bodies, and writes the same texts. The parts are measured separately, each in a loop over one request, so
they do not add up to the whole; and the compiler may move the routing of a constant path out of such a loop.
"""
import json
import math
import os
import subprocess
import sys
import tempfile
import time
from pathlib import Path

from building import build, named_by

TURNS = int(sys.argv[1]) if len(sys.argv) > 1 else 5
ENCODER = json.JSONEncoder(separators=(",", ":"))


def dumped(value):
    return json.dumps(value, separators=(",", ":"))


def circle(west):
    points = []
    for k in range(200):
        a = 2 * math.pi * k / 200
        points.append((west + round(10**8 * math.cos(a)), round(10**8 * math.sin(a))))
    return points + points[:1]


def outline(points, zeros):
    number = lambda n: ("-" if n < 0 else "") + "0" * zeros + str(abs(n))
    return "POLYGON ((" + ",".join(number(x) + " " + number(y) for x, y in points) + "))"


def registration(parcels, zeros):
    return dumped({
        "name": "Garden", "checked": True, "document": "Deed",
        "parcels": [{"label": str(n), "outline": outline(circle(2 * 10**8 * (n % 40)), zeros)} for n in range(parcels)],
        "rights": [{"party": 1, "type": "ownership", "share": "1/1"}],
    })


def best_of(count, work):
    best = math.inf
    for _ in range(7):
        start = time.perf_counter_ns()
        for _ in range(count):
            work()
        best = min(best, (time.perf_counter_ns() - start) / count)
    return best


def points_of(text):
    """Returns the points of an outline, without checks."""
    inside = text[text.index("((") + 2:text.index("))")]
    return [tuple(map(int, point.split())) for point in inside.split(",")]


def with_points(body):
    return [points_of(parcel["outline"]) for parcel in json.loads(body)["parcels"]]


def split(target):
    path, _, query = target.partition("?")
    return path.split("/"), query


ENROL = '{"kind":"naturalPerson","name":"Anna"}'
SMALL, LARGE = registration(64, 0), registration(64, 29)
DONE = {"made": [2], "number": 2, "stamp": 1000}
RIGHT = {"object": {"class": "ownership", "number": 13, "party": 2, "share": "1/2", "source": 8, "unit": 9}}
assert len(LARGE) <= 1048576, len(LARGE)
LINES = [(10000, "POST", "/acts/enrol", ENROL), (10000, "GET", "/parties/2", ""), (10000, "GET", "/rrrs/13", ""),
         (10, "POST", "/acts/register", SMALL), (10, "POST", "/acts/register", LARGE)]

def measure(program):
    print("bodies", [len(line[3]) for line in LINES])
    for _ in range(TURNS):
        output = subprocess.run([program], input="".join("%d %s %s %s\n" % line for line in LINES), text=True,
                                capture_output=True, check=True).stdout
        print(output, end="")
        for reply in (DONE, RIGHT):
            assert dumped(reply) in output
            print("python dumps %.0f, with a reused encoder %.0f"
                  % (best_of(10000, lambda: dumped(reply)), best_of(10000, lambda: ENCODER.encode(reply))))
        print("python enrol loads %.0f" % best_of(10000, lambda: json.loads(ENROL)))
        print("python split %.0f" % best_of(10000, lambda: split("/parties/2")))
        for name, body in (("small", SMALL), ("large", LARGE)):
            print("python %s loads %.0f with points %.0f"
                  % (name, best_of(10, lambda: json.loads(body)), best_of(3, lambda: with_points(body))), flush=True)


def main():
    with tempfile.TemporaryDirectory() as scratch:
        libraries = sorted({*named_by("land_wire"), "land_fraction", "land_wire"})
        measure(os.environ.get("WIRE") or build(Path(scratch), "wire.txt", libraries))


main()
