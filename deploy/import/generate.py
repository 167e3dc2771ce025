#!/usr/bin/python3
"""Generates a register as CSV files, to try and measure land-import: parcels with shared corners on a jittered grid, owners, groups,
restrictions, responsibilities, mortgages with ranks, and mandates. The same arguments always give the same files.

    generate.py FOLDER [PARCELS [SEED]]      PARCELS: default 1000; coordinates are in metres, so import with --scale 1000
"""
import csv
import math
import os
import random
import sys

FIRST = "Anna Ben Clara Dora Emil Fritz Greta Hugo Ida Jan Karla Lena Max Nora Otto Paul Rosa Sven Tina Uwe Zoë".split()
LAST = "Meyer Schulz Fischer Weber Becker Hoffmann Koch Richter Wolf Neumann Braun Lange Krause Vogel Müller O'Neill".split()
EAST, NORTH, SIDE = 498_000_000, 5_538_000_000, 28_000      # millimetres
COLUMNS = {
    "parties": "key,name,kind,roles", "groups": "key,name", "members": "group,party,share", "units": "key,name,document,checked",
    "parcels": "key,unit,label,outline", "rights": "unit,party,type,share", "burdens": "key,unit,party,class,words,document",
    "mortgages": "key,unit,creditor,amount,currency,document,rank", "mandates": "principal,agent",
}


class Grid:
    """Parcels in rows. Neighbours share their corners and the points on their common edges, to the millimetre."""

    def __init__(self, count, chance):
        self.columns, self.chance, self.edges = math.isqrt(count - 1) + 1, chance, {}
        rows = -(-count // self.columns)
        self.points = {(i, j): (EAST + SIDE * i + chance.randint(-7000, 7000), NORTH + SIDE * j + chance.randint(-7000, 7000))
                       for i in range(self.columns + 1) for j in range(rows + 1)}

    def edge(self, a, b):
        """Returns the points between two corners, in this direction."""
        place = (a, b) if a < b else (b, a)
        if place not in self.edges:
            (x1, y1), (x2, y2), count = self.points[place[0]], self.points[place[1]], self.chance.choice((0, 0, 1, 2))
            self.edges[place] = [tuple(p + (q - p) * t // (count + 1) + self.chance.randint(-1000, 1000) for p, q in ((x1, x2), (y1, y2)))
                                 for t in range(1, count + 1)]
        return self.edges[place] if place == (a, b) else self.edges[place][::-1]

    def outline(self, n):
        i, j = n % self.columns, n // self.columns
        corners = [(i, j), (i + 1, j), (i + 1, j + 1), (i, j + 1)]
        ring = []
        for a, b in zip(corners, corners[1:] + corners[:1]):
            ring += [self.points[a], *self.edge(a, b)]
        return "POLYGON ((" + ", ".join(f"{x // 1000}.{x % 1000:03} {y // 1000}.{y % 1000:03}" for x, y in ring + ring[:1]) + "))"


def main(folder, count=1000, seed=7):
    chance = random.Random(seed)
    os.makedirs(folder, exist_ok=True)
    files = {name: open(os.path.join(folder, name + ".csv"), "w", encoding="utf-8", newline="") for name in COLUMNS}
    write = {name: csv.writer(file, lineterminator="\n").writerow for name, file in files.items()}
    for name, columns in COLUMNS.items():
        write[name](columns.split(","))
    people = max(2, count * 85 // 100)
    for n in range(people):
        write["parties"]((f"p{n}", f"{chance.choice(FIRST)} {chance.choice(LAST)}", "naturalPerson", ""))
    for n in range(5):
        write["parties"]((f"b{n}", f"Bank {n}", "nonNaturalPerson", "bank"))
    write["parties"](("town", "Town of Example", "nonNaturalPerson", ""))
    write["parties"](("notary", "Nora Notary", "naturalPerson", "notary"))
    grid, n, unit, groups = Grid(count, chance), 0, 0, 0
    while n < count:
        key, year = f"u{unit}", 1950 + chance.randrange(75)
        document = f"Deed {year}/{chance.randrange(9999)}, registered {year}-{chance.randrange(1, 13):02}-{chance.randrange(1, 29):02}"
        write["units"]((key, f"Folio {unit}", document, "true"))
        parcels = 1 if chance.random() < .9 else chance.choice((2, 3))
        for _ in range(min(parcels, count - n)):
            write["parcels"]((f"c{n}", key, f"{n // 1000 + 1}/{n % 1000 + 1}", grid.outline(n)))
            n += 1
        first, second = (f"p{it}" for it in chance.sample(range(people), 2))
        kind = chance.random()
        if kind < .5:
            write["rights"]((key, first, "ownership", "1/1"))
        elif kind < .85:
            for party in (first, second):
                write["rights"]((key, party, "ownership", "1/2"))
        else:
            write["groups"]((f"g{groups}", f"Heirs {groups}"))
            write["members"]((f"g{groups}", first, "1/3"))
            write["members"]((f"g{groups}", second, "2/3"))
            write["rights"]((key, f"g{groups}", "ownership", "1/1"))
            groups += 1
        if chance.random() < .05:
            write["rights"]((key, second, "lease", "1/1"))
        if chance.random() < .2:
            classed, words = chance.choice((("restriction", "Right of way"), ("responsibility", "Clear the ditch")))
            write["burdens"]((f"e{unit}", key, "town", classed, words, f"Order {unit}"))
        for rank in range(1, 1 + chance.choices((0, 1, 2), (65, 30, 5))[0]):
            creditor = f"b{chance.randrange(5)}" if chance.random() < .95 else first
            amount = chance.randrange(50_000, 600_000) * 100
            write["mortgages"]((f"m{unit}.{rank}", key, creditor, amount, "EUR", f"Loan {unit}.{rank}", rank))
        if chance.random() < .02:
            write["mandates"]((first, second))
        unit += 1
    for file in files.values():
        file.close()


if __name__ == "__main__":
    if len(sys.argv) not in (2, 3, 4) or not all(word.isdigit() for word in sys.argv[2:]):
        sys.exit(__doc__)
    main(sys.argv[1], *(int(word) for word in sys.argv[2:]))
