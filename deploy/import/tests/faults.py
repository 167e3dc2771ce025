"""Generates registers with faults of every kind, to compare the predictions of the dry run with the replies of the register."""
import csv
import os
import random

from generate import COLUMNS, main as generate

TEXTS = [
    "", " ", "x", "x" * 40, "x" * 41, "x" * 200, "x" * 201, "\U0001F600" * 200, "\U0001F600" * 201, "tab\there", "bell\x07", "\x7f",
    "é" * 41, "line\nbreak", "NUL\x00", "\u0085", '"', "\\", "\ufeff", "=1+1", "ok",
]
SHARES = [
    "1/1", "1/2", "1/3", "2/3", "2/2", "0/1", "1/0", "3/2", "1/1000000001", "2/2000000002", "1/1000000000", "999999999/1000000000", "",
    "1", "0.5", "50%", "33,3 %", "-1/2", "1/-2", "a/b", "1/2/3", " 1 / 2 ", "1" * 18 + "/" + "1" * 18, "1" * 19 + "/" + "1" * 19, "01/02",
    "1.5", "½",
]
AMOUNTS = [
    "1", "0", "-5", "1000000000000000", "1000000000000001", "12.50", "", "1e3", "007", "+7", "9" * 30, "9" * 50, "x", " 12 ", "1_000",
    "٣",
]
RANKS = ["1", "2", "3", "9", "", "1"]
SQUARE = "0 0, 10000 0, 10000 10000, 0 10000, 0 0"
OUTLINES = [
    f"POLYGON (({SQUARE}))", f"polygon(({SQUARE}))", f"POLYGON (({SQUARE}), (2000 2000, 3000 2000, 3000 3000, 2000 2000))",
    f"MULTIPOLYGON ((({SQUARE})))", f"MULTIPOLYGON ((({SQUARE})), ((20000 0, 30000 0, 30000 9000, 20000 0)))",
    "CURVEPOLYGON (CIRCULARSTRING (0 0, 1 0, 1 1, 0 0))", "POLYGON EMPTY", "POLYGON Z EMPTY", "polygon empty", "MULTIPOLYGON EMPTY", "",
    " ", "POLYGON", "POLYGON (", "POLYGON ()", "POLYGON (())", f"POLYGON Z (({SQUARE}))", f"POLYGONZ (({SQUARE}))",
    f"POLYGON zm (({SQUARE}))", f"POLYGONZ M (({SQUARE}))", f"POLYGON Z M (({SQUARE}))", "POLYGONEMPTY",
    "POLYGON ((0 0 1, 9 0 1, 9 9 1, 0 0 1))", "POLYGON ((0 0 1 2, 9 0 1 2, 9 9 1 2, 0 0 1 2))", "POLYGON ((0 0 1 2 3, 9 0, 9 9, 0 0))",
    "POLYGON ((0, 9 0, 9 9, 0 0))", "POLYGON ((0 0, 9.5 0, 9 9, 0 0))", "POLYGON ((0 0, 9.0 0, 9 9., 0 0))",
    "POLYGON ((0 0, 9." + "0" * 20 + " 0, 9 9, 0 0))", "POLYGON ((0 0, 9." + "0" * 21 + " 0, 9 9, 0 0))",
    "POLYGON ((0 0, 1e3 0, 9 9, 0 0))", "POLYGON ((-0 +0, +9 0, 9 9, 0 -0))", "POLYGON ((0 0, .5 0, 9 9, 0 0))",
    "POLYGON ((0 0, +-1 0, 9 9, 0 0))", "POLYGON ((0 0, 10000000000 0, 9 9, 0 0))", "POLYGON ((0 0, 10000000001 0, 9 9, 0 0))",
    "POLYGON ((0 0, " + "0" * 60 + "9 0, 9 9, 0 0))", "POLYGON ((0 0, " + "9" * 60 + " 0, 9 9, 0 0))",
    "POLYGON ((0 0, " + "9" * 5000 + " 0, 9 9, 0 0))", "POLYGON ((0 0, 9 0, 0 0))", "POLYGON ((0 0))", "POLYGON ((0 0, 9 0, 9 9))",
    "POLYGON ((0 0, 9 0, 9 9, 1 1))", "POLYGON ((0 0, 9 9, 9 0, 0 9, 0 0))", "POLYGON ((0 0, 9 0, 9 0, 9 9, 0 0))",
    "POLYGON ((0 0, 0 0, 0 0, 0 0))", "POLYGON ((0 0, 9 0, 18 0, 0 0))", "POLYGON ((0 0, 9 0, 5 0, 5 5, 0 0))",
    "POLYGON ((0 0, 4 0, 4 4, 0 0, -4 4, -4 0, 0 0))", "POLYGON ((0 0, 3000000000 0, 3000000000 3000000000, 0 3000000000, 0 0))",
    "POLYGON ((0 0, 9\u00a00, 9 9, 0 0))", "POLYGON\t((0\r0,\n9 0, 9 9, 0 0))", f"POLYGON (({SQUARE})) x", f"POLYGON (({SQUARE})",
    f"SRID=25832;POLYGON (({SQUARE}))", "POINT (1 2)", "LINESTRING (0 0, 1 1)", "POLYGON ((a b, c d, e f, a b))",
    "POLYGON ((０ 0, 9 0, 9 9, 0 0))", "POLYGON ((0 0, 9 0, 9 9, 0 0),)", "GEOMETRYCOLLECTION EMPTY", "POLYGON (EMPTY)",
    "POLYGON ((0 0, nan 0, 9 9, 0 0))", "POLYGON ((0 0, inf 0, 9 9, 0 0))", "POLYGON ((0 0, 0x10 0, 9 9, 0 0))",
    "POLYGON ((0 0, 1_0 0, 9 9, 0 0))", "ＰＯＬＹＧＯＮ ((0 0, 9 0, 9 9, 0 0))",
]


def ring_of(count):
    """A convex ring of `count` corners on a parabola, closed."""
    points = [(k, k * k) for k in range(count)]
    return "POLYGON ((" + ", ".join(f"{x} {y}" for x, y in points + points[:1]) + "))"


def random_outline(chance):
    """A ring of a few corners on a small grid: often it crosses, touches or repeats itself."""
    size = chance.randint(2, 8)
    points = [(chance.randint(0, size), chance.randint(0, size)) for _ in range(chance.randint(3, 8))]
    if chance.random() < .5:        # sort by angle around a centre: more of them are simple
        x, y = size / 2 + .1, size / 2 + .2
        from math import atan2
        points.sort(key=lambda it: atan2(it[1] - y, it[0] - x))
    return "POLYGON ((" + ", ".join(f"{x} {y}" for x, y in points + points[:1]) + "))"


def spoil(tables, chance):
    """Changes one row at random."""
    kind = chance.choice(["parties", "groups", "members", "units", "parcels", "parcels", "rights", "rights", "burdens", "mortgages",
                          "mandates", "many"])
    rows = tables[kind] if kind != "many" else [None]
    if not rows:
        return
    row = chance.choice(rows)
    parties = [row["key"] for row in tables["parties"] + tables["groups"]] + ["nobody", "@office", ""]
    units = [row["key"] for row in tables["units"]] + ["nowhere"]
    if kind == "many":
        spoil_counts(tables, chance, units, parties)
        return
    row.update(chance.choice({
        "parties": [{"name": chance.choice(TEXTS)}, {"kind": chance.choice(["group", "", "NaturalPerson", "naturalPerson "])},
                    {"roles": chance.choice(["citizen", "bank bank", "king", "notary", "bank notary conveyancer certifiedSurveyor"])}],
        "groups": [{"name": chance.choice(TEXTS)}],
        "members": [{"share": chance.choice(SHARES)}, {"party": chance.choice(parties)}],
        "units": [{"name": chance.choice(TEXTS)}, {"document": chance.choice(TEXTS)},
                  {"checked": chance.choice(["false", "true", "no", "maybe", "", "1"])}],
        "parcels": [{"label": chance.choice(TEXTS)}, {"outline": chance.choice(OUTLINES)}],
        "rights": [{"share": chance.choice(SHARES)}, {"party": chance.choice(parties)},
                   {"type": chance.choice(["lease", "usufruct", "easement", "", "Ownership"])}],
        "burdens": [{"words": chance.choice(TEXTS)}, {"document": chance.choice(TEXTS)},
                    {"class": chance.choice(["restriction", "easement", ""])},
                    {"unit": chance.choice(units), "party": chance.choice(parties)}],
        "mortgages": [{"amount": chance.choice(AMOUNTS)}, {"currency": chance.choice(["EUR", "eur", "EURO", "", "ÄÖÜ"])},
                      {"creditor": chance.choice(parties)}, {"unit": chance.choice(units)}, {"rank": chance.choice(RANKS)},
                      {"document": chance.choice(TEXTS)}],
        "mandates": [{"principal": chance.choice(parties)}, {"agent": chance.choice(parties)}],
    }[kind]))
    if chance.random() < .1 and kind in ("rights", "members", "mandates", "parcels"):
        rows.append(dict(row))
    if chance.random() < .1 and kind in ("rights", "members", "parcels"):
        rows.remove(row)


def spoil_counts(tables, chance, units, parties):
    """Adds many rows to one unit or group: counts at the limits and beyond."""
    unit, many = chance.choice(units), chance.choice([62, 63, 64, 65])
    people = [row["key"] for row in tables["parties"]]
    what = chance.randrange(5)
    if what == 0:
        square = f"POLYGON (({SQUARE}))"
        tables["parcels"] += [{"key": f"z{n}", "unit": unit, "label": str(n), "outline": square} for n in range(many)]
    elif what == 1:
        tables["rights"] += [{"unit": unit, "party": people[n % len(people)], "type": "lease", "share": f"1/{many}"}
                             for n in range(many)]
    elif what == 2:
        key = f"large{len(tables['groups'])}"
        tables["groups"].append({"key": key, "name": "Large"})
        tables["members"] += [{"group": key, "party": people[n % len(people)], "share": f"1/{many}"} for n in range(many)]
    elif what == 3:
        count = len(tables["burdens"])
        burden = {"unit": unit, "party": chance.choice(parties), "class": "restriction", "words": "x", "document": "x"}
        tables["burdens"] += [burden | {"key": f"y{count + n}"} for n in range(chance.choice([200, 253, 254, 255, 256, 257]))]
        mortgage = {"unit": unit, "creditor": chance.choice(people), "amount": "1", "currency": "EUR", "document": "x"}
        tables["mortgages"] += [mortgage | {"key": f"x{count + n}", "rank": chance.choice(RANKS)} for n in range(3)]
    else:
        corners = chance.choice([199, 200, 201, 400])
        tables["parcels"].append({"key": "w", "unit": unit, "label": "w", "outline": ring_of(corners)})


def write_each(folder):
    """Writes a register with each text, share, amount and outline above in each field, and with counts at the limits."""
    tables = {name: [] for name in COLUMNS}
    def party(key, **fields):
        tables["parties"].append({"key": key, "name": "Party", "kind": "naturalPerson", "roles": ""} | fields)
    def unit(key, outlines=(f"POLYGON (({SQUARE}))",), rights=(("@office", "ownership", "1/1"),), label="1", **fields):
        tables["units"].append({"key": key, "name": "Unit", "document": "Deed", "checked": "true"} | fields)
        tables["parcels"].extend({"key": f"{key}.{n}", "unit": key, "label": label, "outline": it} for n, it in enumerate(outlines))
        tables["rights"].extend({"unit": key, "party": party, "type": kind, "share": share} for party, kind, share in rights)
    def burden(key, **fields):
        row = {"key": key, "unit": "home", "party": "p0", "class": "restriction", "words": "Words", "document": "Order"}
        tables["burdens"].append(row | fields)
    def mortgage(key, **fields):
        row = {"key": key, "unit": "home", "creditor": "bank", "amount": "100", "currency": "EUR", "document": "Loan", "rank": ""}
        tables["mortgages"].append(row | fields)
    def group(key, members, **fields):
        tables["groups"].append({"key": key, "name": "Group"} | fields)
        tables["members"].extend({"group": key, "party": party, "share": share} for party, share in members)
    def mandate(principal, agent):
        tables["mandates"].append({"principal": principal, "agent": agent})
    for n in range(66):
        party(f"p{n}")
    party("bank", roles="bank")
    party("roles", roles="citizen bank bank king stateAdministrator")
    party("unknown", kind="group")
    party("unknown roles", kind="group", roles="bank")
    unit("home")
    for n, text in enumerate(TEXTS):
        party(f"name{n}", name=text)
        group(f"group{n}", [("p0", "1/2"), ("p1", "1/2")], name=text)
        unit(f"unit name{n}", name=text)
        unit(f"unit document{n}", document=text)
        unit(f"label{n}", label=text)
        burden(f"words{n}", words=text)
        burden(f"document{n}", document=text)
        mortgage(f"mortgage{n}", document=text)
        mortgage(f"key{n} {text}")
        mortgage(f"currency{n}", currency=text)
    for n, share in enumerate(SHARES):
        group(f"shares{n}", [("p0", share), ("p1", "1/2")])
        unit(f"share{n}", rights=[("p0", "ownership", share), ("p1", "ownership", "1/2")])
        unit(f"unchecked{n}", rights=[("p0", "ownership", share), ("p1", "lease", "1/3"), ("p2", "lease", "1/3")], checked="false")
    for n, amount in enumerate(AMOUNTS):
        mortgage(f"amount{n}", amount=amount)
    for n, text in enumerate([*OUTLINES, *map(ring_of, (199, 200, 201, 400, 70_000))]):
        unit(f"outline{n}", [text])
    for n in (0, 1, 63, 64, 65):
        unit(f"{n} parcels", [f"POLYGON (({SQUARE}))"] * n)
        unit(f"{n} rights", rights=[(f"p{i}", "ownership", f"1/{n}") for i in range(n)])
        group(f"{n} members", [(f"p{i}", f"1/{n}") for i in range(n)])
    for n in (254, 255, 256):
        unit(f"{n} burdens")
        for i in range(n):
            burden(f"{n}.{i}", unit=f"{n} burdens")
        mortgage(f"{n} mortgage", unit=f"{n} burdens")
        mortgage(f"{n} second mortgage", unit=f"{n} burdens")
    group("good", [("p0", "1/2"), ("p1", "1/2")])
    group("twice", [("p0", "1/2"), ("p0", "1/2")])
    group("nested", [("p0", "1/2"), ("good", "1/2")])
    group("missing", [("p0", "1/2"), ("nobody", "1/3")])
    group("too fine", [("p0", "1/1000000000"), ("p1", "1/3")])
    group("office", [("p0", "1/2"), ("@office", "1/2")])
    third = [("p0", "ownership", "1/3"), ("p1", "ownership", "1/3")]
    for n, rights in enumerate((
            third, [*third, ("p2", "ownership", "1/3")], [*third, ("p0", "ownership", "1/3")], [*third, ("nobody", "ownership", "1/3")],
            [*third, ("nobody", "ownership", "1/4")], [*third, ("p3", "ownership", "333333333/1000000000")], [("p0", "lease", "1/1")],
            [("good", "ownership", "1/1"), ("p0", "lease", "1/1"), ("p0", "usufruct", "1/1")], [("p0", "easement", "1/1")],
            [("nobody", "ownership", "1/2"), ("nowhere", "ownership", "1/2")])):
        unit(f"rights{n}", rights=rights)
    for n, fields in enumerate(({"unit": "nowhere"}, {"party": "nobody"}, {"unit": "nowhere", "party": "nobody"}, {"class": "easement"},
                                {"party": "good"})):
        burden(f"burden{n}", **fields)
    for n, fields in enumerate(({"unit": "nowhere"}, {"creditor": "nobody"}, {"creditor": "good"}, {"creditor": "@office"},
                                {"creditor": "p0"}, {"unit": "nowhere", "creditor": "p0"}, {"rank": "7"}, {"rank": "7"}, {"rank": "1"})):
        mortgage(f"other{n}", **fields)
    for principal, agent in (("p0", "p1"), ("p0", "p1"), ("p1", "p0"), ("p0", "p0"), ("good", "p0"), ("p0", "good"), ("nobody", "p0"),
                             ("p0", "nobody"), ("@office", "p0"), ("p0", "@office")):
        mandate(principal, agent)
    save(folder, tables)


def save(folder, tables):
    os.makedirs(folder, exist_ok=True)
    for name, columns in COLUMNS.items():
        with open(os.path.join(folder, name + ".csv"), "w", encoding="utf-8", newline="") as file:
            writer = csv.DictWriter(file, columns.split(","), lineterminator="\n")
            writer.writeheader()
            writer.writerows(tables[name])


def write(folder, seed, parcels=25, faults=40, outlines=60):
    """Writes a register with faults into a folder: seed 0 has each one, the others some at random. Coordinates are in millimetres."""
    if seed == 0:
        write_each(folder)
        return
    chance = random.Random(seed)
    generate(folder, parcels, seed)
    tables = {}
    for name in COLUMNS:
        with open(os.path.join(folder, name + ".csv"), encoding="utf-8", newline="") as file:
            tables[name] = list(csv.DictReader(file))
    for row in tables["parcels"]:
        row["outline"] = row["outline"].replace(".", "")
    for n in range(outlines):
        tables["units"].append({"key": f"r{n}", "name": f"R{n}", "document": "D", "checked": "true"})
        tables["parcels"].append({"key": f"r{n}", "unit": f"r{n}", "label": "1", "outline": random_outline(chance)})
        tables["rights"].append({"unit": f"r{n}", "party": "@office", "type": "ownership", "share": "1/1"})
    for _ in range(faults):
        spoil(tables, chance)
    save(folder, tables)
