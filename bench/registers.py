"""Registers for the benchmarks, written as SQLite files with the schema of docs/TABLES.md, and the SQL statements of the crates.

PAGE_SIZE=2048 gives all files of a benchmark pages of that many bytes (512 to 65536)."""
import math
import os
import re
import sqlite3
import subprocess
from pathlib import Path

TOP = Path(__file__).resolve().parents[1]
PROGRAM = os.environ.get("LAND", str(TOP / "crates" / "land" / "out" / "land"))
PAGE_SIZE = int(os.environ.get("PAGE_SIZE", "4096"))  # that of `land new` on a missing file
OPEN = 4102444800000
OFFICE, NOTARY, BANK, SMALL_BANK, BUSY, TOWN = range(1, 7)
CALM = range(7, 27)
FIRST = 27


def schema():
    page = (TOP / "docs" / "TABLES.md").read_text()
    return re.search(r"```sql\n(.*?)```", page, re.S).group(1)


def sql_of(file):
    """Returns the SQL statements in a source file, by the names of their constants."""
    found = re.findall(r'const (\w+): &str =\s*"((?:[^"\\]|\\.)*)"', (TOP / "crates" / file).read_text(), re.S)
    return {name: re.sub(r"\\\n\s*", "", text) for name, text in found}


def connect(path, page_size=PAGE_SIZE):
    """Returns a connection to a new file with pages of a size."""
    base = sqlite3.connect(path)
    base.execute(f"PRAGMA page_size = {page_size}")
    return base


def new(program, path, page_size=PAGE_SIZE):
    """Creates a register by `land new`, which keeps the page size of an empty database."""
    base = connect(path, page_size)
    base.execute("VACUUM")
    base.close()
    subprocess.run([program, "new", "--file", path], check=True)


def create(path):
    """Creates a file with the tables and the first rows of any register."""
    base = connect(path)
    base.executescript(schema())
    base.execute("INSERT INTO edition VALUES (1, 2)")
    base.execute("INSERT INTO moments VALUES (0, 2)")
    base.execute("INSERT INTO party VALUES (1, 'Land Office', 'nonNaturalPerson', 0, ?)", (OPEN,))
    base.execute("INSERT INTO role VALUES (1, 'stateAdministrator', 0, ?)", (OPEN,))
    return base


def next_of(path):
    """Returns the number of the next object of a register."""
    base = sqlite3.connect(path)
    found, = base.execute("SELECT max(next) FROM moments").fetchone()
    base.close()
    return found


def put(base, table, rows):
    if rows:
        base.executemany(f"INSERT INTO {table} VALUES ({', '.join('?' * len(rows[0]))})", rows)


def square(place):
    west, south = 20000 * (place % 1000), 20000 * (place // 1000)
    east, north = west + 10000, south + 10000
    return f"POLYGON (({west} {south}, {east} {south}, {east} {north}, {west} {north}, {west} {south}))"


def of_entries(path, entries):
    """Writes a register with a number of entries, four per unit, at the stamps 1000 and 2000. Returns the callers and objects of the
    requests.

    A unit has a parcel, a restriction of the town, a mortgage of a bank and two owners that own nothing else; the owners of each tenth unit
    own it as a group, and one of them leases it. One unit is mortgaged to a small bank. For each tenth unit a conveyancer lodged a transfer
    at 1000, which was refused at 2000.
    """
    units = entries // 4
    middle = units // 2 // 10 * 10 + 5
    base = create(path)
    people = [(NOTARY, "Notary", "notary"), (BANK, "Bank", "bank"), (SMALL_BANK, "Small Bank", "bank"),
              (BUSY, "Busy", "conveyancer"), (TOWN, "Town", "citizen"), *((n, f"Calm {n}", "conveyancer") for n in CALM)]
    parties = [(number, name, "nonNaturalPerson", 1000, OPEN) for number, name, _ in people]
    roles = [(number, role, 1000, OPEN) for number, _, role in people]
    members, sources, estates, parcels, rrrs, mutations, names = [], [], [], [], [], [], []
    known, number = {"units": [], "rights": [], "entries": [], "mutations": []}, FIRST
    for place in range(units):
        shared = place % 10 == 0
        anna, ben, group, deed, unit, parcel, first, mutation = (number + step for step in (0, 1, 2, 3, 4, 5, 6, 10))
        number += 11
        for person in (anna, ben):
            parties.append((person, f"Owner {person}", "naturalPerson", 1000, OPEN))
            roles.append((person, "citizen", 1000, OPEN))
        sources.append((deed, "administrative", f"Deed {deed}", 1000, OPEN))
        estates.append((unit, f"Unit {unit}", 1, 1000, OPEN))
        parcels.append((parcel, unit, f"P{parcel}", square(place), deed, 1000, OPEN))
        if shared:
            parties.append((group, f"Group {group}", "group", 1000, OPEN))
            members += [(group, person, 1, 2, 1000, OPEN) for person in (anna, ben)]
            rights = [(group, "ownership", 1, 1), (anna, "lease", 1, 1)]
            content = f'{{"receiver":{ben},"right":{first},"share":"1/2","unit":{unit}}}'
            common = (mutation, BUSY, f"R{mutation}", deed, 1000, "transfer", content)
            mutations += [(*common, "lodged", 1000, 2000), (*common, "refused", 2000, OPEN)]
            names.append((mutation, unit, 1000, OPEN))
            known["mutations"].append((mutation, anna))
        else:
            rights = [(anna, "ownership", 1, 2), (ben, "ownership", 1, 2)]
        rrrs += [(first + step, unit, *right, None, None, None, None, deed, 1000, OPEN) for step, right in enumerate(rights)]
        rrrs.append((first + 2, unit, TOWN, "restriction", None, None, None, None, None, "No well", deed, 1000, OPEN))
        creditor = SMALL_BANK if place == middle else BANK
        rrrs.append((first + 3, unit, creditor, "mortgage", None, None, 2500000, "EUR", 1, None, deed, 1000, OPEN))
        known["units"].append(unit)
        known["entries"].append(first)
        if not shared:
            known["rights"].append((unit, first))
        if place == middle:
            known.update(owner=anna, unit=unit, entry=first, mortgage=first + 3, parcel=parcel)
    for table, rows in (("party", parties), ("role", roles), ("member", members), ("source", sources), ("unit", estates),
                        ("parcel", parcels), ("rrr", rrrs), ("mutation", mutations), ("names", names)):
        put(base, table, rows)
    put(base, "moments", [(1000, number), (2000, number)])
    base.commit()
    base.close()
    return known


def add_administrators(path, count):
    """Makes a number of citizens of a register of `of_entries` state administrators, from its first stamp on."""
    base = sqlite3.connect(path)
    people = base.execute("SELECT party FROM role WHERE role = 'citizen' ORDER BY party LIMIT ?", (count,)).fetchall()
    put(base, "role", [(party, "stateAdministrator", 1000, OPEN) for party, in people])
    base.commit()
    base.close()


def add_units(base, owners, count):
    """Adds a number of units per owner at the stamp 3000, the owners taking turns: each unit has a parcel and one entry, all by one
    document."""
    deed, = base.execute("SELECT max(next) FROM moments").fetchone()
    estates, parcels, rrrs, number = [], [], [], deed + 1
    for place in range(count * len(owners)):
        unit, parcel, entry = range(number, number + 3)
        number += 3
        estates.append((unit, f"Unit {unit}", 1, 3000, OPEN))
        parcels.append((parcel, unit, f"P{parcel}", square(100000 + place), deed, 3000, OPEN))
        rrrs.append((entry, unit, owners[place % len(owners)], "ownership", 1, 1, None, None, None, None, deed, 3000, OPEN))
    put(base, "source", [(deed, "administrative", f"Deed {deed}", 3000, OPEN)])
    for table, rows in (("unit", estates), ("parcel", parcels), ("rrr", rrrs)):
        put(base, table, rows)
    put(base, "moments", [(3000, number)])


def add_mandates(path, known, counts, more):
    """Adds mandates to a register of `of_entries`, at the stamp 3000. Returns for each agent the objects of its requests, its partner and
    its principals.

    An agent owns half of one unit, and its partner the other half; the first agent is the owner in `known`. `counts` has the number of
    principals of each agent; each principal owns half of another unit and nothing else. One more agent has the last number of principals,
    and each of these gets `more` further units.
    """
    base = sqlite3.connect(path)
    party = dict(base.execute("SELECT number, party FROM rrr"))
    known_one = (known["unit"], known["entry"])
    places = [known_one, *(place for place in reversed(known["rights"]) if place != known_one)]
    plan, agents = [*((count, 0) for count in counts), (counts[-1], 1)], []
    if len(places) < len(plan) + max(counts):
        raise SystemExit(f"{path}: has too few owners for {max(counts)} principals")
    for (count, half), (unit, entry) in zip(plan, places):
        principals = [party[first + half] for _, first in places[len(plan):][:count]]
        put(base, "mandate", [(principal, party[entry], 3000, OPEN) for principal in principals])
        agents.append({**known, "owner": party[entry], "unit": unit, "entry": entry, "partner": party[entry + 1], "principals": principals})
    add_units(base, agents[-1]["principals"], more)
    base.commit()
    base.close()
    return agents


def of_changes(path, changes, parcels=1):
    """Writes a register with a number of changes: alternately the enrolment of a party, and the registration of a unit with a number of
    parcels, a document and that party's right."""
    base = create(path)
    rows = {table: [] for table in ("party", "role", "moments", "source", "unit", "parcel", "rrr")}
    number = 2
    for cycle in range(math.ceil(changes / 2)):
        since = 1000 + 2 * cycle
        party, deed, unit = range(number, number + 3)
        entry = number + 3 + parcels
        rows["party"].append((party, f"Party {party}", "naturalPerson", since, OPEN))
        rows["role"].append((party, "citizen", since, OPEN))
        rows["moments"].append((since, number + 1))
        rows["source"].append((deed, "administrative", f"Deed {deed}", since + 1, OPEN))
        rows["unit"].append((unit, f"Unit {unit}", 1, since + 1, OPEN))
        for place in range(parcels):
            parcel = number + 3 + place
            rows["parcel"].append((parcel, unit, f"P{parcel}", square(parcels * cycle + place), deed, since + 1, OPEN))
        rows["rrr"].append((entry, unit, party, "ownership", 1, 1, None, None, None, None, deed, since + 1, OPEN))
        number = entry + 1
        rows["moments"].append((since + 1, number))
    for table, some in rows.items():
        put(base, table, some)
    base.commit()
    base.close()


def of_transfers(path, changes, units=1000, owners=4):
    """Writes a register of units, each with a number of owners with equal shares, and a number of changes: alternately the lodging and the
    approval of a transfer of a whole right. The receiver is the party whose last ownership of the unit ended first."""
    base = create(path)
    people = range(2, 2 + units + owners)
    number = people[-1] + 1
    deed, number = number, number + 1
    rows = {table: [] for table in ("party", "role", "moments", "source", "unit", "parcel", "rrr", "mutation", "names")}
    rows["party"] = [(party, f"Party {party}", "naturalPerson", 1000, OPEN) for party in people]
    rows["role"] = [(party, "citizen", 1000, OPEN) for party in people] + [(2, "conveyancer", 1000, OPEN)]
    rows["source"].append((deed, "administrative", f"Deed {deed}", 1000, OPEN))
    held, waiting = [], []
    for place in range(units):
        unit, number = number, number + 2
        rows["unit"].append((unit, f"Unit {unit}", 1, 1000, OPEN))
        rows["parcel"].append((unit + 1, unit, f"P{unit + 1}", square(place), deed, 1000, OPEN))
        rights = []
        for step in range(owners):
            rights.append([number, people[(place + step) % len(people)], 1000, deed])
            number += 1
        held.append((unit, rights))
        waiting.append([people[(place + owners + step) % len(people)] for step in range(min(owners, len(people) - owners))])
    rows["moments"].append((1000, number))
    for cycle in range(changes // 2):
        since, place = 1001 + 2 * cycle, cycle % units
        unit, rights = held[place]
        right, giver, began, source = rights.pop(0)
        receiver = waiting[place].pop(0)
        paper, mutation, number = number, number + 1, number + 2
        rows["source"].append((paper, "administrative", f"Deed {paper}", since, OPEN))
        content = f'{{"receiver":{receiver},"right":{right},"share":"1/{owners}","unit":{unit}}}'
        common = (mutation, 2, f"R{mutation}", paper, since, "transfer", content)
        rows["mutation"] += [(*common, "lodged", since, since + 1), (*common, "approved", since + 1, OPEN)]
        rows["names"].append((mutation, unit, since, OPEN))
        rows["moments"] += [(since, number), (since + 1, number + 1)]
        rows["rrr"].append((right, unit, giver, "ownership", 1, owners, None, None, None, None, source, began, since + 1))
        rights.append([number, receiver, since + 1, paper])
        waiting[place].append(giver)
        number += 1
    for unit, rights in held:
        rows["rrr"] += [(right, unit, party, "ownership", 1, owners, None, None, None, None, source, began, OPEN)
                        for right, party, began, source in rights]
    for table, some in rows.items():
        put(base, table, some)
    base.commit()
    base.close()


def of_members(path, changes, size=64):
    """Writes a register of one group with a number of members with equal shares. Each change replaces one member."""
    base = create(path)
    people = range(2, 2 + 2 * size)
    group = people[-1] + 1
    put(base, "party", [(party, f"Party {party}", "naturalPerson", 1000, OPEN) for party in people])
    put(base, "party", [(group, "Group", "group", 1000, OPEN)])
    put(base, "role", [(party, "citizen", 1000, OPEN) for party in people])
    members = [(party, 1000) for party in people[:size]]
    waiting, rows = list(people[size:]), []
    for change in range(changes):
        since = 1001 + change
        gone, began = members.pop(0)
        rows.append((group, gone, 1, size, began, since))
        members.append((waiting.pop(0), since))
        waiting.append(gone)
    rows += [(group, party, 1, size, began, OPEN) for party, began in members]
    put(base, "member", rows)
    put(base, "moments", [(1000 + change, group + 1) for change in range(changes + 1)])
    base.commit()
    base.close()
