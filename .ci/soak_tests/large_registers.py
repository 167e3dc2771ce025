"""The registers of .ci/large-tables, and the answers that the program must give on them."""
import itertools
import os
import sys

sys.path.insert(0, os.path.join(os.path.dirname(os.path.realpath(__file__)), "..", "..", "bench"))

import registers  # noqa: E402

OWNERS, STEP = 16, 18       # a unit has its number, then its parcel, then its entries
MEMBERS, GROUP = 128, 130   # the single parties of the register `group`, of which half are members, and the number of the group
KINDS = ("parties", "units", "parcels", "rrrs")
HEADER = "number,unit,party,name,class,share,amount,currency,rank,words,source"


class Town:
    """A register of units with sixteen owners each, and the answers that the program must give."""

    def __init__(self, rows):
        self.units = -(-rows // OWNERS)
        self.people = self.units // 6 + OWNERS + 1
        self.first = 3 + self.people
        self.next = self.first + STEP * self.units
        self.caller = 3 + self.people // 2

    def write(self, path, removes=False):
        """Writes the document and the parties at the stamp 1000, the others at 2000. If requested, one unit is missing."""
        base = registers.create(path)
        put = {table: f"INSERT INTO {table} VALUES ({', '.join('?' * count)})" for table, count in
               (("party", 5), ("role", 4), ("unit", 5), ("parcel", 7), ("rrr", 13), ("source", 5), ("moments", 2))}
        until, people = registers.OPEN, range(3, self.first)
        base.execute(put["source"], (2, "administrative", "Deed", 1000, until))
        base.executemany(put["party"], ((it, f"Party {it}", "naturalPerson", 1000, until) for it in people))
        base.executemany(put["role"], ((it, "citizen", 1000, until) for it in people))
        units = list(enumerate(range(self.first, self.next, STEP)))
        base.executemany(put["unit"], ((it, f"Unit {it}", 1, 2000, until) for _, it in units))
        base.executemany(put["parcel"], ((it + 1, it, f"P{it}", registers.square(place), 2, 2000, until) for place, it in units))
        base.executemany(put["rrr"], ((it, self.unit(it), self.owner(it), "ownership", 1, OWNERS, None, None, None, None, 2, 2000, until)
                                      for it in self.numbers("rrrs")))
        base.executemany(put["moments"], ((1000, self.first), (2000, self.next)))
        if removes:
            gone = self.next - 2 * STEP
            base.execute(f"DELETE FROM unit WHERE number = {gone}")
            for table in ("parcel", "rrr"):
                base.execute(f"DELETE FROM {table} WHERE unit = {gone}")
        base.commit()
        base.close()

    def unit(self, number):
        return number - (number - self.first) % STEP

    def owner(self, entry):
        """Returns the party of an entry."""
        unit = self.unit(entry)
        return 3 + ((unit - self.first) // STEP * OWNERS + entry - unit - 2) % self.people

    def numbers(self, kind):
        """Returns the numbers of a kind, in ascending order."""
        return {"parties": itertools.chain([1], range(3, self.first)), "units": range(self.first, self.next, STEP),
                "parcels": range(self.first + 1, self.next, STEP),
                "rrrs": (it for it in range(self.first, self.next) if (it - self.first) % STEP > 1)}[kind]

    def ends(self, kind):
        """Returns the first, the middle and the last number of a kind."""
        middle = self.unit((self.first + self.next) // 2)
        if kind == "parties":
            return 3, self.caller, self.first - 1
        step = {"units": 0, "parcels": 1, "rrrs": 2}[kind]
        return self.first + step, middle + step, self.next - STEP + (step if step < 2 else STEP - 1)

    def seen(self, kind):
        """Returns the numbers that the citizen sees: its units, their entries, and the parties of these."""
        places = [it for it in range(self.units) if (self.caller - 3 - OWNERS * it) % self.people < OWNERS]
        units = [self.first + STEP * it for it in places]
        entries = [unit + 2 + step for unit in units for step in range(OWNERS)]
        return {"units": units, "rrrs": entries, "parties": sorted({self.owner(it) for it in entries})}[kind]

    def body(self, kind, number):
        """Returns the reply to a view of an object."""
        if kind == "parties":
            return f'{{"object":{{"kind":"naturalPerson","members":[],"name":"Party {number}","number":{number},"roles":["citizen"]}}}}'
        unit = self.unit(number)
        if kind == "units":
            return f'{{"object":{{"checked":true,"name":"Unit {number}","number":{number}}}}}'
        if kind == "parcels":
            outline = registers.square((unit - self.first) // STEP)
            return (f'{{"object":{{"doubled":200000000,"label":"P{unit}","number":{number},"outline":"{outline}","source":2,'
                    f'"unit":{unit}}}}}')
        return (f'{{"object":{{"class":"ownership","number":{number},"party":{self.owner(number)},"share":"1/{OWNERS}","source":2,'
                f'"unit":{unit}}}}}')

    def row(self, entry):
        """Returns the row of an entry in an extract."""
        party = self.owner(entry)
        return f"{entry},{self.unit(entry)},{party},Party {party},ownership,1/{OWNERS},,,,,2"


def group_body(changes):
    """Returns the reply to a view of the group after a number of changes, of which each replaces the oldest member by the oldest other."""
    members = sorted(2 + (changes + it) % MEMBERS for it in range(MEMBERS // 2))
    listed = ",".join(f'{{"party":{it},"share":"1/64"}}' for it in members)
    return f'{{"object":{{"kind":"group","members":[{listed}],"name":"Group","number":{GROUP},"roles":[]}}}}'
