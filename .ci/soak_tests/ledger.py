"""The expected rows of a register, computed from the acknowledged acts, independently of the program.

It implements docs/ACTS.md and docs/TABLES.md only: the versions that an act opens and closes, and not when an act is refused.
"""
import copy
import json
import os
import shutil
import sqlite3
from fractions import Fraction

from soak_tests import server
from soak_tests.server import Wrong

OPEN = 4102444800000
COLUMNS = {
    "party": ("number", "name", "kind"), "role": ("party", "role"), "member": ("grp", "party", "num", "den"),
    "unit": ("number", "name", "checked"), "parcel": ("number", "unit", "label", "outline", "source"),
    "rrr": ("number", "unit", "party", "class", "num", "den", "amount", "currency", "place", "words", "source"),
    "source": ("number", "kind", "title"),
    "mutation": ("number", "lodger", "reference", "source", "lodged", "act", "content", "state"), "names": ("mutation", "unit"),
    "mandate": ("principal", "agent")}
CONTENTS = {"transfer": ("unit", "right", "receiver", "share"), "subdivision": ("unit", "parcel", "first", "rest"),
            "merger": ("unit", "others", "parcels", "label", "outline"), "mortgage": ("unit", "creditor", "amount", "currency"),
            "discharge": ("unit", "mortgage")}
SPATIAL = ("subdivision", "merger")


class NoEffect(Exception):
    """An act that cannot have succeeded."""


def text_of(act):
    """Returns the content of a lodged mutation, as the table stores it."""
    return json.dumps({name: act.body[name] for name in CONTENTS[act.word]}, sort_keys=True, separators=(",", ":"), ensure_ascii=False)


class Act:
    """An act with its caller and role."""

    def __init__(self, word, body, party=1, role="stateAdministrator"):
        self.word, self.body, self.party, self.role = word, body, party, role

    def __repr__(self):
        return f"{self.word} {json.dumps(self.body, ensure_ascii=False)} of {self.party}"


class Ledger:
    """The current rows of each table, as dictionaries of columns, and the closed rows, as tuples."""

    def __init__(self):
        self.current = {table: [] for table in COLUMNS}
        self.closed, self.moments = [], [(0, 2)]
        self.stamp = 0
        self.open("party", number=1, name="Land Office", kind="nonNaturalPerson")
        self.open("role", party=1, role="stateAdministrator")

    # ---- rows

    def open(self, table, **row):
        self.current[table].append({**dict.fromkeys(COLUMNS[table]), **row, "since": self.stamp})

    def find(self, table, **wanted):
        return [row for row in self.current[table] if all(row[name] == value for name, value in wanted.items())]

    def one(self, table, **wanted):
        found = self.find(table, **wanted)
        if len(found) != 1:
            raise NoEffect(f"{len(found)} rows of {table} have {wanted}")
        return found[0]

    def close(self, table, rows):
        for row in rows:
            self.current[table].remove(row)
            self.closed.append((table, *(row[name] for name in COLUMNS[table]), row["since"], self.stamp))

    def change(self, table, row, **values):
        self.close(table, [row])
        self.open(table, **{name: row[name] for name in COLUMNS[table]})
        self.current[table][-1].update(values)

    def rows(self):
        """Returns all rows, as tuples that start with the name of their table."""
        current = {(table, *(row[name] for name in COLUMNS[table]), row["since"], OPEN) for table in COLUMNS for row in self.current[table]}
        return current | set(self.closed) | {("moments", *it) for it in self.moments} | {("edition", 1, 2)}

    # ---- acts

    def apply(self, act, stamp):
        """Applies an act that succeeded at a stamp. Returns the expected reply."""
        if stamp <= self.moments[-1][0]:
            raise NoEffect(f"its stamp {stamp} is not after {self.moments[-1][0]}")
        self.stamp, self.first = stamp, self.moments[-1][1]
        self.next = self.first
        effect = self.lodge if act.word in CONTENTS else getattr(self, act.word)
        number = effect(act)
        self.moments.append((stamp, self.next))
        return {"made": list(range(self.first, self.next)), "number": number, "stamp": stamp}

    def first_reply(self, act):
        """Returns the reply to an earlier, identical lodging, or None."""
        if act.word not in CONTENTS:
            return None
        for row in self.find("mutation", lodger=act.party, reference=act.body["reference"], act=act.word, content=text_of(act)):
            if self.find("source", number=row["source"], title=act.body["document"]):
                return {"made": [row["source"], row["number"]], "number": row["number"], "stamp": row["lodged"]}
        return None

    def after(self, act, stamp):
        """Returns a copy of the ledger with one more act."""
        other = copy.deepcopy(self)
        other.apply(act, stamp)
        return other

    def take(self):
        self.next += 1
        return self.next - 1

    def source(self, title, kind="administrative"):
        number = self.take()
        self.open("source", number=number, kind=kind, title=title)
        return number

    def enrol(self, act):
        number = self.take()
        self.open("party", number=number, name=act.body["name"], kind=act.body["kind"])
        self.open("role", party=number, role="citizen")
        return number

    def members(self, group, members):
        for it in members:
            share = Fraction(it["share"])
            self.open("member", grp=group, party=it["party"], num=share.numerator, den=share.denominator)

    def group(self, act):
        number = self.take()
        self.open("party", number=number, name=act.body["name"], kind="group")
        self.members(number, act.body["members"])
        return number

    def regroup(self, act):
        group = act.body["group"]
        self.close("member", self.find("member", grp=group))
        self.members(group, act.body["members"])
        return group

    def grant(self, act):
        self.open("role", party=act.body["party"], role=act.body["role"])
        return act.body["party"]

    def revoke(self, act):
        self.close("role", [self.one("role", party=act.body["party"], role=act.body["role"])])
        return act.body["party"]

    def mandate(self, act):
        self.open("mandate", principal=act.party, agent=act.body["agent"])
        return act.body["agent"]

    def withdraw(self, act):
        self.close("mandate", [self.one("mandate", principal=act.body["principal"], agent=act.body["agent"])])
        return act.body["agent"]

    def register(self, act):
        source, unit = self.source(act.body["document"]), self.take()
        self.open("unit", number=unit, name=act.body["name"], checked=int(act.body["checked"]))
        for it in act.body["parcels"]:
            self.parcel(unit, it, source)
        for it in act.body["rights"]:
            self.right(unit, it["party"], it["type"], Fraction(it["share"]), source)
        return unit

    def parcel(self, unit, part, source):
        self.open("parcel", number=self.take(), unit=unit, label=part["label"], outline=part["outline"], source=source)

    def right(self, unit, party, type, share, source):
        self.open("rrr", number=self.take(), unit=unit, party=party, **{"class": type}, num=share.numerator, den=share.denominator,
                   source=source)

    def burden(self, act):
        body, source, number = act.body, self.source(act.body["document"]), self.take()
        self.open("rrr", number=number, unit=body["unit"], party=body["party"], **{"class": body["class"]}, words=body["words"],
                   source=source)
        return number

    def lift(self, act):
        self.close("rrr", [self.one("rrr", number=act.body["rrr"])])
        return act.body["rrr"]

    def lodge(self, act):
        source = self.source(act.body["document"], "spatial" if act.word in SPATIAL else "administrative")
        number = self.take()
        self.open("mutation", number=number, lodger=act.party, reference=act.body["reference"], source=source, lodged=self.stamp,
                   act=act.word, content=text_of(act), state="lodged")
        for unit in (act.body["unit"], *act.body.get("others", ())):
            self.open("names", mutation=number, unit=unit)
        return number

    def approve(self, act):
        mutation = self.one("mutation", number=act.body["mutation"], state="lodged")
        getattr(self, mutation["act"])(json.loads(mutation["content"]), mutation["source"])
        self.change("mutation", mutation, state="approved")
        return act.body["mutation"]

    def refuse(self, act):
        self.change("mutation", self.one("mutation", number=act.body["mutation"], state="lodged"), state="refused")
        return act.body["mutation"]

    # ---- the effect of an approval, by the kind of mutation

    def transfer(self, content, source):
        right, share = self.one("rrr", number=content["right"], unit=content["unit"]), Fraction(content["share"])
        rest = Fraction(right["num"], right["den"]) - share
        if rest < 0:
            raise NoEffect("the share is too large")
        held = self.find("rrr", unit=content["unit"], party=content["receiver"], **{"class": right["class"]})
        if rest == 0:
            self.close("rrr", [right])
        else:
            self.change("rrr", right, num=rest.numerator, den=rest.denominator, source=source)
        if held:
            share += Fraction(held[0]["num"], held[0]["den"])
            self.change("rrr", held[0], num=share.numerator, den=share.denominator, source=source)
        else:
            self.right(content["unit"], content["receiver"], right["class"], share, source)

    def subdivision(self, content, source):
        unit = self.one("unit", number=content["unit"])
        self.close("parcel", [self.one("parcel", number=content["parcel"], unit=unit["number"])])
        entries = sorted(self.find("rrr", unit=unit["number"]), key=lambda it: it["number"])
        for part in (content["first"], *content["rest"]):
            if "unit" not in part:
                self.parcel(unit["number"], part, source)
                continue
            number = self.take()
            self.open("unit", number=number, name=part["unit"], checked=unit["checked"])
            self.parcel(number, part, source)
            for row in entries:
                self.open("rrr", **{**{name: row[name] for name in COLUMNS["rrr"]}, "number": self.take(), "unit": number})

    def merger(self, content, source):
        self.close("parcel", [self.one("parcel", number=it) for it in content["parcels"]])
        for other in content["others"]:
            self.close("unit", [self.one("unit", number=other)])
            self.close("rrr", self.find("rrr", unit=other))
        self.parcel(content["unit"], content, source)

    def mortgage(self, content, source):
        place = 1 + max((it["place"] for it in self.find("rrr", unit=content["unit"], **{"class": "mortgage"})), default=0)
        self.open("rrr", number=self.take(), unit=content["unit"], party=content["creditor"], **{"class": "mortgage"},
                   amount=content["amount"], currency=content["currency"], place=place, source=source)

    def discharge(self, content, _):
        self.close("rrr", [self.one("rrr", number=content["mortgage"], unit=content["unit"])])


def rows_in(file):
    """Returns all rows of a file and its log, read by Python's sqlite3 from a copy of both."""
    with server.folder() as folder:
        other = os.path.join(folder, "copy.land")
        for end in ("", "-wal"):
            if os.path.exists(file + end):
                shutil.copyfile(file + end, other + end)
        base = sqlite3.connect(f"file:{other}?mode=ro", uri=True)
        try:
            rows = [(table, *row) for table in (*COLUMNS, "moments", "edition") for row in base.execute(f"SELECT * FROM {table}")]
        finally:
            base.close()
    if len(rows) != len(set(rows)):
        raise Wrong("the file has a duplicate row")
    return set(rows)


def difference(rows, wanted):
    lost, added = sorted(wanted - rows, key=repr), sorted(rows - wanted, key=repr)
    return f"{len(lost)} rows are lost, such as {lost[:2]}; {len(added)} are unexpected, such as {added[:2]}"


def compare(file, ledger, pending=None):
    """Compares a file with a ledger. Returns the ledger, or, if the file has the complete pending act too, the ledger with that act."""
    rows = rows_in(file)
    if rows == ledger.rows():
        return ledger
    known = {it[0] for it in ledger.moments}
    more = [row[1] for row in rows if row[0] == "moments" and row[1] not in known]
    if pending and len(more) == 1:
        try:
            other = ledger.after(pending, more[0])
        except NoEffect as error:
            raise Wrong(f"an impossible change: {pending}: {error}") from None
        if rows == other.rows():
            return other
        raise Wrong(f"with {pending} pending, {difference(rows, other.rows())}")
    raise Wrong(f"{len(more)} changes that were not acknowledged; {difference(rows, ledger.rows())}")
