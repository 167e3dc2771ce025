"""The server in Python: http.server and sqlite3 on a register's file, with the SQL statements of the crates.

    python3 bench/desk.py FILE PORT

It answers lists, views and title sheets of citizens, banks, notaries and the state administrator, and views of units and mutations by
conveyancers, as the program does and with its SQL statements, but it lists everything visible where the program looks up one object. It
performs the acts enrol, register, transfer and approve with the checks that the requests of joins.py need, and no others: it writes the
same rows, in one synchronous commit each.
"""
import datetime
import http.server
import json
import re
import sqlite3
import sys
import time

from registers import OPEN, sql_of

LOOKUPS = sql_of("land_select_queries/src/lookups/texts.rt")
EVERY, OWN, HOLDER, GROUP, CREDITOR, LODGER, NAMED = (
    sql_of(f"land_select_queries/src/joins/{name}.rt") for name in ("all", "own", "holder", "group", "creditor", "lodger", "named"))
KINDS = {"parties": "PARTY", "units": "UNIT", "parcels": "PARCEL", "rrrs": "ENTRY", "mutations": "MUTATION"}
ALL = {"PARTY": "PARTIES", "UNIT": "UNITS", "PARCEL": "PARCELS", "ENTRY": "ENTRIES", "MUTATION": "MUTATIONS"}
SIGHT = {
    ("citizen", "PARTY"): [OWN["ITSELF"], OWN["GROUPS"], HOLDER["PARTIES"], GROUP["PARTIES"]],
    ("citizen", "UNIT"): [HOLDER["UNITS"], GROUP["UNITS"]],
    ("citizen", "ENTRY"): [HOLDER["ENTRIES"], GROUP["ENTRIES"]],
    ("citizen", "MUTATION"): [NAMED["HELD"], NAMED["THROUGH"]],
    ("bank", "PARTY"): [OWN["ITSELF"], CREDITOR["PARTIES"]],
    ("bank", "UNIT"): [CREDITOR["UNITS"]],
    ("bank", "ENTRY"): [CREDITOR["ENTRIES"]],
    ("conveyancer", "UNIT"): [LODGER["UNITS"]],
    ("conveyancer", "MUTATION"): [OWN["LODGINGS"]],
}
DENIED = {("citizen", "UNIT"): 11, ("citizen", "ENTRY"): 12, ("citizen", "PARTY"): 13, ("citizen", "MUTATION"): 14,
          ("bank", "UNIT"): 15, ("bank", "ENTRY"): 16, ("bank", "PARTY"): 17,
          ("conveyancer", "UNIT"): 19, ("conveyancer", "MUTATION"): 22}


class Denied(Exception):
    """A rule denies the request. The argument is its number."""


class UnknownPath(Exception):
    """The path is unknown."""


def doubled_area(outline):
    points = [tuple(map(int, point.split())) for point in outline[10:-2].split(",")]
    return abs(sum(a * d - b * c for (a, b), (c, d) in zip(points, points[1:])))


def share(row):
    return f"{row[4]}/{row[5]}"


def entry_object(row):
    number, unit, party, kind, _, _, amount, currency, place, words, source = row[:11]
    common = {"class": kind, "number": number, "party": party, "source": source, "unit": unit}
    if kind == "mortgage":
        return {**common, "amount": amount, "currency": currency, "rank": place}
    return {**common, "words": words} if words is not None else {**common, "share": share(row)}


def mutation_object(row):
    number, lodger, reference, source, lodged, act, content, state = row[:8]
    return {"act": act, "content": json.loads(content), "lodged": lodged, "lodger": lodger, "number": number, "reference": reference,
            "source": source, "state": state}


def terms(row):
    if row[3] == "mortgage":
        return f"rank {row[8]} {row[7]} {row[6]}"
    return row[9] if row[9] is not None else share(row)


def metres(doubled):
    return f"{doubled * 5 // 10**7}.{doubled * 5 % 10**7:07}"


class Register:
    """The replies of the server. `query` runs an SQL statement, and can be replaced to record them."""

    def __init__(self, base):
        self.base = base
        self.query = lambda statement, *cells: base.execute(statement, cells).fetchall()
        self.last, self.next = base.execute("SELECT stamp, next FROM moments ORDER BY stamp DESC LIMIT 1").fetchone()

    def check_caller(self, party, role):
        found, roles = self.query(LOOKUPS["PARTY"], party, OPEN - 1), self.query(LOOKUPS["ROLES_OF_PARTY"], party, OPEN - 1)
        if not found:
            raise Denied(1)
        if not any(row[1] == role for row in roles):
            raise Denied(2)

    def circle(self, party, role, at):
        """Returns the caller, and for a citizen its principals."""
        return [party, *(row[0] for row in self.query(LOOKUPS["MANDATES_OF_AGENT"], party, at))] if role == "citizen" else [party]

    def sight(self, party, role, kind, at):
        found = SIGHT.get((role, kind), [EVERY[ALL[kind]]])
        return sorted({number for one in self.circle(party, role, at) for statement in found for number, in self.query(statement, one, at)})

    @staticmethod
    def sees_all(role, kind):
        return (role, kind) not in SIGHT

    def look_up(self, kind, number, at):
        rows = self.query(LOOKUPS[kind], number, at)
        if kind == "PARTY":
            return rows and [(*rows[0], self.query(LOOKUPS["ROLES_OF_PARTY"], number, at), self.query(LOOKUPS["MEMBERS_OF_GROUP"], number, at))]
        return rows

    def check_visible(self, party, role, kind, number, at):
        if self.sees_all(role, kind):
            if not self.look_up(kind, number, at):
                raise Denied(27)
        elif number not in self.sight(party, role, kind, at):
            raise Denied(DENIED[role, kind])

    def object(self, kind, number, at):
        row, = self.look_up(kind, number, at)
        if kind == "PARTY":
            members = [{"party": member[1], "share": f"{member[2]}/{member[3]}"} for member in row[6]]
            return {"kind": row[2], "members": members, "name": row[1], "number": number, "roles": [held[1] for held in row[5]]}
        if kind == "UNIT":
            return {"checked": row[2] == 1, "name": row[1], "number": number}
        if kind == "PARCEL":
            return {"doubled": doubled_area(row[3]), "label": row[2], "number": number, "outline": row[3], "source": row[4], "unit": row[1]}
        return mutation_object(row) if kind == "MUTATION" else entry_object(row)

    def sheet(self, party, role, unit, at):
        found, = self.query(LOOKUPS["UNIT"], unit, at)
        parcels, entries = self.query(LOOKUPS["PARCELS_OF_UNIT"], unit, at), self.query(LOOKUPS["ENTRIES_OF_UNIT"], unit, at)
        if not self.sees_all(role, "ENTRY"):
            listed = self.sight(party, role, "ENTRY", at)
            entries = [row for row in entries if row[0] in listed]
        names = [self.query(LOOKUPS["PARTY"], row[2], at)[0][1] for row in entries]
        areas = [doubled_area(row[3]) for row in parcels]
        moment = datetime.datetime.fromtimestamp(at / 1000, datetime.timezone.utc)
        lines = ["TITLE SHEET", f"Unit {unit} {found[1]}", f"At {moment:%Y-%m-%dT%H:%M:%S}.{at % 1000:03}Z",
                 "Shares checked" if found[2] else "Shares unchecked", f"Area {metres(sum(areas))}", f"Parcels {len(parcels)}",
                 *(f"{row[0]:>10}  {metres(area):>20}  {row[2]}" for row, area in zip(parcels, areas)), f"Entries {len(entries)}",
                 *(f"{row[0]:>10}  {row[3]:<14}  {row[2]:>10} {name}: {terms(row)}" for row, name in zip(entries, names)), "END", ""]
        return "\n".join(lines)

    def read(self, party, role, path):
        """Returns the value, or the text of a title sheet, for a path."""
        word, *rest = path[1:].split("/")
        if word not in KINDS:
            raise UnknownPath
        self.check_caller(party, role)
        at = max(time.time_ns() // 1000000, self.last)
        kind = KINDS[word]
        if not rest:
            return {"numbers": self.sight(party, role, kind, at)}
        number = int(rest[0])
        self.check_visible(party, role, kind, number, at)
        return self.sheet(party, role, number, at) if len(rest) == 2 else {"object": self.object(kind, number, at)}

    def write(self, party, role, act, body):
        self.check_caller(party, role)
        stamp = max(time.time_ns() // 1000000, self.last + 1)
        with self.base:
            count, number = getattr(self, act)(party, body, self.next, stamp)
            self.base.execute("INSERT INTO moments (stamp, next) VALUES (?, ?)", (stamp, self.next + count))
        made = list(range(self.next, self.next + count))
        self.last, self.next = stamp, self.next + count
        return {"made": made, "number": number, "stamp": stamp}

    def put(self, table, *cells):
        self.base.execute(f"INSERT INTO {table} VALUES ({', '.join('?' * len(cells))})", cells)

    def enrol(self, _, body, new, stamp):
        self.put("party", new, body["name"], body["kind"], stamp, OPEN)
        self.put("role", new, "citizen", stamp, OPEN)
        return 1, new

    def register(self, _, body, new, stamp):
        rights, parcels = body["rights"], body["parcels"]
        if not all(self.query(LOOKUPS["PARTY"], right["party"], stamp) for right in rights):
            raise ValueError("a holder does not exist")
        self.put("source", new, "administrative", body["document"], stamp, OPEN)
        self.put("unit", new + 1, body["name"], int(body["checked"]), stamp, OPEN)
        for place, parcel in enumerate(parcels, new + 2):
            self.put("parcel", place, new + 1, parcel["label"], parcel["outline"], new, stamp, OPEN)
        for place, right in enumerate(rights, new + 2 + len(parcels)):
            num, den = map(int, right["share"].split("/"))
            self.put("rrr", place, new + 1, right["party"], right["type"], num, den, None, None, None, None, new, stamp, OPEN)
        return 2 + len(parcels) + len(rights), new + 1

    def transfer(self, party, body, new, stamp):
        if self.base.execute("SELECT 1 FROM mutation WHERE lodger = ? AND reference = ?", (party, body["reference"])).fetchone():
            raise ValueError("the reference was used")
        fields = {key: body[key] for key in ("receiver", "right", "share", "unit")}
        content = json.dumps(fields, separators=(",", ":"))
        self.put("source", new, "administrative", body["document"], stamp, OPEN)
        self.put("mutation", new + 1, party, body["reference"], new, stamp, "transfer", content, "lodged", stamp, OPEN)
        self.put("names", new + 1, body["unit"], stamp, OPEN)
        return 2, new + 1

    def approve(self, _, body, new, stamp):
        """Approves the transfer of a whole right to a party that has none of its type in the unit."""
        (number, lodger, reference, source, lodged, act, content, state, *_), = self.query(LOOKUPS["MUTATION"], body["mutation"], stamp)
        transfer = json.loads(content)
        right, = self.query(LOOKUPS["ENTRY"], transfer["right"], stamp)
        entries = self.query(LOOKUPS["ENTRIES_OF_UNIT"], transfer["unit"], stamp)
        if state != "lodged" or share(right) != transfer["share"] or any(row[2] == transfer["receiver"] for row in entries):
            raise ValueError("this server does not implement such an approval")
        if not self.query(LOOKUPS["PARTY"], transfer["receiver"], stamp):
            raise ValueError("the receiver does not exist")
        close = "UPDATE {} SET until = ? WHERE number = ? AND until = ?"
        self.base.execute(close.format("rrr"), (stamp, right[0], OPEN))
        self.put("rrr", new, right[1], transfer["receiver"], *right[3:10], source, stamp, OPEN)
        self.base.execute(close.format("mutation"), (stamp, number, OPEN))
        self.put("mutation", number, lodger, reference, source, lodged, act, content, "approved", stamp, OPEN)
        return 1, number


class Handler(http.server.BaseHTTPRequestHandler):
    protocol_version = "HTTP/1.1"
    wbufsize = -1

    def answer(self, work):
        try:
            value, status = work(int(self.headers["Register-Party"]), self.headers["Register-Role"]), 200
        except Denied as rule:
            value, status = {"denied": rule.args[0]}, 403
        except UnknownPath:
            value, status = {"fault": 136}, 400
        is_text = isinstance(value, str)
        body = (value if is_text else json.dumps(value, separators=(",", ":"), sort_keys=True)).encode()
        self.send_response_only(status)
        self.send_header("Content-Type", "text/plain; charset=utf-8" if is_text else "application/json")
        self.send_header("Content-Length", str(len(body)))
        self.end_headers()
        self.wfile.write(body)

    def do_GET(self):
        self.answer(lambda party, role: self.server.register.read(party, role, self.path))

    def do_POST(self):
        body = json.loads(self.rfile.read(int(self.headers["Content-Length"])))
        act = re.fullmatch("/acts/(enrol|register|transfer|approve)", self.path)[1]
        self.answer(lambda party, role: self.server.register.write(party, role, act, body))

    def log_message(self, *_):
        pass


def main():
    file, port = sys.argv[1], int(sys.argv[2])
    server = http.server.HTTPServer(("127.0.0.1", port), Handler)
    base = sqlite3.connect(file)
    base.execute("PRAGMA locking_mode = exclusive")
    base.execute("PRAGMA journal_mode = wal")
    base.execute("PRAGMA synchronous = full")
    server.register = Register(base)
    server.serve_forever()


if __name__ == "__main__":
    main()
