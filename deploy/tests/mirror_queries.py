"""The queries of the mirror over HTTP, compared with their definitions in docs/MIRROR.md. The expected results are computed from the
program's replies, which determine the visible objects, and from the expected rows of the register."""
import contextlib
import http.client
import json
import os
import random
import re
import shutil
import subprocess
import time
from fractions import Fraction

from harness import check, note
from mirror_acts import KINDS, OPEN, Actor, Reader
from mirror_cluster import MIRROR, alive, feed_once, free_port, serving, user
from stack import program


# The side of the square that the tiles cover, in metres: it has all parcels.
PLANE = 2**20


class Gateway:
    """A read gateway on a port, as the user nobody."""

    def __init__(self, *dsns, options=()):
        self.port = free_port()
        self.process = subprocess.Popen([MIRROR, "serve", *dsns, "--port", str(self.port), *map(str, options)], preexec_fn=user("nobody"),
                                        cwd="/",
                                        stderr=subprocess.PIPE, text=True)
        for _ in range(500):
            with contextlib.suppress(OSError):
                http.client.HTTPConnection("127.0.0.1", self.port, timeout=1).connect()
                return
            if not alive(self.process.pid):
                raise SystemExit(f"the gateway ended: {self.process.stderr.read()}")
            time.sleep(0.02)

    def __enter__(self):
        self.line = http.client.HTTPConnection("127.0.0.1", self.port, timeout=30)
        return self

    def __exit__(self, *_):
        self.line.close()
        self.process.kill()
        self.errors = self.process.communicate()[1]

    def get(self, party, role, target, method="GET", headers=None):
        """Returns the status, the fields and the body of a reply."""
        fields = {"Register-Party": str(party), "Register-Role": role} if headers is None else headers
        try:
            self.line.request(method, target, None, fields)
            reply = self.line.getresponse()
        except (http.client.RemoteDisconnected, ConnectionError):      # an idle connection was closed
            self.line.close()
            self.line.request(method, target, None, fields)
            reply = self.line.getresponse()
        return reply.status, reply.headers, reply.read()

    def json(self, party, role, target):
        status, _, body = self.get(party, role, target)
        return json.loads(body) if status == 200 else (status, body)


class View:
    """What a caller sees at a moment, by the program: the objects of each kind by number."""

    def __init__(self, reader, party, role, at):
        query = "" if at is None else f"?at={at}"
        self.party, self.role, self.query, self.at = party, role, query, at
        replies = reader.get([(party, role, f"/{path}{query}") for path in KINDS.values()])
        self.allowed = replies[0][0] == 200
        self.numbers = {kind: json.loads(text).get("numbers", []) for kind, (_, text) in zip(KINDS, replies)}
        self.objects = {}
        for kind, numbers in self.numbers.items():
            found = reader.get([(party, role, f"/{KINDS[kind]}/{it}{query}") for it in numbers])
            self.objects[kind] = {number: json.loads(text)["object"] for number, (_, text) in zip(numbers, found)}


class Queries:
    def __init__(self, folder, server, seed, acts):
        self.name, self.dice = f"queries{seed}", random.Random(seed)
        self.file = folder.register(self.name)
        server.install(self.name)
        with server.connect("postgres", self.name) as db, db.cursor() as cursor:
            cursor.execute("UPDATE access.setting SET tile_west = 0, tile_north = %s, tile_side = %s", (PLANE / 2, PLANE))
        self.folder, self.server, self.compared = folder, server, 0
        self.mandates = [0, 0]          # shown in full lists, and of these those that ended
        with serving(self.file) as service:
            actor = Actor(service.port, seed)
            actor.acts(acts)
            for _ in range(30):         # mandates are rare among random acts
                for act in (actor.scenario.mandate, actor.scenario.mandate, actor.scenario.withdraw):
                    actor.client.send(act())
            actor.close()
            self.ledger = actor.ledger
            run = feed_once(folder, server, self.name, self.file)
            if run.returncode:
                raise SystemExit(run.stderr)
            self.reader = Reader(service.port)
            with Gateway(server.dsn("land_gateway", self.name)) as self.gateway:
                self.compare()
            self.reader.close()

    # ---- expected rows

    def rows(self, table):
        """Yields all versions of a table as dictionaries."""
        for row in self.ledger.current[table]:
            yield {**row, "until": OPEN}
        from soak_tests.ledger import COLUMNS
        for closed in self.ledger.closed:
            if closed[0] == table:
                yield dict(zip((*COLUMNS[table], "since", "until"), closed[1:]))

    # ---- comparison

    def equal(self, name, found, wanted):
        self.compared += 1
        check(f"{self.name} {name}", found == wanted, f"{str(found)[:300]} is not {str(wanted)[:300]}")

    def callers(self):
        held = {}
        for row in self.ledger.current["role"]:
            held.setdefault(row["role"], []).append(row["party"])
        for role, parties in sorted(held.items()):
            for party in self.dice.sample(parties, min(len(parties), 4 if role == "citizen" else 1)):
                yield party, role
        given = {it[side] for it in self.rows("mandate") for side in ("principal", "agent")}
        for party in self.dice.sample(sorted(given), 2):
            yield party, "citizen"

    def compare(self):
        stamps = [it for it, _ in self.ledger.moments]
        for party, role in self.callers():
            for at in (None, *self.dice.sample(stamps, 3)):
                view = View(self.reader, party, role, at)
                if view.allowed:
                    self.compare_view(view)
                else:
                    status, _, body = self.gateway.get(party, role, f"/search/parties?q=an&at={at}")
                    self.equal("a denied query", (status, body), (403, b'{"denied":3}'))
            if role not in ("bank", "conveyancer", "certifiedSurveyor"):
                self.compare_histories(party, role)
        self.compare_mandates_of_all()
        note(f"{self.name}: {self.compared} answers compared; {self.mandates[0]} mandates, of which {self.mandates[1]} had ended")

    def compare_view(self, view):
        def ask(target):
            return self.gateway.json(view.party, view.role, target + ("&" if "?" in target else "?") + view.query[1:])
        name = f"{view.role} {view.party} at {view.at}:"
        self.compare_search(view, ask, name)
        self.compare_pages(view, ask, name)
        self.compare_map(view, ask, name)
        self.compare_sums(view, ask, name)
        self.compare_mandates(view, ask, name)
        for kind, path in KINDS.items():
            status, headers, body = self.gateway.get(view.party, view.role, f"/extracts/{path}.csv{view.query}")
            self.equal(f"{name} extract of {kind}", (status, headers["Content-Type"].split(";")[0], body),
                       (200, "text/csv", self.extract(view, kind)))

    def compare_search(self, view, ask, name):
        for word in ("anna", "É", "e ", "1", "Дми", "%", "_", "𝔼ve", "\\"):
            quoted = "".join(f"%{byte:02x}" for byte in (word * 2 if len(word) < 2 else word).encode())
            word = word * 2 if len(word) < 2 else word
            for kind, field, fields in (("party", "name", ("number", "name", "kind")), ("unit", "name", ("number", "name")),
                                        ("parcel", "label", ("number", "unit", "label"))):
                wanted = [{key: it[key] for key in fields} for it in view.objects[kind].values() if word.lower() in it[field].lower()]
                wanted.sort(key=lambda it: (it[field].encode(), it["number"]))
                self.equal(f"{name} search {kind} {word}", ask(f"/search/{KINDS[kind]}?q={quoted}&limit=1000"), {"found": wanted})
                self.equal(f"{name} search {kind} {word}, 3", ask(f"/search/{KINDS[kind]}?q={quoted}&limit=3"), {"found": wanted[:3]})

    def compare_pages(self, view, ask, name):
        text = {"party": "name", "unit": "name", "parcel": "label", "source": "title"}
        filters = {"party": ["kind=group", "kind=naturalPerson"], "unit": ["checked=1"], "parcel": [],
                   "rrr": ["class=ownership", "class=mortgage"],
                   "source": ["kind=spatial"], "mutation": ["state=lodged", "state=approved&act=transfer"]}
        for kind, path in KINDS.items():
            objects = list(view.objects[kind].values())
            for sort in ("number", "-number", *(("name", "-name") if kind in text else ())):
                field = text.get(kind) if "name" in sort else "number"
                wanted = sorted(objects, key=lambda it: it["number"])
                if "name" in sort:
                    wanted.sort(key=lambda it: it[field].encode(), reverse=sort[0] == "-")
                elif sort[0] == "-":
                    wanted.reverse()
                skip = self.dice.randrange(4)
                self.equal(f"{name} page {kind} {sort}", ask(f"/objects/{path}?sort={sort}&skip={skip}&limit=5"),
                           {"objects": wanted[skip:skip + 5], "more": len(wanted) > skip + 5})
            for it in filters[kind]:
                pairs = dict(part.split("=") for part in it.split("&"))
                wanted = [row for row in objects if all((int(row[key]) if key == "checked" else row[key]) == (int(value)
                    if key == "checked" else value)
                                                        for key, value in pairs.items())]
                self.equal(f"{name} page {kind} {it}", ask(f"/objects/{path}?{it}&limit=1000"), {"objects": wanted, "more": False})
        unit = self.dice.choice([it["number"] for it in self.rows("unit")])
        for kind in ("parcel", "rrr"):
            wanted = [row for row in view.objects[kind].values() if row["unit"] == unit]
            self.equal(f"{name} page {kind} unit={unit}", ask(f"/objects/{KINDS[kind]}?unit={unit}"), {"objects": wanted, "more": False})

    def compare_map(self, view, ask, name):
        def corners(it):
            found = [int(word) for word in re.findall(r"-?\d+", it["outline"])]
            return min(found[::2]), min(found[1::2]), max(found[::2]), max(found[1::2])
        parcels = list(view.objects["parcel"].values())
        if not parcels:
            return
        west, south, east, north = corners(self.dice.choice(parcels))
        boxes = [(west - 5000, south, west + 12000, north), (west, south, west + 1, south + 1), (0, 0, 0, 0)]
        for box in boxes:
            wanted = [it["number"] for it in parcels if corners(it)[0] <= box[2] and box[0] <= corners(it)[2] and corners(it)[1] <= box[3]
                      and box[1] <= corners(it)[3]]
            found = ask("/map/parcels?box=" + ",".join(f"{it / 1000:.3f}" for it in box))
            self.equal(f"{name} box {box}", [it["id"] for it in found["features"]], wanted)
        found = ask(f"/map/parcels/at?point={west / 1000:.3f},{south / 1000 + 1:.3f}")
        wanted = [it["number"] for it in parcels if corners(it)[0] <= west <= corners(it)[2]
                  and corners(it)[1] <= south + 1000 <= corners(it)[3]]
        self.equal(f"{name} point", [it["id"] for it in found["features"]], wanted)
        found = ask("/extracts/parcels.geojson")
        self.equal(f"{name} GeoJSON", [(it["id"], it["properties"]["label"], Fraction(str(it["properties"]["square_metres"])),
                                        it["geometry"]["coordinates"][0][0]) for it in found["features"]],
                   [(it["number"], it["label"], Fraction(it["doubled"], 2000000), first_corner(it)) for it in parcels])

        self.compare_tile(view, name, parcels, corners)

    def compare_tile(self, view, name, parcels, corners):
        """A tile has the parcels that its square, with a margin of a 64th, has in common with them."""
        side, north = PLANE * 1000 // 2**14, PLANE * 500           # millimetres
        west, south, _, _ = corners(self.dice.choice(parcels))
        x, y = west // side, (north - south - 1) // side
        box = x * side, north - (y + 1) * side, (x + 1) * side, north - y * side
        status, _, body = self.gateway.get(view.party, view.role, f"/map/tiles/14/{x}/{y}{view.query}")
        found = sorted(tile_numbers(body))
        wanted = sorted(it["number"] for it in parcels if corners(it)[0] < box[2] and box[0] < corners(it)[2] and corners(it)[1] < box[3]
                        and box[1] < corners(it)[3])
        self.equal(f"{name} tile", (status, set(wanted) <= set(found) and len(found) <= len(wanted) + 2 and bool(found)), (200, True))

    def compare_sums(self, view, ask, name):
        entries = view.objects["rrr"].values()
        mortgages = [it for it in entries if it["class"] == "mortgage" and (view.role != "bank" or it["party"] == view.party)]
        loans = {(it["party"], it["source"], it["amount"], it["currency"]) for it in mortgages}
        totals = [{"currency": it, "amount": sum(loan[2] for loan in loans if loan[3] == it), "loans": sum(loan[3] == it for loan in loans)}
                  for it in sorted({loan[3] for loan in loans})]
        self.equal(f"{name} mortgages", ask("/mortgages?limit=1000"), {"mortgages": mortgages, "totals": totals})
        ground = {}
        for it in view.objects["parcel"].values():
            ground[it["unit"]] = ground.get(it["unit"], 0) + it["doubled"]
        areas, units = {}, {}
        for it in entries:
            if it["class"] == "ownership" and it["unit"] in ground:
                areas[it["party"]] = areas.get(it["party"], 0) + ground[it["unit"]] * Fraction(it["share"])
                units[it["party"]] = units.get(it["party"], 0) + 1
        found = ask("/areas?limit=1000")
        order = [it["party"] for it in sorted(found["holders"], key=lambda it: (-Fraction(str(it["square_metres"])), it["party"]))]
        self.equal(f"{name} areas, parties", sorted(order), sorted(areas))
        self.equal(f"{name} areas", [(it["party"], it["name"], it["units"]) for it in found["holders"]],
                   [(it, view.objects["party"][it]["name"], units[it]) for it in order])
        self.equal(f"{name} areas, square metres", all(abs(Fraction(str(it["square_metres"])) * 2000000 - areas[it["party"]]) <= 101
                                                       for it in found["holders"]), True)
        lodged = [it for it in view.objects["mutation"].values() if it["state"] == "lodged"]
        self.equal(f"{name} undecided", ask("/undecided?limit=1000"), {"undecided": lodged})
        unit = self.dice.choice([it["unit"] for it in self.rows("names")])
        refers = {it["mutation"] for it in self.rows("names") if it["unit"] == unit}
        self.equal(f"{name} undecided of {unit}", ask(f"/units/{unit}/undecided"),
                   {"undecided": [it for it in lodged if it["number"] in refers]})

    def compare_mandates(self, view, ask, name):
        """A citizen sees the mandates of which it is the principal or the agent, newest first; in other roles rule 28 denies them."""
        if view.role != "citizen":
            self.equal(f"{name} mandates", ask("/mandates"), (403, b'{"denied": 28}'))
            return
        moment = self.ledger.moments[-1][0] if view.at is None else view.at

        def party(number):
            seen = view.objects["party"].get(number)
            return {"number": number, **({"name": seen["name"]} if seen else {})}
        own = [it for it in self.rows("mandate") if view.party in (it["principal"], it["agent"]) and it["since"] <= moment]
        own.sort(key=lambda it: -it["since"])
        wanted = [({"principal": party(it["principal"]), "agent": party(it["agent"]), "since": it["since"],
                    **({"until": it["until"]} if it["until"] <= moment else {})}) for it in own]
        sides = {"": wanted, "side=given": [it for it in wanted if it["principal"]["number"] == view.party],
                 "side=held": [it for it in wanted if it["agent"]["number"] == view.party]}
        for side, of_side in sides.items():
            for current in ("", "current=1", "current=0"):
                rows = [it for it in of_side if not current or ("until" in it) == (current == "current=0")]
                query = "&".join(filter(None, (side, current)))
                self.equal(f"{name} mandates {query}", ask(f"/mandates?limit=1000&{query}".rstrip("&")), {"mandates": rows, "more": False})
                skip = self.dice.randrange(3)
                self.equal(f"{name} mandates {query}, a page", ask(f"/mandates?limit=2&skip={skip}&{query}".rstrip("&")),
                           {"mandates": rows[skip:skip + 2], "more": len(rows) > skip + 2})
        self.mandates[0] += len(wanted)
        self.mandates[1] += sum("until" in it for it in wanted)

    def mandate_faults(self):
        """Asks for the mandates as each citizen. Returns those that are missing, or are shown to another party."""
        found = []
        for party in sorted({row["party"] for row in self.ledger.current["role"] if row["role"] == "citizen"}):
            reply = self.gateway.json(party, "citizen", "/mandates?limit=1000")
            shown = {(it["principal"]["number"], it["agent"]["number"], it["since"], it.get("until", OPEN)) for it in reply["mandates"]}
            wanted = {(it["principal"], it["agent"], it["since"], it["until"]) for it in self.rows("mandate")
                      if party in (it["principal"], it["agent"])}
            found += [(party, it) for it in shown ^ wanted]
            self.compared += 1
        return found

    def compare_mandates_of_all(self):
        """Each citizen sees its own mandates and no other. Changes of the query that show others, or hide own ones, are found."""
        faults = self.mandate_faults()
        check(f"{self.name}: no citizen sees the mandates of others", not faults, faults[:3])
        check(f"{self.name}: mandates were compared, and some had ended", self.mandates[0] > 20 and self.mandates[1] > 5, self.mandates)
        with self.server.connect("postgres", self.name) as db, db.cursor() as cursor:
            cursor.execute("SELECT pg_get_functiondef('citizen.mandates'::regproc)")
            text = cursor.fetchone()[0]
            for old, new in (("m.principal = me OR m.agent = me", "true"), ("m.agent = me)", "m.agent = ANY(circle))"),
                             ("(m.principal = me OR", "(m.principal = ANY(circle) OR"), ("(m.principal = me OR", "("),
                             ("m.since <= t AND (", "m.since <= t AND t < m.until AND (")):
                check(f"the query of the mandates has `{old}`", old in text)
                cursor.execute(text.replace(old, new, 1))
                check(f"mutant of the mandates killed: `{new}`", self.mandate_faults())
            cursor.execute(text)

    def compare_histories(self, party, role):
        """A row that ends is shown if row and unit are visible right before, a row that begins if both are visible then."""
        views, rows = {}, {kind: list(self.rows(kind)) for kind in ("unit", "parcel", "rrr", "mutation")}
        refers = list(self.rows("names"))

        def sees(at):
            if at not in views:
                replies = self.reader.get([(party, role, f"/{KINDS[kind]}?at={max(at, 0)}") for kind in rows])
                views[at] = {kind: set(json.loads(text)["numbers"]) for kind,
                             (_, text) in zip(rows, replies)} if at >= 0 else {kind: () for kind in rows}
            return views[at]
        units = sorted({it["number"] for it in rows["unit"]})
        for unit in self.dice.sample(units, min(len(units), 12)):
            own = [(kind, it) for kind, key in (("unit", "number"), ("parcel", "unit"), ("rrr", "unit")) for it in rows[kind]
                   if it[key] == unit]
            of_unit = {it["mutation"] for it in refers if it["unit"] == unit}
            stamps = {it[end] for _, it in own for end in ("since", "until")} | {it["since"] for it in rows["mutation"]
                if it["number"] in of_unit}
            wanted = []
            for stamp in sorted(stamps - {OPEN}, reverse=True):
                ended = began = ()
                if unit in sees(stamp - 1)["unit"]:
                    ended = sorted((kind, it["number"]) for kind,
                                   it in own if it["until"] == stamp and it["number"] in sees(stamp - 1)[kind])
                if unit in sees(stamp)["unit"]:
                    began = sorted((kind, it["number"]) for kind, it in own if it["since"] == stamp and it["number"] in sees(stamp)[kind])
                decided = sorted((it["number"], it["state"]) for it in rows["mutation"]
                                 if it["since"] == stamp and it["number"] in of_unit and it["number"] in sees(stamp)["mutation"])
                if ended or began or decided:
                    wanted.append((stamp, list(ended), list(began), decided))
            found = self.gateway.json(party, role, f"/units/{unit}/history?limit=1000")["history"]
            self.equal(f"{role} {party}: history of {unit}", [
                (it["stamp"], *(sorted((kind, row["number"]) for one in it[side] for kind, row in one.items())
                                for side in ("ended", "began")),
                 [(row["number"], row["state"]) for row in it["mutations"]]) for it in found], wanted)
            self.equal(f"{role} {party}: the newest of {unit}",
                       self.gateway.json(party, role, f"/units/{unit}/history?limit=2")["history"], found[:2])

    def extract(self, view, kind):
        """Runs `land extract` on a copy of the register."""
        copy = os.path.join(self.folder.path, "extract.land")
        if not getattr(self, "copied", None):
            for end in ("", "-wal"):
                shutil.copyfile(self.file + end, copy + end)
            self.copied = True
        words = [program(), "extract", "--file", copy, "--clock", str(self.ledger.moments[-1][0]), "--party", str(view.party), "--role",
                 view.role,
                 "--kind", kind, *(["--at", str(view.at)] if view.at is not None else [])]
        ran = subprocess.run(words, capture_output=True)
        return ran.stdout if ran.returncode == 0 else ran.stderr


def fields_of(data):
    """Yields the fields of a protobuf message: number and value."""
    at = 0

    def varint():
        nonlocal at
        number = shift = 0
        while True:
            byte = data[at]
            at += 1
            number |= (byte & 127) << shift
            shift += 7
            if byte < 128:
                return number
    while at < len(data):
        key = varint()
        if key & 7 == 0:
            yield key >> 3, varint()
        elif key & 7 == 2:
            size = varint()
            yield key >> 3, data[at:at + size]
            at += size
        else:
            raise ValueError(f"wire type {key & 7}")


def packed(data):
    return [value for _, value in fields_of(b"".join(b"\x08" + it for it in re.findall(rb"[\x80-\xff]*[\x00-\x7f]", data, re.S)))]


def tile_numbers(tile):
    """Returns the values of `number` in the features of a vector tile."""
    found = []
    for _, layer in fields_of(tile):
        parts = list(fields_of(layer))
        keys = [it.decode() for field, it in parts if field == 3]
        values = [dict(fields_of(it)) for field, it in parts if field == 4]
        for field, feature in parts:
            if field == 2:
                tags = next((packed(it) for number, it in fields_of(feature) if number == 2), [])
                named = {keys[key]: values[value] for key, value in zip(tags[::2], tags[1::2])}
                found.append(next(iter(named["number"].values())))
    return found


def first_corner(it):
    x, y = re.match(r"POLYGON \(\((-?\d+) (-?\d+)", it["outline"]).groups()
    return [int(x) / 1000, int(y) / 1000]


def run(folder, server, registers=1, acts=200):
    for seed in range(31, 31 + registers):
        Queries(folder, server, seed, acts)
