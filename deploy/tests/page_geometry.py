"""The page's own checks of outlines and of the match of boundaries, compared with the register: texts with each fault, and random
subdivisions that match or not. The page must report each fault that the register reports, and must let no lodging pass that the office
could not approve, nor stop one that it could."""
import json
import random

from harness import check, note

OFFICE, SAM = (1, "stateAdministrator"), (6, "certifiedSurveyor")
# Texts with each fault of docs/OUTLINES.md, some with several, and correct ones.
TEXTS = ["", "POLYGON", "POLYGON EMPTY", "polygon empty", "POLYGONEMPTY", "POLYGON EMPTY x",
    "POLYGON (EMPTY)", "POINT (0 0)",
         "POLYGON ((0 0, 4 0, 4 4, 0 0)", "POLYGON ((0 0, 4 0, 4 4, 0 0))", "POLYGON((0 0,4 0,4 4,0 0))",
             "POLYGON Z ((0 0 1, 4 0 1, 4 4 1, 0 0 1))",
         "POLYGONZ ((0 0, 4 0, 4 4, 0 0))", "POLYGONZ M ((0 0, 4 0, 4 4, 0 0))",
             "POLYGON ((0 0 1, 4 0, 4 4, 0 0))", "POLYGON ((0, 4 0, 4 4, 0 0))",
         "POLYGON ((0 0 1 2 3, 4 0, 4 4, 0 0))", "POLYGON ((0 0, 9 0, 9 9, 0 0), (1 1, 2 1, 2 2, 1 1))",
             "POLYGON ((0 0, 4.5 0, 4 4, 0 0))",
         "POLYGON ((0 0, 4.000 0, 4. 4, -0 0))", "POLYGON ((0 0, .0 0, 4 4, 0 0))",
             "POLYGON ((0 0, 1e1 0, 4 4, 0 0))",
         "POLYGON ((0 0, +-4 0, 4 4, 0 0))", "POLYGON ((0 0, 10000000001 0, 4 4, 0 0))",
             "POLYGON ((0 0, 10000000000 0, 4 4, 0 0))",
         "POLYGON ((0 0, 4 0, 0 0))", "POLYGON ((0 0, 4 0, 4 4, 0 4))", "POLYGON ((0 0, 4 4, 4 0, 0 4, 0 0))",
             "POLYGON ((0 0, 4 0, 8 0, 0 0))",
         "POLYGON ((0 0, 8 0, 4 0, 4 4, 0 0))", "POLYGON ((0 0, 4 0, 4 0, 4 4, 0 0))",
             "POLYGON ((0 0, 8 0, 8 8, 4 0, 0 8, 0 0))",
         "POLYGON ((0 0, 2 0, 4 0, 4 4, 0 4, 0 0))", "POLYGON ((0 0, 0 4, 4 4, 4 0, 0 0))",
             "POLYGON ((-5000000000 -5000000000, 5000000000 "
         "-5000000000, 5000000000 5000000000, -5000000000 5000000000, -5000000000 -5000000000))",
             "POLYGON ((0 0,\t4 0,\n4 4, 0 0))",
         "POLYGON ((0\u00a00, 4 0, 4 4, 0 0))", "POLYGON ((0 0, 4 0, 4 4, 0 0)) x", "((0 0, 4 0, 4 4, 0 0))",
             "POLYGON ((0 0, 4 x, 4 4, 0 0))",
         "POLYGON ((" + ", ".join(f"{n} {n * n}" for n in range(200)) + ", 0 0))",
             "POLYGON ((" + ", ".join(f"{n} {n * n}" for n in range(201)) + ", 0 0))",
         "POLYGON ((0 0, 0000000000000000000000004 0, 4 4, 0 0))",
             "POLYGON ((0 0, 4.000000000000000000000 0, 4 4, 0 0))"]


def asker(stack):
    """Returns a function that sends an act and returns (status, reply)."""
    link = stack.queue_connection()

    def act(caller, name, body):
        link.request("POST", "/acts/" + name, json.dumps(body),
            {"Register-Party": str(caller[0]), "Register-Role": caller[1]})
        reply = link.getresponse()
        return reply.status, json.loads(reply.read())
    return act


def module(it, name, call, *arguments):
    """Calls a function of a module of the page and returns its result."""
    return it.js(f"const given = arguments; return import('./{name}').then((m) => JSON.parse(JSON.stringify(m.{call}, (k, v) => "
                 "typeof v === 'bigint' ? String(v) : v)))".replace("import('./",
                     "import(location.origin + '/"), *arguments)


def texts(it, stack):
    act = asker(stack)
    wrong = []
    for text in TEXTS:
        status, reply = act(OFFICE, "register", {"name": "Shape", "checked": True, "document": "P",
            "parcels": [{"label": "x", "outline": text}],
                                                 "rights": [{"party": 2, "type": "ownership",
                                                     "share": "1/1"}]})
        said = module(it, "shape.js", "readWkt(given[0])", text)
        fault = reply.get("fault") if status != 200 else None
        if said.get("fault") != fault:
            wrong.append((text[:60], fault, said))
    check(f"{it.name}: the page reads {len(TEXTS)} outlines as the register does", not wrong, wrong[:4])


def wkt(ring):
    return "POLYGON ((" + ", ".join(f"{x} {y}" for x, y in [*ring, ring[0]]) + "))"


def tiling(rnd, x0):
    """Divides a rectangle by jittered lines. Returns the rectangle, the parts, and whether they were spoiled so that they cannot match."""
    wide, high, count = rnd.randrange(8000, 40000), rnd.randrange(8000, 40000), rnd.randrange(2, 6)
    cuts = sorted(rnd.sample(range(x0 + 500, x0 + wide - 500, 500), count - 1))
    lines = [[(x0, 0), (x0, high)]]
    for cut in cuts:
        middle = [(cut + rnd.randrange(-200, 200), high * k // 4)
            for k in range(1, 4)] if rnd.random() < 0.7 else []
        lines.append([(cut, 0), *middle, (cut, high)])
    lines.append([(x0 + wide, 0), (x0 + wide, high)])
    parts = [[*lines[n], *reversed(lines[n + 1])] for n in range(count)]
    whole = [(x0, 0), (x0 + wide, 0), (x0 + wide, high), (x0, high)]
    kind = rnd.choice(["none", "none", "corner", "moved", "missing", "twice"])
    if kind == "corner":
        part = rnd.choice(parts)
        spot = rnd.randrange(len(part))
        part[spot] = (part[spot][0] + 1, part[spot][1])
    elif kind == "moved":
        parts[0] = [(x + 700, y) for x, y in parts[0]]
    elif kind == "missing" and count > 2:
        parts.pop()
    elif kind == "twice":
        parts.append(list(parts[0]))
    return whole, [part if rnd.random() < 0.5 else part[1:] + part[:1] for part in parts]


def subdivisions(it, stack, times):
    """Random subdivisions: the page's check against the register's approval."""
    act, rnd = asker(stack), random.Random(20261129)
    wrong, matched = [], 0
    for n in range(times):
        whole, parts = tiling(rnd, 10_000_000 + n * 100_000)
        _, made = act(OFFICE, "register", {"name": f"T{n}", "checked": True, "document": "P",
            "parcels": [{"label": "t", "outline": wkt(whole)}],
                                           "rights": [{"party": 2, "type": "ownership", "share": "1/1"}]})
        unit, parcel = made["number"], made["made"][2]
        said = module(it, "parts.js", "readOutlines(given[0])", "\n".join(map(wkt, parts)))
        if "fault" not in said:
            said = module(it, "ground.js", "compareGround(given[0], [given[1]])", said["rings"],
                [list(p) for p in whole])
        status, reply = act(SAM, "subdivision", {"reference": f"R{n}", "document": "P", "unit": unit,
            "parcel": parcel,
                                                 "first": {"label": "a", "outline": wkt(parts[0])},
                                                 "rest": [{"label": "b", "outline": wkt(part)}
                                                     for part in parts[1:]]})
        if status == 200:
            status, reply = act(OFFICE, "approve", {"mutation": reply["number"]})
        same = said.get("same", False)
        matched += same
        if same != (status == 200) or (status != 200 and reply not in ({"refused": 220},
            {"fault": said.get("fault")})):
            wrong.append((n, said, status, reply))
    check(f"{it.name}: the page's check of {times} subdivisions is the register's", not wrong, wrong[:3])
    check(f"{it.name}: some match and some do not", times * 0.1 < matched < times * 0.9, matched)
    note(f"{it.name}: {times} random subdivisions, {matched} of them match")


def cuts_and_joins(it, times):
    """Random cuts of parcels: their parts match the parcel, and joining them gives the parcel again."""
    wrong = it.js("""const times = arguments[0];
        return Promise.all([import(location.origin + '/ground.js'), import(location.origin + '/shape.js')]).then(([ground, shape]) => {
            let seed = 7;
            const random = (n) => { seed = (seed * 1103515245 + 12345) % 2147483648; return seed % n; };
            const wrong = [];
            let cuts = 0;
            for (let k = 0; k < times; k += 1) {
                const [w, d] = [6000 + random(20000), 6000 + random(20000)];
                const ring = [[0, 0], [w, random(3000)], [w + random(2000), d], [random(2000), d + random(2000)]];
                const place = (n) => { const [a, b] = [ring[n], ring[(n + 1) % 4]]; const t = 0.2 + random(60) / 100;
                    return ground.snap([a[0] + (b[0] - a[0]) * t, a[1] + (b[1] - a[1]) * t], [ring], 5000).point; };
                const line = [place(0), [w / 2 | 0, d / 2 | 0], place(2)];
                const found = ground.cut(ring, line);
                if (found.error) continue;
                cuts += 1;
                if (!ground.compareGround(found.rings, [ring]).same) wrong.push(['cut', ring, line]);
                const joined = ground.join(found.rings);
                if (!joined.ring || !ground.compareGround([joined.ring], [ring]).same) wrong.push(['join', joined.error, ring, line]);
                const area = found.rings.reduce((sum, r) => sum + shape.doubledArea(r), 0n);
                if (area !== shape.doubledArea(ring)) wrong.push(['area', ring, line]);
            }
            return [cuts, JSON.stringify(wrong.slice(0, 3))];
        });""", times)
    check(f"{it.name}: {wrong[0]} cuts keep the ground, and joins restore it", wrong[1] == "[]"
        and wrong[0] > times / 2, wrong)


def run(it, times=60):
    it.sign_in("sam")
    it.go("#/start?role=certifiedSurveyor")
    stack = it.stack
    texts(it, stack)
    subdivisions(it, stack, times)
    cuts_and_joins(it, 200)
