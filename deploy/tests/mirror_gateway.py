"""The read gateway: faults, waiting for a stamp, limits, lost servers, and the description of the interface."""
import json
import threading
import time

from harness import check, note
from mirror_acts import KINDS, Actor, Load, Reader, prepare
from mirror_cluster import Server, feed_once, serving, start_feed
from mirror_feed import state, wait_for
from mirror_queries import Gateway
import mirror_openapi

OFFICE = (1, "stateAdministrator")


def test_faults(gateway):
    """The gateway reports the register's faults, in the register's order."""
    head = {"Register-Party": "1", "Register-Role": "stateAdministrator"}
    cases = [
        ("/", 136), ("/nowhere", 136), ("/parties/", 136), ("/parties/1/sheet", 136), ("//parties", 136), ("/map/tiles/1/1",
            136), ("/Parties", 136),
        ("/parties/0", 132), ("/parties/1000000001", 132), ("/parties/x", 132), ("/parties/00000000000001", 132), ("/parties/-1", 132),
        ("/parties?at=", 132), ("/parties?at=x", 132), ("/parties?at=4102444800000", 132), ("/parties?at=4102444799999", 135),
        ("/parties?at=1&at=1", 131), ("/parties?of=rrr", 131), ("/parties?number=1", 131), ("/parties?after=-1", 132), ("/parties?when=1",
            131),
        ("/search/parties", 131), ("/search/parties?q=a", 133), ("/search/parties?q=" + "a" * 201, 133), ("/search/parties?q=%00ab", 133),
        ("/search/parties?q=ab&q=ab", 131), ("/search/parties?q=ab&limit=1001", 132), ("/search/sources?q=ab",
            136), ("/objects/parties?sort=kind", 133),
        ("/objects/parties?kind=dog", 133), ("/objects/rrrs?class='", 133), ("/objects/rrrs?sort=name", 133), ("/objects/units?skip=x",
            132),
        ("/map/parcels", 131), ("/map/parcels?box=1,2,3", 132), ("/map/parcels?box=3,0,1,1", 132), ("/map/parcels?box=0,0,1,nan", 132),
        ("/map/parcels?box=0,0,1e9,1", 132), ("/map/parcels/at?point=1", 132), ("/map/tiles/25/0/0", 132), ("/map/tiles/0/-1/0", 132),
        ("/extracts/all.csv", 136), ("/extracts/parcels.txt", 136), ("/units/x/history", 132), ("/areas?limit=0", 132),
        ("/mandates?side=all", 133), ("/mandates?current=2", 132), ("/mandates?party=2", 131), ("/mandates?principal=2", 131),
        ("/mandates?side=given&side=held", 131), ("/mandates/2", 136)]
    for target, fault in cases:
        status, _, body = gateway.get(*OFFICE, target)
        check(f"{target}: fault {fault}", (status, body) == (400, b'{"fault":%d}' % fault), (status, body))
    for method in ("POST", "PUT", "DELETE", "HEAD", "OPTIONS"):
        status, _, body = gateway.get(*OFFICE, "/parties", method)
        check(f"{method}: fault 137", status == 400 and (method == "HEAD" or body == b'{"fault":137}'), (status, body))
    for fields, fault in (({}, 131), ({"Register-Party": "1"}, 131), ({"Register-Role": "citizen"}, 131),
                          ({**head, "Register-Party": "0"}, 132),
                          ({**head, "Register-Party": "1.5"}, 132), ({**head, "Register-Role": "office"}, 134),
                          ({**head, "Register-Role": "citizen, bank"}, 134), ({**head, "Register-Role": "Citizen"}, 134)):
        status, _, body = gateway.get(0, "", "/parties", headers=fields)
        check(f"caller {fields}: fault {fault}", (status, body) == (400, b'{"fault":%d}' % fault), (status, body))
    gateway.line.putrequest("GET", "/parties")
    for name in ("Register-Party", "register-party", "Register-Role"):
        gateway.line.putheader(name, "1" if name.lower().endswith("party") else "stateAdministrator")
    gateway.line.endheaders()
    reply = gateway.line.getresponse()
    check("a doubled field: fault 131", reply.read() == b'{"fault":131}')
    for hostile in ("';DROP TABLE reg.rrr;--", "\\", "%%%", "$1", "{{", "\u202e", "' OR 1=1 --", "a" * 200):
        quoted = "".join(f"%{byte:02x}" for byte in hostile.encode())
        status, _, body = gateway.get(*OFFICE, f"/search/parties?q={quoted}xx"[:900])
        check(f"hostile words {hostile[:20]!r} find nothing", status == 400 or (status, json.loads(body)) == (200, {"found": []}),
              (status, body))


def test_callers(gateway, ledger, port):
    """Callers that ask at the same time get their own replies."""
    reader = Reader(port)
    asks = [(row["party"], row["role"], f"/{path}") for row in ledger.current["role"] for path in KINDS.values()][:240]
    wanted = [(status, json.loads(text)) for status, text in reader.get(asks)]
    reader.close()
    wrong = []

    def work(turn):
        import http.client
        line = http.client.HTTPConnection("127.0.0.1", gateway.port, timeout=30)
        for step in range(len(asks)):
            place = (step * 7 + turn * 31) % len(asks)
            party, role, target = asks[place]
            line.request("GET", target, None, {"Register-Party": str(party), "Register-Role": role})
            reply = line.getresponse()
            found = reply.status, json.loads(reply.read())
            if found != wanted[place]:
                wrong.append((asks[place], found, wanted[place]))
        line.close()
    threads = [threading.Thread(target=work, args=(turn,)) for turn in range(8)]
    [it.start() for it in threads]
    [it.join() for it in threads]
    check(f"8 clients at a time get their own replies ({8 * len(asks)})", not wrong, wrong[:2])


def test_after(gateway, folder, server, name, file, service):
    """`after` waits for a stamp; the reply is never older."""
    status, headers, body = gateway.get(*OFFICE, "/parties")
    stamp = int(headers["Register-Stamp"])
    began = time.monotonic()
    status, headers, body = gateway.get(*OFFICE, f"/parties?after={stamp + 1}")
    waited = time.monotonic() - began
    check("a stamp that does not arrive: 503 after two seconds", (status, body) == (503, b'{"mirror":"behind"}') and 1.9 < waited < 4,
          (status, waited))
    check("the reply names the mirror's stamp", headers["Register-Stamp"] == str(stamp) and headers["Retry-After"])
    feed = start_feed(folder, server, name, file)
    load = Load(service, 50, seed=3)
    try:
        load.start()
        times, old = [], []
        for _ in range(60):
            wait_for(lambda: load.stamp)
            wanted, began = load.stamp, time.monotonic()
            status, headers, _ = gateway.get(*OFFICE, f"/parties/1?after={wanted}")
            times.append(time.monotonic() - began)
            if status != 200 or int(headers["Register-Stamp"]) < wanted:
                old.append((status, headers["Register-Stamp"], wanted))
            time.sleep(0.02)
        check("the reply is never older than `after`", not old, old)
        times.sort()
        note(f"after=STAMP at 50 acts/s: median {times[30] * 1000:.0f} ms, worst {times[-1] * 1000:.0f} ms")
    finally:
        load.stop()
        feed.kill()
        feed.communicate()


def test_trouble(gateway, server, name):
    """A query that takes too long, a server that is lost, a mirror that was stopped."""
    with server.connect("postgres", name) as db, db.cursor() as cursor:
        cursor.execute("BEGIN; LOCK TABLE reg.source IN ACCESS EXCLUSIVE MODE")
        began = time.monotonic()
        status, _, body = gateway.get(*OFFICE, "/sources")
        check("a query that takes too long: 503", (status, body) == (503, b'{"mirror":"timeout"}'), (status, body))
        check("within its time limit", 0.9 < time.monotonic() - began < 4)
        cursor.execute("ROLLBACK")
    check("then it answers again", gateway.get(*OFFICE, "/sources")[0] == 200)
    server.stop()
    status, _, body = gateway.get(*OFFICE, "/sources")
    check("a lost server: 503", (status, body) == (503, b'{"mirror":"absent"}'), (status, body))
    check("the state says so", gateway.get(*OFFICE, "/state")[0] == 503)
    server.start()
    check("it answers again after a restart", wait_for(lambda: gateway.get(*OFFICE, "/sources")[0] == 200, 20))
    check("the state has the stamp", json.loads(gateway.get(*OFFICE, "/state")[2])["mirrors"][0]["stamp"] == state(server, name)[0])
    with server.connect("postgres", name) as db, db.cursor() as cursor:
        cursor.execute("UPDATE reg.state SET halted = 'test'")
    status, headers, body = gateway.get(*OFFICE, "/sources")
    check("a mirror that was stopped: 503", (status, body) == (503, b'{"mirror":"stopped"}'), (status, body))


def test_replicas(folder, server, name, file, service):
    """With a standby that is late, no client sees stamps go back."""
    with Server(folder, "late", copy_of=server) as standby:
        feed = start_feed(folder, server, name, file, "--every", "0.05")
        load = Load(service, 50, seed=4)
        load.start()
        try:
            with Gateway(standby.dsn("land_gateway", name), server.dsn("land_gateway", name)) as gateway, \
                    standby.connect("postgres", name) as db, db.cursor() as cursor:
                last, back, behind = {}, [], 0
                for turn in range(240):
                    if turn % 40 == 10:
                        cursor.execute("SELECT pg_wal_replay_pause()")
                    if turn % 40 == 30:
                        cursor.execute("SELECT pg_wal_replay_resume()")
                    party = turn % 4 // 2 + 1
                    target = "/parties/1" if turn % 5 else f"/parties/1?after={load.stamp}"
                    status, headers, body = gateway.get(party, "stateAdministrator" if party == 1 else "notary", target)
                    if status == 503:
                        behind += 1
                    else:
                        stamp = int(headers["Register-Stamp"])
                        if stamp < last.get(party, 0):
                            back.append((party, stamp, last[party]))
                        last[party] = stamp
                    time.sleep(0.005)
                check("stamps never go back for a client", not back and len(last) == 2, back[:3])
                note(f"240 requests at a primary and a late standby: {behind} were told to retry")
        finally:
            load.stop()
            feed.kill()
            feed.communicate()


def run(folder, server):
    name, file = "gateway", folder.register("gateway")
    server.install(name)
    with serving(file) as service:
        actor = Actor(service.port, 9)
        actor.acts(150)
        actor.close()
        prepare(service.port)
        first = feed_once(folder, server, name, file)
        check("the first load", first.returncode == 0, first.stderr)
        with Gateway(server.dsn("land_gateway", name), options=("--time-limit", 1)) as gateway:
            test_faults(gateway)
            test_callers(gateway, actor.ledger, service.port)
            mirror_openapi.run(gateway, actor.ledger)
            test_after(gateway, folder, server, name, file, service)
            test_replicas(folder, server, name, file, service)
            test_trouble(gateway, server, name)
        note(f"messages of the gateway: {len(gateway.errors.splitlines())}")
        check("the gateway printed no traceback", "Traceback" not in gateway.errors, gateway.errors[-600:])
