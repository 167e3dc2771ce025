"""Measures a mirror of a large register: load, audit, lag under acts, and each query. bench/registers.py makes the register."""
import os
import re
import shutil
import statistics
import subprocess
import sys
import time

from harness import check, note
from mirror_acts import Reader
from mirror_cluster import feed_once, run_audit, serving
from mirror_feed import test_lag
from mirror_queries import Gateway
from stack import TOP

OFFICE, BANK, SMALL_BANK, OWNER = (1, "stateAdministrator"), (3, "bank"), (4, "bank"), None
RUNS = 7


def queries(owner, unit, parcel):
    """Yields a name, the caller, the query and its arguments."""
    for name, caller in (("office", OFFICE), ("owner", owner), ("bank", BANK)):
        yield f"{name}: one entry", caller, "object", '{"of": "rrr", "number": %d}' % (parcel + 1)
        yield f"{name}: search, few results", caller, "find", '{"of": "party", "q": "owner %d"}' % (unit - 4)
        yield f"{name}: search, many results, 50 shown", caller, "find", '{"of": "party", "q": "wner", "limit": 50}'
        yield f"{name}: search, no result", caller, "find", '{"of": "party", "q": "nobody at all"}'
        yield f"{name}: unit by name", caller, "find", '{"of": "unit", "q": "unit %d"}' % unit
        yield f"{name}: parcel by label", caller, "find", '{"of": "parcel", "q": "P%d"}' % parcel
        yield f"{name}: page of 100 entries", caller, "page", '{"of": "rrr"}'
        yield f"{name}: mortgages with totals", caller, "mortgages", "{}"
        yield f"{name}: area by holder, 100 shown", caller, "area", "{}"
    yield "office: parcels in 300 m x 300 m", OFFICE, "box", '{"box": [0, 0, 300, 300]}'
    yield "office: parcel at a point", OFFICE, "point", '{"point": [5, 5]}'
    yield "office: tile of 512 m", OFFICE, "tile", '{"z": 9, "x": 256, "y": 255}'
    yield "office: tile of 8 km", OFFICE, "tile", '{"z": 5, "x": 16, "y": 15}'
    yield "office: history of a unit", OFFICE, "history", '{"number": %d}' % unit
    yield "owner: history of its unit", owner, "history", '{"number": %d}' % unit
    yield "office: undecided", OFFICE, "undecided", "{}"
    yield "office: all numbers of entries", OFFICE, "list", '{"of": "rrr"}'
    yield "bank: all numbers of entries", BANK, "list", '{"of": "rrr"}'
    yield "office: extract of entries, CSV", OFFICE, "csv", '{"of": "rrr"}'
    yield "office: all parcels, GeoJSON", OFFICE, "geojson", "{}"


def run(folder, server, entries):
    sys.path.insert(0, os.path.join(TOP, "bench"))
    import registers
    file = folder.register("speed")
    registers.of_entries(file, entries)
    os.chmod(file, 0o644)
    server.install("speed")
    began = time.monotonic()
    loaded = feed_once(folder, server, "speed", file)
    check("the register is loaded", loaded.returncode == 0, loaded.stderr)
    note(f"{entries} entries, {os.path.getsize(file) / 1e6:.0f} MB: {loaded.stderr.strip()} ({time.monotonic() - began:.1f} s in all)")
    began = time.monotonic()
    audit = run_audit(folder, server, "speed", file)
    check("the audit is clean", audit.returncode == 0, audit.stderr)
    note(f"{audit.stderr.strip()} ({time.monotonic() - began:.1f} s in all)")
    last = registers.FIRST + 11 * (entries // 4 - 5)
    with server.connect("postgres", "speed") as db, db.cursor() as cursor:
        cursor.execute("SELECT pg_size_pretty(pg_database_size('speed')), count(*) FILTER (WHERE class = 'mortgage' AND party = 3) "
                       "FROM reg.rrr")
        note("database {}, {} mortgages of the bank".format(*cursor.fetchone()))
    with server.connect("land_gateway", "speed") as db, db.cursor() as cursor:
        cursor.execute("PREPARE ask(bigint, text, text, jsonb) AS SELECT status, length(body) FROM gate.answer($1, $2, NULL, $3, $4)")
        for name, caller, what, args in queries((last, "citizen"), last + 4, last + 5):
            times = []
            for _ in range(RUNS):
                began = time.monotonic()
                cursor.execute("EXECUTE ask(%s, %s, %s, %s)", (*caller, what, args))
                status, size = cursor.fetchone()
                times.append((time.monotonic() - began) * 1000)
            check(f"{name}: status 200", status == 200, status)
            note(f"{name}: median {statistics.median(times):.1f} ms of {RUNS}, first {times[0]:.0f}, worst {max(times):.0f}; {size} bytes")
    test_lag(folder, server, 15, "speed", new=False)
    measure_reads(folder, server, file, last)
    measure_gateway(server, last)


def processor(pid):
    """Returns the processor time of a process, in milliseconds."""
    with open(f"/proc/{pid}/stat", encoding="ascii") as it:
        fields = it.read().rpartition(")")[2].split()
    return (int(fields[11]) + int(fields[12])) * 1000 / os.sysconf("SC_CLK_TCK")


def measure_reads(folder, server, file, last):
    """Measures the processor time of plain reads: a PostgreSQL backend and `land serve`."""
    owner, unit = (last, "citizen"), last + 4
    reads = [("owner: one entry", owner, "rrrs", "rrr", unit + 2), ("owner: all its entries", owner, "rrrs", "rrr", None),
             ("owner: a parcel", owner, "parcels", "parcel", unit + 1), ("office: one entry", OFFICE, "rrrs", "rrr", unit + 2),
             ("bank: one entry", BANK, "rrrs", "rrr", unit + 2)]
    with serving(file, new=False) as service, server.connect("land_gateway", "speed") as db, db.cursor() as cursor:
        reader = Reader(service.port)
        cursor.execute("PREPARE read(bigint, text, text, jsonb) AS SELECT status FROM gate.answer($1, $2, NULL, $3, $4)")
        for name, (party, role), path, kind, number in reads:
            target, what = (f"/{path}/{number}", "object") if number else (f"/{path}", "list")
            args = f'{{"of": "{kind}"' + (f', "number": {number}}}' if number else "}")
            before = processor(service.process.pid)
            reader.get([(party, role, target)] * 20000)
            by_land = (processor(service.process.pid) - before) / 20000
            before = processor(db.info.backend_pid)
            for _ in range(1000):
                cursor.execute("EXECUTE read(%s, %s, %s, %s)", (party, role, what, args))
            by_postgres = (processor(db.info.backend_pid) - before) / 1000
            note(f"{name}: {by_postgres:.2f} ms of a processor, by `land serve` {by_land:.3f} ms: "
                 f"{by_postgres / by_land:.0f} times as much")
        reader.close()


def measure_gateway(server, last):
    """Measures the requests a second through the read gateway, with 8 clients."""
    if shutil.which("wrk") is None:
        return note("wrk is not installed: the gateway is not measured")
    with Gateway(server.dsn("land_gateway", "speed")) as gateway:
        for name, target in (("one entry of its own", f"/rrrs/{last + 6}"), ("a search", f"/search/parties?q=owner%20{last}")):
            before = processor(gateway.process.pid)
            ran = subprocess.run(["wrk", "-t1", "-c8", "-d5s", "-H", f"Register-Party: {last}", "-H", "Register-Role: citizen",
                                  f"http://127.0.0.1:{gateway.port}{target}"], capture_output=True, text=True)
            rate = float(re.search(r"Requests/sec: +([\d.]+)", ran.stdout)[1])
            spent = (processor(gateway.process.pid) - before) / (rate * 5)
            check(f"{name}: no other status than 200", "Non-2xx" not in ran.stdout, ran.stdout)
            note(f"the gateway, {name}: {rate:.0f} requests/s with 8 clients, {spent:.2f} ms of a processor each in the gateway")
