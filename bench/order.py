#!/usr/bin/env python3
"""Checks that the program and the baseline (texts.py, baseline.c) run the same SQL statements for each request of joins.py and mandates.py.

    bench/order.py                       (with a register of 1,000 entries; it needs gdb, cc and sqlite3.h)
    LAND=PROGRAM bench/order.py          another program than crates/land/out/land

`land serve` runs under gdb, which records each SQL statement that the program passes to its sqlite (`Connection::bind`), with its
parameters. The baseline runs on a copy of the file, and prints the same. Both get all reads of joins.py, those of mandates.py by agents
with no, one and ten principals, and two acts of each kind. They must run the same statements, in the same order, with the same parameters;
the current time is masked. The program gets each read twice; the second counts, since the first looks up the roles of the caller and, for a
list, its mandates. Before each act its caller sends a read. If something differs, it is printed, and the exit status is 1. The program needs
symbols.
"""
import json
import os
import re
import shutil
import subprocess
import sys
import tempfile

WIDTH = 24  # the bytes of a parameter in memory: a byte for its kind, then a number, or the address and the length of a text
LOG = "LAND_STATEMENTS"


def watch(gdb):
    """Within gdb: runs the program, and writes each SQL statement with its parameters to the log."""
    gdb.execute("set pagination off")
    gdb.execute("starti")
    listed = gdb.execute("info functions sqlite::connection::Connection::bind", to_string=True)
    with open(os.environ[LOG], "w", encoding="utf-8") as it:

        def register(name):
            return int(gdb.parse_and_eval(f"(unsigned long)${name}"))

        def read(place, size):
            return bytes(gdb.selected_inferior().read_memory(place, size)) if size else b""

        def cell(raw):
            kind, first, second = raw[0], int.from_bytes(raw[8:16], "little", signed=True), int.from_bytes(raw[16:], "little")
            return str(first) if kind == 1 else "=" + read(first, second).decode() if kind == 3 else "-"

        class Bind(gdb.Breakpoint):
            def stop(self):
                cells = read(register("r8"), WIDTH * register("r9"))
                words = [cell(cells[place:place + WIDTH]) for place in range(0, len(cells), WIDTH)]
                it.write("\t".join([read(register("rdx"), register("rcx")).decode(), *words]) + "\n")
                it.flush()
                return False

        for place in re.findall(r"(0x\w+)\s+sqlite::connection::Connection::bind::", listed):
            Bind(f"*{place}")
        gdb.execute("continue")


def masked(row):
    """Replaces the current time in a statement and its parameters."""
    return [word if not re.fullmatch(r"1[7-9]\d{11}|[23]\d{12}", word) else "now" for word in row]


class Watched:
    """The server under gdb. `statements` returns those that it has run since the last call."""

    def __init__(self, folder, file):
        import joins

        log = os.path.join(folder, "statements")
        os.environ[LOG] = log
        self.service = joins.Service(["gdb", "-q", "-batch", "-x", os.path.abspath(__file__), "--args", joins.PROGRAM, "serve", "--file", file,
                                      "--port", "{port}", "--connections", "2"], stdout=subprocess.DEVNULL, stderr=subprocess.DEVNULL)
        self.log = open(log, encoding="utf-8")
        if not self.statements():
            raise SystemExit(f"gdb finds no statement of {joins.PROGRAM}: it has no symbols, or the function has another name")
        self.client = joins.Client(self.service.port)

    def statements(self):
        return [masked(line.rstrip("\n").split("\t")) for line in self.log]

    def send(self, request):
        reply = self.client.send(request)
        return reply, self.statements()


def compare(name, mine, theirs, faults):
    if mine == theirs and mine:
        print(f"{name}: {len(mine)} statements")
        return
    faults.append(name)
    lists = [f"\n  {side}:\n    " + "\n    ".join(map(" | ".join, rows)) for side, rows in (("land", mine), ("baseline", theirs))]
    print(f"{name}: they differ{''.join(lists)}")


def compare_reads(watched, steps, known, requests, faults, of=""):
    import joins
    import texts

    for party, role, name, path in requests:
        if path == "/nothing":
            continue
        request = joins.head("GET", path, party, role)
        watched.send(request)   # From then on the keeper knows the role of the caller.
        _, mine = watched.send(request)
        compare(f"{role}{of}: {name}", mine, steps(texts.plan_of(role, name, known), *joins.values(known, party, path)), faults)


def compare_acts(watched, steps, known, faults):
    import joins

    lodged = joins.lodgings(known, 2, "L")
    numbers = []
    for word, party, role, body in [*joins.enrolments(known, 2, "E"), *joins.registrations(known, 2, "R"), *lodged, *joins.approvals(lodged),
                                    *joins.busy_lodgings(known, 2, "B")]:
        number = numbers.pop(0) if word == "approve" else None
        watched.send(joins.head("GET", "/mutations", party, role))   # From then on the keeper knows the role of the caller.
        (status, reply), mine = watched.send(joins.head("POST", f"/acts/{word}", party, role, {"mutation": number} if number else body))
        if status != 200:
            raise SystemExit(f"{word}: {status}: {reply}")
        compare(word, mine, steps(word, *joins.given(word, party, body, number)), faults)
        if word == "transfer":
            numbers.append(json.loads(reply)["number"])


def main():
    import joins
    import mandates
    import registers
    import texts

    missing = texts.missing() or (None if shutil.which("gdb") else "gdb is not installed")
    if missing:
        raise SystemExit(missing)
    faults = []
    with tempfile.TemporaryDirectory() as folder:
        file = os.path.join(folder, "register.land")
        known = registers.of_entries(file, 1000)
        agents = registers.add_mandates(file, known, (0, 1, 10), 2)
        baseline = texts.Baseline([texts.build(folder), shutil.copy(file, file + ".baseline"), "wal"])

        def steps(plan, *cells):
            return [masked([texts.STATEMENTS[name], *words]) for name, *words in baseline.steps(plan, *cells)]

        try:
            watched = Watched(folder, file)
            compare_reads(watched, steps, known, joins.requests_of(known), faults)
            for agent in agents:
                compare_reads(watched, steps, agent, mandates.requests_of(agent), faults, f" with {len(agent['principals'])} principals")
            compare_acts(watched, steps, known, faults)
        finally:
            for service in [*joins.Service.running]:
                service.stop()
        baseline.stop()
    print(f"order: {len(faults)} differ" if faults else "order: the program and the baseline run the same statements")
    sys.exit(bool(faults))


try:
    import gdb as within
except ImportError:
    within = None
if within:
    watch(within)
elif __name__ == "__main__":
    main()
