#!/usr/bin/env python3
"""The time of reading a whole register and of writing one change, compared with Python's sqlite3 running the same SQL statements.

    bench/tables.py [RECORDS..]          (1000 10000)
    TABLES=PROGRAM bench/tables.py ..    a program that was built before

Registers with a number of records, from many changes, are written (registers.py), and copied for Python. First tables.txt is proved and
built in a copy of the repository, with the libraries that earlier checks built in crates/*/out: that takes minutes. The program opens the
file with `Tables::adopt`, reads it with `read_at` at the middle of its time and at its end, then repeatedly prepares the enrolment of a
party with `SqlKeeper`, and then repeatedly prepares and writes one. The time of a write is the difference of the two, without the reads
that plan the change. Python lists all rows of all tables, and runs the statements of the same change in a synchronous transaction, as the
program does. In milliseconds, the minimum of three runs.
"""
import os
import re
import shutil
import sqlite3
import subprocess
import sys
import tempfile
import time
from pathlib import Path

import registers
from building import build, named_by
from registers import sql_of

READS, WRITES, RUNS = 20, 200, 3


def ours(program, file):
    output = subprocess.run([program, file], capture_output=True, text=True, check=True).stdout
    return {line.split()[0]: int(line.split()[1]) / 1e6 for line in output.splitlines()}


def timed(times, action):
    start = time.perf_counter()
    for place in range(times):
        action(place)
    return (time.perf_counter() - start) * 1000 / times


def theirs(file):
    """Returns the time to list all rows of all tables, and the time of a change that enrols a party."""
    base = sqlite3.connect(file, isolation_level=None)
    base.execute("PRAGMA journal_mode = WAL")
    base.execute("PRAGMA synchronous = FULL")
    tables = re.findall(r"CREATE TABLE (\w+)", registers.schema())
    lists = [sql_of(f"land_tables_schema/src/rows/tables/{table}.rt")["ALL"] for table in tables]
    party, role = (sql_of(f"land_tables_schema/src/rows/tables/{table}.rt") for table in ("party", "role"))
    moment = sql_of("land_tables_schema/src/rows/tables/moments.rt")["INSERT"]
    last, next_number = base.execute("SELECT max(stamp), max(next) FROM moments").fetchone()

    def write(place):
        stamp, number = last + 1 + place, next_number + place
        base.execute("BEGIN")
        base.execute(party["CLOSE"], (number, stamp))
        base.execute(party["BEGIN"], (number, "Anna", "naturalPerson", stamp))
        base.execute(role["CLOSE"], (number, "citizen", stamp))
        base.execute(role["BEGIN"], (number, "citizen", stamp))
        base.execute(moment, (stamp, number + 1))
        base.execute("COMMIT")

    read = timed(READS, lambda _: [base.execute(statement).fetchall() for statement in lists])
    written = timed(WRITES, write)
    base.close()
    return read, written


def main():
    sizes = [int(word) for word in sys.argv[1:]] or [1000, 10000]
    with tempfile.TemporaryDirectory() as scratch:
        folder = Path(scratch)
        program = os.environ.get("TABLES") or build(folder, "tables.txt", named_by("land_commands"))
        print("| records | `read_at` at the middle | at the end | rows listed by Python | write of a change | by Python | preparation |")
        print("|---|---|---|---|---|---|---|", flush=True)
        for size in sizes:
            found = []
            for _ in range(RUNS):
                file = folder / "ours.land"
                file.unlink(missing_ok=True)
                registers.of_changes(file, size // 3)
                other = shutil.copy(file, folder / "theirs.land")
                found.append((ours(program, file), theirs(other)))
            minimum = lambda of: min(map(of, found))
            print(f"| {size:,} | {minimum(lambda it: it[0]['read_at_middle']):.2f} | {minimum(lambda it: it[0]['read_at_last']):.2f}"
                  f" | {minimum(lambda it: it[1][0]):.2f} | {minimum(lambda it: it[0]['answer'] - it[0]['prepare']):.3f}"
                  f" | {minimum(lambda it: it[1][1]):.3f} | {minimum(lambda it: it[0]['prepare']):.3f} |", flush=True)


main()
