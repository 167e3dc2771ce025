#!/usr/bin/env python3
"""The time and the peak memory of `land check`, which validates a whole file, and of `land digest`, which also computes the digest of its
history, compared with Python's sqlite3 reading all rows and with SQLite's integrity_check. Stops if deploy/tests/digest_text.py computes
another digest.

    bench/check.py [CHANGES..]           (1000 10000 100000)
    LAND=PROGRAM bench/check.py ..       another program than crates/land/out/land

Registers with a number of changes are written (registers.py): a party and its unit in turn; 1,000 units of four owners whose rights are
transferred by mutations; one unit of 200 owners likewise; one group of 64, with a new member at each change. Python opens the file, runs
the SQL statements that list all rows and all rowids, fetches all rows, and validates nothing; `PRAGMA integrity_check` checks the file
format, NOT NULL, UNIQUE and CHECK. Each figure is the minimum of three runs, or one run if that takes over ten seconds, including the start
of the program. Python runs in child processes, so that their memory is not counted for the program.
"""
import os
import re
import sqlite3
import subprocess
import sys
import tempfile
import time

import registers
from registers import PROGRAM

HISTORIES = {
    "a party and its unit in turn": registers.of_changes,
    "1,000 units of four owners": registers.of_transfers,
    "one unit of 200 owners": lambda path, changes: registers.of_transfers(path, changes, units=1, owners=200),
    "one group of 64": registers.of_members,
}


def in_child(work):
    """Calls a function in a child process."""
    child = os.fork()
    if child == 0:
        work()
        os._exit(0)
    if os.waitpid(child, 0)[1]:
        raise SystemExit("a child process has failed")


def minimum(work, runs=3):
    """Returns the minimum of the seconds of some runs; of one run only, if it takes long."""
    times = []
    for _ in range(runs):
        begin = time.perf_counter()
        work()
        times.append(time.perf_counter() - begin)
        if times[0] > 10:
            break
    return min(times)


def run(command, file, expected):
    """Runs a command of the program, whose output begins as expected. Returns its output and its peak memory, in kB."""
    with subprocess.Popen([PROGRAM, command, "--file", file], stdout=subprocess.PIPE, stderr=subprocess.PIPE, text=True) as ran:
        output, error = ran.stdout.read(), ran.stderr.read()
        _, status, usage = os.wait4(ran.pid, 0)
        ran.returncode = os.waitstatus_to_exitcode(status)
    if not output.startswith(expected):
        raise SystemExit(f"{file}: {command}: status {ran.returncode}: {output}{error}")
    return output, usage.ru_maxrss


def check(file):
    """Runs the program's check. Returns its peak memory, in kB."""
    return run("check", file, "sound: ")[1]


def digest(file):
    """Computes the digest of a history by the program. Returns it with the peak memory, in kB."""
    return run("digest", file, "digest: ")


def digest_by_sql(file):
    """Returns the digest that Python computes by SQL."""
    script = os.path.join(os.path.dirname(os.path.abspath(__file__)), "..", "deploy", "tests", "digest_text.py")
    return subprocess.run([sys.executable, script, file], check=True, capture_output=True, text=True).stdout


def listing():
    """Returns the SQL statements that list a whole register: all rows of all tables, and their rowids."""
    tables = re.findall(r"CREATE TABLE (\w+)", registers.schema())
    rowids = registers.sql_of("land_tables_rows/src/rowids/listing.rt")
    return [*(registers.sql_of(f"land_tables_schema/src/rows/tables/{table}.rt")["ALL"] for table in tables), *rowids.values()]


def read_all(file, statements):
    base = sqlite3.connect(file)
    for statement in statements:
        base.execute(statement).fetchall()
    base.close()


def integrity_check(file):
    base = sqlite3.connect(file)
    if base.execute("PRAGMA integrity_check").fetchall() != [("ok",)]:
        raise SystemExit(f"{file}: integrity_check")
    base.close()


def counts(file):
    base = sqlite3.connect(file)
    tables = [table for table in re.findall(r"CREATE TABLE (\w+)", registers.schema()) if table not in ("edition", "moments")]
    found = [base.execute(f"SELECT count(*) FROM {table}").fetchone()[0] for table in ("moments", *tables)]
    base.close()
    return found[0] - 1, sum(found[1:])


def main():
    sizes = [int(word) for word in sys.argv[1:]] or [1000, 10000, 100000]
    statements = listing()
    print("| history | changes | versions | file, MB | check, s | peak, MB | digest, s | peak, MB | Python, s | integrity_check, s |")
    print("|---|---|---|---|---|---|---|---|---|---|", flush=True)
    with tempfile.TemporaryDirectory() as folder:
        for name, write in HISTORIES.items():
            for size in sizes:
                file = os.path.join(folder, f"{size}.{write.__name__}.{len(os.listdir(folder))}.land")
                in_child(lambda: write(file, size))
                changes, versions = counts(file)
                line, most = digest(file)
                if line != digest_by_sql(file):
                    raise SystemExit(f"{file}: the digest differs from that of deploy/tests/digest_text.py")
                cells = [name, f"{changes:,}", f"{versions:,}", f"{os.path.getsize(file) / 1e6:.1f}", f"{minimum(lambda: check(file)):.2f}",
                         f"{check(file) / 1024:.0f}", f"{minimum(lambda: digest(file)):.2f}", f"{most / 1024:.0f}",
                         f"{minimum(lambda: in_child(lambda: read_all(file, statements))):.2f}",
                         f"{minimum(lambda: in_child(lambda: integrity_check(file))):.2f}"]
                print("| " + " | ".join(cells) + " |", flush=True)
                os.remove(file)


main()
