#!/usr/bin/env python3
"""The time and the peak memory of `land extract` of all entries of a register, compared with Python's csv and sqlite3.

    bench/extract.py [ENTRIES..]         (1000 10000 100000)
    LAND=PROGRAM bench/extract.py ..     another program than crates/land/out/land

Registers with a number of entries are written (registers.py), and the notary extracts all entries, with the names of their parties. `land`
first validates the file, as each command on a file does; `land check` measures this part. Python selects the same rows by one join, and
writes them. The two outputs are compared. Each figure is the minimum of three runs.
"""
import csv
import os
import resource
import sqlite3
import subprocess
import sys
import tempfile
import time

import registers
from registers import NOTARY, PROGRAM

HEADER = "number unit party name class share amount currency rank words source".split()
ROWS = """SELECT rrr.number, unit, rrr.party, party.name, class, num || '/' || den, amount, currency, place, words, source
    FROM rrr JOIN party ON party.number = rrr.party
    WHERE rrr.since <= ?1 AND ?1 < rrr.until AND party.since <= ?1 AND ?1 < party.until ORDER BY rrr.number"""


def extract(file, to):
    with open(to, "wb") as sink:
        arguments = ["--file", file, "--clock", "0", "--party", str(NOTARY), "--role", "notary", "--kind", "rrr"]
        subprocess.run([PROGRAM, "extract", *arguments], stdout=sink, check=True)


def check(file, to):
    with open(to, "wb") as sink:
        subprocess.run([PROGRAM, "check", "--file", file], stdout=sink, check=True)


def by_python(file, to):
    base = sqlite3.connect(file)
    (last,) = base.execute("SELECT max(stamp) FROM moments").fetchone()
    with open(to, "w", newline="", encoding="utf-8") as sink:
        writer = csv.writer(sink, lineterminator="\n")
        writer.writerow(HEADER)
        writer.writerows(base.execute(ROWS, (last,)))
    base.close()


def measured(work, *arguments):
    """Calls a function three times, each in a child process. Returns the minimum of the seconds, and the peak memory, in kB."""
    times, memory = [], 0
    for _ in range(3):
        begin = time.perf_counter()
        child = os.fork()
        if child == 0:
            work(*arguments)
            peak = resource.getrusage(resource.RUSAGE_SELF if work is by_python else resource.RUSAGE_CHILDREN).ru_maxrss
            with open(arguments[1] + ".memory", "w", encoding="ascii") as note:
                note.write(str(peak))
            os._exit(0)
        _, status = os.waitpid(child, 0)
        times.append(time.perf_counter() - begin)
        if status != 0:
            raise SystemExit(f"{work.__name__}: status {status}")
        with open(arguments[1] + ".memory", encoding="ascii") as note:
            memory = max(memory, int(note.read()))
    return min(times), memory


def main():
    print("| entries | bytes | `land extract`, s | peak memory, kB | `land check`, s | peak memory, kB | Python, s |")
    print("|---|---|---|---|---|---|---|", flush=True)
    for entries in [int(word) for word in sys.argv[1:]] or [1000, 10000, 100000]:
        with tempfile.TemporaryDirectory() as folder:
            file, ours, theirs, output = (os.path.join(folder, name) for name in ("register.land", "ours.csv", "theirs.csv", "output"))
            registers.of_entries(file, entries)
            seconds, memory = measured(extract, file, ours)
            validation, validation_memory = measured(check, file, output)
            python, _ = measured(by_python, file, theirs)
            with open(ours, "rb") as one, open(theirs, "rb") as other:
                text = one.read()
                if text != other.read():
                    raise SystemExit("the extracts differ")
            print(f"| {entries:,} | {len(text):,} | {seconds:.2f} | {memory:,} | {validation:.2f} | {validation_memory:,} | {python:.3f} |",
                  flush=True)


main()
