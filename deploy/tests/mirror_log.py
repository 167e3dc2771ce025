#!/usr/bin/python3
"""Compares the rows that the feed finds by the log's pages with those of a scan, tick by tick, while the register is written.

As a script it is the reader, which runs as a user that cannot write the register: mirror_log.py FILE SECONDS SCRATCH"""
import json
import os
import random
import sys
import time

sys.path.insert(0, os.path.join(os.path.dirname(os.path.dirname(os.path.abspath(__file__))), "mirror"))
from land_mirror.source import Busy, Source        # noqa: E402
from land_mirror.tables import OPEN, TABLES        # noqa: E402


# The number of ticks by the log that a test needs.
ENOUGH = 20


def scan(source, after, stamp):
    """Returns the rows that began or ended in a span, as they were at its end, from a copy."""
    found = set()
    with source.copy() as base:
        for table in TABLES:
            rows = base.execute(f"SELECT {', '.join(table.names)} FROM {table.name} "
                                "WHERE since > ?1 AND since <= ?2 OR until > ?1 AND until <= ?2", (after, stamp))
            found |= {(table.name, *(row if row[-1] <= stamp else row[:-1] + (OPEN,))) for row in rows}
    return found


def watch(file, seconds, scratch):
    """Reads ticks after random pauses. Prints counts of the ways in which rows were found, and of differences."""
    source, dice, counts = Source(file, scratch=scratch), random.Random(5), {"log": 0, "scan": 0, "restarts": 0, "rows": 0, "busy": 0}
    first = source.read(None, by_copy=True)
    last, wrong, end = (first.stamp, first.next), [], time.monotonic() + seconds
    # on a busy host the log is restarted more than once between two ticks, and the feed scans: then the test takes longer
    while time.monotonic() < end or counts["log"] < ENOUGH and time.monotonic() < end + 7 * seconds:
        time.sleep(dice.choice((0.005, 0.02, 0.05, 0.05, 0.2, 0.5, 0.9, 1.3)))
        head = source.log.mark and source.log.mark[0]
        try:
            changes = source.read(last)
        except Busy:
            counts["busy"] += 1
            continue
        if not changes.moments:
            continue
        counts[changes.how] += 1
        counts["restarts"] += changes.how == "log" and source.log.mark[0] != head
        mine = {(name, *row) for name, rows in changes.rows.items() for row in rows}
        counts["rows"] += len(mine)
        wanted = scan(source, last[0], changes.stamp)
        if mine != wanted:
            wrong.append((changes.how, len(wanted - mine), len(mine - wanted)))
        last = changes.stamp, changes.next
    print(json.dumps({**counts, "wrong": wrong}))


def run(folder, seconds):
    from harness import check, note
    from mirror_acts import Load, prepare
    from mirror_cluster import run_as, serving
    file = folder.register("log")
    with serving(file) as service:
        prepare(service.port)
        load = Load(service, 150, seed=11)
        load.start()
        try:
            ran = run_as("nobody", ["/usr/bin/python3", os.path.abspath(__file__), file, seconds, folder.scratch])
        finally:
            load.stop()
    counts = json.loads(ran.stdout) if ran.returncode == 0 else {}
    check("the reader runs", counts, ran.stderr[-600:])
    check("rows by the log are those of a scan", counts and not counts["wrong"], counts.get("wrong"))
    check("some ticks are by the log", counts and counts["log"] > 0, counts)
    note(f"{seconds} s at 150 acts/s: {counts}, {load.done} acts")


if __name__ == "__main__":
    watch(sys.argv[1], float(sys.argv[2]), sys.argv[3])
