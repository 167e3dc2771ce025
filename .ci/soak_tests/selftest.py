"""Self-test: the checks of the other parts fail on corrupted files and on faulty programs (fake.py)."""
import contextlib
import copy
import io
import os
import random
import shutil
import sqlite3
import sys
import time
from collections import Counter

from soak_tests import disk, kills, server, reads, fuzz, concurrent
from soak_tests.ledger import COLUMNS, Ledger, compare
from soak_tests.model import Client, Scenario
from soak_tests.server import Wrong

FAKE = os.path.join(os.path.dirname(os.path.realpath(__file__)), "fake.py")
ACTS = 150
# A mode of fake.py, the part that must fail with it, its count, and texts of which its message must contain one.
PROGRAMS = (("loses-acts", kills.run, 10, ("are lost",)), ("loses-acts", disk.run, 5, ("are lost",)),
            ("hangs", fuzz.run, 2000, ("within 1.0 s",)),
            ("silent", fuzz.run, 2000, ("within 1.0 s", "no reply")), ("wrong-fault", fuzz.run, 2000, ("400 fault 11",)),
            ("crashes", fuzz.run, 2000, ("is dropped", "no reply", "exits with 3")), ("leaks", fuzz.run, 3000, ("memory grows",)),
            ("leaks", reads.run, 1500, ("memory grows",)), ("always-sound", concurrent.run, 2, ("status 0: sound",)))


def check_fails(file, ledger, pending, corruption):
    try:
        compare(file, ledger, pending)
    except Wrong:
        return
    raise Wrong(f"the comparison accepts {corruption}")


class Town:
    """A file with the ledger of its acts, its last act, and the ledger before that act."""

    def __init__(self, folder, dice):
        self.file, self.bad = os.path.join(folder, "original.land"), os.path.join(folder, "bad.land")
        self.ledger, self.before, self.last = Ledger(), None, None
        server.make(self.file)
        service, port = server.serve(self.file, 1)
        try:
            self.fill(Client(port, self.ledger, Counter()), Scenario(self.ledger, dice))
            server.check_exit(service, 0)
        finally:
            service.kill()
        compare(self.file, self.ledger)
        if compare(self.file, self.before, self.last) is self.before:
            raise Wrong("the comparison does not find a pending act that is in the file")

    def fill(self, client, scenario):
        for _ in range(ACTS):
            client.send(scenario.draw())
        # The last act inserts many rows with one stamp.
        self.before, self.last = copy.deepcopy(self.ledger), scenario.register()
        if client.send(self.last) != 200:
            raise Wrong(f"{self.last} fails")
        client.line.close()

    def check_corrupted(self, statement, values, ledger, pending, corruption):
        """Corrupts a copy of the file by sqlite3; the comparison must fail."""
        shutil.copyfile(self.file, self.bad)
        base = sqlite3.connect(self.bad)
        count = base.execute(statement, values).rowcount
        base.commit()
        base.close()
        for end in ("-wal", "-shm"):
            if os.path.exists(self.bad + end):
                os.unlink(self.bad + end)
        if count != 1:
            raise Wrong(f"{corruption}: {count} rows were changed")
        check_fails(self.bad, ledger, pending, corruption)


def rows_by_id(file, table):
    base = sqlite3.connect(f"file:{file}?mode=ro&immutable=1", uri=True)
    try:
        return base.execute(f"SELECT rowid, * FROM {table}").fetchall()
    finally:
        base.close()


def check_corruptions(town, dice):
    """Tries files without an acknowledged row, with another end of a row, and, with the last act pending, without one of its rows. Returns
    their number."""
    count = 0
    for table in (*COLUMNS, "moments"):
        for row in dice.sample(rows_by_id(town.file, table), 3):
            town.check_corrupted(f"DELETE FROM {table} WHERE rowid = ?", row[:1], town.ledger, None, f"{table} without {row}")
            last = "next" if table == "moments" else "until"
            other = f"UPDATE {table} SET {last} = {last} + 1 WHERE rowid = ?"
            town.check_corrupted(other, row[:1], town.ledger, None, f"{table} with another end of {row}")
            count += 2
    stamp = town.ledger.moments[-1][0]
    for table in COLUMNS:
        for row in rows_by_id(town.file, table):
            if row[-2] == stamp:
                partial = f"half a change, without {row} of {table}"
                town.check_corrupted(f"DELETE FROM {table} WHERE rowid = ?", row[:1], town.before, town.last, partial)
                count += 1
    return count


def check_detected(mode, part, count, messages, seed):
    """Runs a part with a faulty program; it must fail with one of the messages."""
    real = server.program()
    server.command[:] = [sys.executable, FAKE, mode, *real]
    try:
        with contextlib.redirect_stdout(io.StringIO()):
            part(count, seed)
    except Wrong as error:
        if not any(it in str(error) for it in messages):
            raise Wrong(f"faulty program {mode}: unexpected message: {error}") from None
        return
    finally:
        server.command[:] = real
    raise Wrong(f"faulty program {mode} passes {part.__module__}")


def run(_count, seed):
    # The text that seeds the random numbers never changes, so that a recorded run can be repeated.
    dice, began = random.Random(f"trials {seed}"), time.monotonic()
    with server.folder() as folder:
        count = check_corruptions(Town(folder, dice), dice)
    for mode, part, amount, messages in PROGRAMS:
        check_detected(mode, part, amount, messages, seed)
    detected = ", ".join(f"{mode} ({part.__module__.removeprefix('soak_tests.')})" for mode, part, _, _ in PROGRAMS)
    print(f"selftest: in {time.monotonic() - began:.0f} s, seed {seed}: {count} corrupted files fail the comparison; faulty programs fail: "
          f"{detected}", flush=True)
