"""Servers killed during acts of every kind: acknowledged acts are durable, and the pending act is complete or absent."""
import http.client
import os
import random
import tempfile
import threading
import time
from collections import Counter

from soak_tests import server
from soak_tests.ledger import CONTENTS, Ledger, compare
from soak_tests.model import Client, Scenario, summary
from soak_tests.server import Wrong

# The kills on one file; the largest number of acts before a kill; one of this many kills hits a server that is opening its file.
SAME, ACTS, OPENING = 20, 40, 10


class Town:
    """A file and its expected rows. `repeat` is a lodging to send again after a kill."""

    def __init__(self, file):
        self.file, self.ledger, self.repeat = file, Ledger(), None
        server.make(file)


def kill_opening(town, dice):
    """Kills a server while it opens the file."""
    service = server.start(town.file, server.free_port(), 1)
    time.sleep(dice.uniform(0, 0.03))
    service.kill()
    service.wait()


class Killer:
    """Kills a server during an act: after a random time, or as soon as it writes to its log, or shortly after that."""

    def __init__(self, service, file, dice, usual):
        self.service, self.log, self.is_done = service, f"{file}-wal", threading.Event()
        self.watches_log, self.delay_after_write = dice.random() < 0.6, dice.choice((0, 0, 0, dice.uniform(0, 0.002)))
        self.delay = dice.uniform(0, 2 * usual)
        self.thread = threading.Thread(target=self.kill, args=(self.log_state(),))
        self.thread.start()

    def log_state(self):
        """Returns the size and the time of the log, which change with each write."""
        state = os.stat(self.log)
        return state.st_size, state.st_mtime_ns

    def kill(self, before):
        if self.watches_log:
            until = time.monotonic() + 1
            while self.log_state() == before and time.monotonic() < until:
                pass
            self.delay = self.delay_after_write
        if self.delay:
            time.sleep(self.delay)
        self.is_done.set()
        self.service.kill()


def kill_acting(town, dice, done):
    """Kills a server during an act. Returns that act."""
    service, port = server.serve(town.file, 1)
    client, scenario = Client(port, town.ledger, done), Scenario(town.ledger, dice)
    acts, spent, killer = dice.randrange(1, ACTS), 0.0, None
    try:
        for number in range(100000):
            pending, town.repeat = town.repeat or scenario.draw(), None
            if number == acts:
                killer = Killer(service, town.file, dice, spent / acts)
            began = time.monotonic()
            client.send(pending)
            spent += time.monotonic() - began
    except (http.client.HTTPException, OSError, ValueError) as error:
        if not killer or not killer.is_done.is_set():
            raise Wrong(f"before the kill: {error!r}, at {pending}") from None
        return pending
    finally:
        if killer:
            killer.thread.join()
        service.kill()
        service.wait()
    raise Wrong("the server cannot be killed")


def check_file(town, pending):
    """Compares the file with the acknowledged acts. Returns whether the pending act is in it. A pending lodging is sent again, as its
    lodger would do."""
    ledger = compare(town.file, town.ledger, pending)
    has_pending, town.ledger = ledger is not town.ledger, ledger
    last, following = ledger.moments[-1]
    result = server.check(town.file)
    if result != f"sound: last {last}, next {following}":
        raise Wrong(f"check prints {result}, not last {last}, next {following}")
    town.repeat = pending if pending and pending.word in CONTENTS else None
    return has_pending


def run(kills, seed):
    dice, done, complete, opening, repeated, town = random.Random(f"kills {seed}"), Counter(), 0, 0, 0, None
    began = time.monotonic()
    # The folder is on a disk, where writes take longer than in memory.
    with tempfile.TemporaryDirectory() as folder:
        for number in range(kills):
            if number % SAME == 0:
                town = Town(os.path.join(folder, f"kill{number}.land"))
            pending = None
            try:
                if number % OPENING == OPENING - 1:
                    kill_opening(town, dice)
                    opening += 1
                else:
                    pending = kill_acting(town, dice, done)
                complete += check_file(town, pending)
                repeated += town.repeat is not None
            except Wrong as error:
                raise Wrong(f"kill {number}: {error}") from None
    acknowledged = sum(it for key, it in done.items() if not key.isdigit())
    print(f"kills: {kills} in {time.monotonic() - began:.0f} s, {opening} of them while the file was opened, seed {seed}: all {acknowledged} "
          f"acknowledged acts are in the file; {complete} pending acts are too, complete; {repeated} pending lodgings were sent again; "
          f"{summary(done)}", flush=True)
    if acknowledged < kills:
        raise Wrong("fewer acts were acknowledged than servers killed")
