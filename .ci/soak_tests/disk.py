"""A full disk at many points of a scenario: the log cannot grow, or the file cannot."""
import os
import random
import sqlite3
import subprocess
import time
from collections import Counter

from soak_tests import server
from soak_tests.ledger import COLUMNS, Ledger, compare
from soak_tests.model import Client, Scenario, summary
from soak_tests.server import Wrong

# The number of acts of the scenario on a small file, and on a large one, where the log is copied into the file twice. The number of acts
# after a full disk has space again.
ACTS, MORE = {False: 120, True: 300}, 8
# The parties of a large file, which is always larger than its log. One of five points is in such a file, and one of five on a small disk.
LARGE, FILES, DISKS = 6000, 5, 5
FULL = "land: fault 502\n"


def fill(file):
    """Inserts many parties with long names into a new file, by sqlite3 and in one change. Returns the ledger of the file."""
    ledger = Ledger()
    ledger.stamp = 1
    for number in range(2, LARGE + 2):
        ledger.open("party", number=number, name="𝔸" * 200, kind="naturalPerson")
    ledger.moments.append((1, LARGE + 2))
    base = sqlite3.connect(file)
    for table, *row in sorted(ledger.rows() - Ledger().rows(), key=repr):
        names = ("stamp", "next") if table == "moments" else (*COLUMNS[table], "since", "until")
        base.execute(f"INSERT INTO {table} ({', '.join(names)}) VALUES ({', '.join('?' * len(names))})", row)
    base.commit()
    base.close()
    return ledger


def made(folder, name, is_large):
    """Creates a file. Returns its path and its ledger."""
    file = os.path.join(folder, f"{name}.land")
    server.make(file)
    ledger = fill(file) if is_large else Ledger()
    server.check(file)
    return file, ledger


def play(client, scenario, acts, after_each=lambda: None):
    """Sends acts until one gets 503. Returns that one, or None."""
    for _ in range(acts):
        act = scenario.draw()
        if client.send(act) == 503:
            return act
        after_each()
    return None


def sizes(folder, is_large, seed):
    """Returns the size of a file before and after the scenario, and the largest size of its log."""
    file, ledger = made(folder, f"dry{is_large}", is_large)
    first, most = os.path.getsize(file), []
    service, port = server.serve(file, 1)
    try:
        client = Client(port, ledger, Counter())
        play(client, scenario_of(ledger, seed), ACTS[is_large], lambda: most.append(os.path.getsize(file + "-wal")))
        client.line.close()
        server.check_exit(service, 0)
    finally:
        service.kill()
    compare(file, ledger)
    return first, os.path.getsize(file), max(most)


def scenario_of(ledger, seed):
    return Scenario(ledger, random.Random(f"disk {seed}"))


class Point:
    """A scenario on a file that cannot grow beyond a limit."""

    def __init__(self, folder, number, is_large, limit, seed):
        self.file, self.ledger = made(folder, f"full{number}", is_large)
        self.scenario, self.done, self.failed = scenario_of(self.ledger, seed), Counter(), None
        self.limit, self.acts = limit, ACTS[is_large]

    def until_full(self):
        """Plays the scenario until the disk is full. Returns when that happened."""
        try:
            service, port = server.serve(self.file, 1, self.limit)
        except Wrong as error:
            if "land: cannot open" in str(error) or FULL.strip() in str(error):
                return "opening"
            raise
        try:
            client = Client(port, self.ledger, self.done)
            self.failed = play(client, self.scenario, self.acts)
            if self.failed and not client.has_end:
                raise Wrong(f"503 to {self.failed} without Connection: close")
            client.line.close()
            return self.check_exit(service)
        finally:
            service.kill()

    def check_exit(self, service):
        server.check_exit(service, 1, FULL)
        return "an act" if self.failed else "closing"

    def free_space(self):
        """Does nothing: the limit was that of the server process."""

    def remove(self):
        """Does nothing."""

    def check(self, pending):
        """Compares the file with the ledger. Returns whether the pending act is in the file; the ledger then has it too."""
        before = self.ledger
        self.ledger = compare(self.file, before, pending)
        last, following = self.ledger.moments[-1]
        if server.check(self.file) != f"sound: last {last}, next {following}":
            raise Wrong("check prints another stamp than the last one")
        return self.ledger is not before

    def continue_scenario(self):
        """Starts a server on the file when there is space again. It performs the failed act, if that is not in the file, and more acts."""
        service, port = server.serve(self.file, 1)
        try:
            client = Client(port, self.ledger, self.done)
            if self.failed and client.send(self.failed) != 200:
                raise Wrong(f"with space on the disk, {self.failed} fails again")
            if play(client, Scenario(self.ledger, self.scenario.dice), MORE):
                raise Wrong("with space on the disk, the store still fails")
            client.line.close()
            server.check_exit(service, 0)
        finally:
            service.kill()
        self.check(None)


class SmallDisk(Point):
    """The same on a small file system. Only root can mount one."""

    def __init__(self, folder, number, limit, seed):
        self.mounted = os.path.join(folder, f"disk{number}")
        os.mkdir(self.mounted)
        mount("-t", "tmpfs", "-o", "size=64m", "tmpfs", self.mounted)
        super().__init__(self.mounted, number, False, None, seed)
        mount("-o", f"remount,size={limit}", self.mounted)

    def free_space(self):
        mount("-o", "remount,size=64m", self.mounted)

    def remove(self):
        subprocess.run(["umount", self.mounted], check=True)


def mount(*arguments):
    subprocess.run(["mount", *arguments], check=True, capture_output=True)


def can_mount(folder):
    """Returns whether this process may mount a file system."""
    point = os.path.join(folder, "mount")
    os.mkdir(point)
    try:
        mount("-t", "tmpfs", "-o", "size=64m", "tmpfs", point)
    except (subprocess.CalledProcessError, FileNotFoundError):
        return False
    return subprocess.run(["umount", point]).returncode == 0


def limits(count, first, last):
    return [first + (last - first) * number // count for number in range(count)]


def points(folder, count, seed, small, large):
    """Returns for each point the part that is full (the log, a large file, or a small file system), its constructor and its limit."""
    disks = count // DISKS if can_mount(folder) else 0
    files = count // FILES
    made_by = [("the log", lambda number, it: Point(folder, number, False, it, seed), limits(count - files - disks, 1, small[2])),
               ("the file", lambda number, it: Point(folder, number, True, it, seed), limits(files, large[0], large[1])),
               ("the disk", lambda number, it: SmallDisk(folder, number, it, seed), limits(disks, small[0] + (1 << 16), small[0] + small[2]))]
    return [(part, make, limit) for part, make, many in made_by for limit in many]


def try_point(point):
    """Fills a disk, checks the file and continues with it. Returns when the disk was full, and whether the failed act is in the file."""
    when = point.until_full()
    point.free_space()
    is_complete = point.check(point.failed)
    if is_complete:
        point.failed = None
    point.continue_scenario()
    return when, is_complete


def run(count, seed):
    where, done, complete, began = Counter(), Counter(), 0, time.monotonic()
    with server.folder() as folder:
        small, large = sizes(folder, False, seed), sizes(folder, True, seed)
        for number, (part, make, limit) in enumerate(points(folder, count, seed, small, large)):
            point = make(number, limit)
            try:
                when, is_complete = try_point(point)
            except Wrong as error:
                raise Wrong(f"point {number}, {part} of {limit} bytes: {error}") from None
            finally:
                point.remove()
            where[f"{part}, at {when}"] += 1
            complete += is_complete
            done += point.done
    print(f"disk: full at {count} points in {time.monotonic() - began:.0f} s, seed {seed}: logs from 1 to {small[2]} bytes, files from "
          f"{large[0]} to {large[1]}, disks from {small[0] + (1 << 16)} to {small[0] + small[2]}; {summary(where)}; {complete} failed acts "
          f"are in the file, complete; {summary(done)}", flush=True)
