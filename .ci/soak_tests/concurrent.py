"""Several programs on one file: one of them opens it, and the others are rejected, under each path of the file."""
import os
import random
import subprocess
import time
from collections import Counter

from soak_tests import server
from soak_tests.ledger import Ledger, compare
from soak_tests.model import Client, Scenario
from soak_tests.server import Wrong

REJECTED = "land: cannot open\n"
ACTS = 3


def calls(file):
    """Returns a call of each command on a file."""
    return (("serve", "--file", file, "--port", str(server.free_port()), "--connections", "1"), ("check", "--file", file),
            ("new", "--file", file),
            ("extract", "--file", file, "--clock", "0", "--party", "1", "--role", "stateAdministrator", "--kind", "party"))


def paths_of(file, folder):
    """Returns several paths of the file: its own, one with a `.` in it, and a symbolic link."""
    link = os.path.join(folder, "link.land")
    os.symlink(file, link)
    return file, os.path.join(folder, ".", os.path.basename(file)), link


def check_rejected(call):
    """Checks that a call is rejected while another program has the file open."""
    try:
        ran = subprocess.run([*server.program(), *call], capture_output=True, text=True, timeout=60)
    except subprocess.TimeoutExpired:
        raise Wrong(f"while another program has the file open, {call[0]} does not exit") from None
    if (ran.returncode, ran.stdout, ran.stderr) != (1, "", REJECTED):
        raise Wrong(f"while another program has the file open, {call}: status {ran.returncode}: {ran.stdout}{ran.stderr}")


def while_served(folder, count, dice):
    """Sends acts to a server while other programs call its file: these are rejected, and every act succeeds."""
    file, ledger, done = os.path.join(folder, "one.land"), Ledger(), Counter()
    server.make(file)
    service, port = server.serve(file, 1)
    rejected = 0
    try:
        client, scenario, paths = Client(port, ledger, done), Scenario(ledger, dice), paths_of(file, folder)
        for number in range(count):
            for call in calls(paths[number % len(paths)]):
                check_rejected(call)
                rejected += 1
                client.send(scenario.draw())
        client.line.close()
        server.check_exit(service, 0)
    finally:
        service.kill()
    compare(file, ledger)
    server.check(file)
    return rejected, sum(done.values())


def check_hard_link(folder):
    """Checks that a file with two names is rejected under either: under the other name it would have another log."""
    file, other = os.path.join(folder, "two.land"), os.path.join(folder, "hard.land")
    server.make(file)
    os.link(file, other)
    for name in (file, other):
        for call in calls(name):
            check_rejected(call)
    os.unlink(other)
    server.check(file)


def first_of(services):
    """Returns the server that listens, of two that were started together. The other must be rejected."""
    for _ in range(6000):
        for one, other in (services, services[::-1]):
            if one.poll() is not None:
                server.check_exit(one, 1, REJECTED)
                return other
        time.sleep(0.005)
    raise Wrong("two servers were started together on one file, and neither is rejected")


def started_together(folder, count, dice):
    """Starts two servers together on one file. One serves and is killed; then the next two are started on the same file."""
    file, ledger, done = os.path.join(folder, "race.land"), Ledger(), Counter()
    server.make(file)
    for number in range(count):
        ports = [server.free_port(), server.free_port()]
        services = [server.start(file, port, 100) for port in ports]
        try:
            service = first_of(services)
            client, scenario = Client(ports[services.index(service)], ledger, done), Scenario(ledger, dice)
            connect(client, service)
            for _ in range(ACTS):
                client.send(scenario.draw())
        finally:
            for it in services:
                it.kill()
                it.wait()
        ledger = compare(file, ledger)
    server.check(file)
    return sum(done.values())


def connect(client, service):
    for _ in range(6000):
        try:
            client.line.connect()
            return
        except ConnectionRefusedError:
            if service.poll() is not None:
                raise Wrong(f"both servers exit: {service.stderr.read()}") from None
            time.sleep(0.005)


def run(count, seed):
    # The text that seeds the random numbers never changes, so that a recorded run can be repeated.
    dice, began = random.Random(f"twice {seed}"), time.monotonic()
    with server.folder() as folder:
        rejected, acts = while_served(folder, count, dice)
        check_hard_link(folder)
        more = started_together(folder, count, dice)
    print(f"concurrent: in {time.monotonic() - began:.0f} s, seed {seed}: {rejected} calls were rejected during {acts} acts of a server; "
          f"{count} times two servers were started together, one was rejected, and the other was killed after {ACTS} acts: all of these "
          f"{more} acts are in the file", flush=True)
