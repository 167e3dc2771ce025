"""Random acts on a served register, at a rate, and the register's replies to many requests. Used by the tests of the mirror."""
import http.client
import json
import os
import random
import socket
import sys
import threading
import time
from collections import Counter

from stack import TOP

sys.path.insert(0, os.path.join(TOP, ".ci"))
from soak_tests import ledger, model      # noqa: E402

ROLES = ("citizen", "conveyancer", "notary", "bank", "certifiedSurveyor", "stateAdministrator")
KINDS = {"party": "parties", "unit": "units", "parcel": "parcels", "rrr": "rrrs", "source": "sources", "mutation": "mutations"}
OPEN = ledger.OPEN


class Actor:
    """Draws acts from a seed and sends them. The ledger has the expected rows."""

    def __init__(self, port, seed):
        self.ledger, self.done = ledger.Ledger(), Counter()
        self.dice = random.Random(seed)
        self.scenario = model.Scenario(self.ledger, self.dice)
        self.client = model.Client(port, self.ledger, self.done)

    def act(self):
        """Sends one act. Returns its status."""
        return self.client.send(self.scenario.draw())

    def acts(self, count):
        for _ in range(count):
            self.act()

    def close(self):
        """Closes the connection: the register answers one at a time."""
        self.client.line.close()

    @property
    def stamp(self):
        return self.ledger.moments[-1][0]


class Load(threading.Thread):
    """Sends enrolments, registrations, transfers and decisions at a rate, and survives restarts of the service."""

    def __init__(self, service, rate, seed=1):
        super().__init__(daemon=True)
        self.service, self.rate, self.seed = service, rate, seed
        self.done, self.stamp, self.slowest = 0, 0, 0.0
        self.ended = threading.Event()

    def run(self):
        dice, line, due = random.Random(self.seed), None, time.monotonic()
        owners, rights, waiting, place = [], [], [], self.seed * 1_000_000
        while not self.ended.is_set():
            try:
                line = line or http.client.HTTPConnection("127.0.0.1", self.service.port, timeout=30)
                draw, place = dice.random(), place + 1
                if len(owners) < 5 or draw < 0.3:
                    reply = self.act(line, 1, "stateAdministrator", "enrol", {"kind": "naturalPerson", "name": f"Owner {place}"})
                    owners += [reply["number"]] if reply else []
                elif draw < 0.6 or not rights:
                    owner = dice.choice(owners)
                    reply = self.act(line, 1, "stateAdministrator", "register", {
                        "name": f"Plot {place}", "checked": True, "document": f"Deed {place}",
                        "parcels": [{"label": f"N{place}", "outline": square(place)}],
                        "rights": [{"party": owner, "type": "ownership", "share": "1/1"}]})
                    rights += [(reply["number"], reply["made"][-1])] if reply else []
                elif draw < 0.8 or not waiting:
                    unit, right = rights.pop(dice.randrange(len(rights)))
                    reply = self.act(line, 2, "notary", "transfer", {
                        "reference": f"T{place}", "document": f"Deed {place}", "unit": unit, "right": right,
                        "receiver": dice.choice(owners),
                        "share": "1/1"})
                    waiting += [reply["number"]] if reply else []
                else:
                    self.act(line, 1, "stateAdministrator", "approve", {"mutation": waiting.pop()})
            except (OSError, http.client.HTTPException, ValueError):
                line = None             # the service was killed: the act may be done or not
                time.sleep(0.01)
            due = max(due + 1 / self.rate, time.monotonic() - 0.5)
            time.sleep(max(0.0, due - time.monotonic()))

    def act(self, line, party, role, word, body):
        began = time.monotonic()
        line.request("POST", "/acts/" + word, json.dumps(body), {"Register-Party": str(party), "Register-Role": role})
        reply = line.getresponse()
        text = json.loads(reply.read())
        self.slowest = max(self.slowest, time.monotonic() - began)
        if reply.status != 200:
            return None
        self.done, self.stamp = self.done + 1, text["stamp"]
        return text

    def stop(self):
        self.ended.set()
        self.join()


def prepare(port):
    """Makes party 2 a notary in a new register, as Load expects."""
    line = http.client.HTTPConnection("127.0.0.1", port)
    for word, body in (("enrol", {"kind": "naturalPerson", "name": "Notary"}), ("grant", {"party": 2, "role": "notary"})):
        line.request("POST", "/acts/" + word, json.dumps(body), {"Register-Party": "1", "Register-Role": "stateAdministrator"})
        line.getresponse().read()
    line.close()


def square(place):
    west, south = 20000 * (place % 1000), 20000 * (place // 1000)
    east, north = west + 9000, south + 9000
    return f"POLYGON (({west} {south}, {east} {south}, {east} {north}, {west} {north}, {west} {south}))"


class Reader:
    """A connection on which many requests are pipelined."""

    def __init__(self, port):
        self.socket = socket.create_connection(("127.0.0.1", port))
        self.file = self.socket.makefile("rb")

    def get(self, requests, part=200):
        """Returns the status and the body of each reply to requests (party, role, target)."""
        found = []
        for at in range(0, len(requests), part):
            some = requests[at:at + part]
            self.socket.sendall(b"".join(
                f"GET {target} HTTP/1.1\r\nRegister-Party: {party}\r\nRegister-Role: {role}\r\n\r\n".encode() for party, role,
                target in some))
            found += [self.reply() for _ in some]
        return found

    def reply(self):
        status, length = int(self.file.readline().split()[1]), 0
        while line := self.file.readline().strip():
            if line.lower().startswith(b"content-length:"):
                length = int(line[15:])
        return status, self.file.read(length)

    def close(self):
        self.file.close()
        self.socket.close()
