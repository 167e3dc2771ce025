#!/usr/bin/env python3
"""The time of `land talk` for a stream of reads, compared with a handler of Python's http.server that answers the same reads, in turn.

    bench/stream.py [TURNS [PARTY [PREFIX]]]     (3 1)
    LAND=PROGRAM bench/stream.py ..              another program than crates/land/out/land

64 enrolments and 8 registrations of 60 parcels and 60 rights create 1,041 objects; then the state administrator reads parties, units and
entries in turn. The stream comes from a file, the replies go to a file, and the time of the set-up is subtracted. Python answers the reads
from a dictionary, with BytesIO instead of sockets. With another PARTY the reads are denied, and with a PREFIX their paths are unknown; then
the replies are discarded, which measures only parsing and the decision, and Python is skipped.
"""
import io
import json
import os
import subprocess
import sys
import tempfile
import time
from http.server import BaseHTTPRequestHandler

from registers import PROGRAM

TURNS = int(sys.argv[1]) if len(sys.argv) > 1 else 3
PARTY = sys.argv[2] if len(sys.argv) > 2 else "1"
PREFIX = sys.argv[3] if len(sys.argv) > 3 else ""
IS_PLAIN = PARTY == "1" and not PREFIX
OFFICE = "Register-Party: 1\r\nRegister-Role: stateAdministrator\r\n"


def post(act, body):
    text = json.dumps(body)
    return "POST /acts/%s HTTP/1.1\r\n%sContent-Length: %d\r\n\r\n%s" % (act, OFFICE, len(text), text)


def get(path):
    return "GET %s%s HTTP/1.1\r\nHost: land\r\n%s\r\n" % (PREFIX, path, OFFICE.replace("1", PARTY, 1))


def square(n):
    west = 20000 * n
    return "POLYGON ((%d 0,%d 0,%d 10000,%d 10000,%d 0))" % (west, west + 10000, west + 10000, west, west)


def set_up():
    """64 parties (2 to 65), then 8 units with 60 parcels and 60 rights each: 64 + 8 * (2 + 60 + 60) + 1 = 1,041 objects."""
    for n in range(64):
        yield post("enrol", {"kind": "naturalPerson", "name": "Party %d" % n})
    for u in range(8):
        yield post("register", {
            "name": "Garden %d" % u, "checked": True, "document": "Deed %d" % u,
            "parcels": [{"label": str(n), "outline": square(n)} for n in range(60)],
            "rights": [{"party": 2 + n, "type": "ownership", "share": "1/60"} for n in range(60)]})


PARTIES = ["/parties/%d" % n for n in range(2, 66)]
UNITS = ["/units/%d" % (67 + 122 * u) for u in range(8)]
RRRS = ["/rrrs/%d" % (68 + 122 * u + 60 + n) for u in range(8) for n in range(60)]


def reads(count):
    for n in range(count):
        kind = (PARTIES, UNITS, RRRS)[n % 3]
        yield get(kind[n // 3 % len(kind)])


def served(count):
    """Returns the seconds of the whole run, and the replies, unless they are discarded."""
    with tempfile.TemporaryFile() as source, open(os.devnull, "wb") if not IS_PLAIN else tempfile.TemporaryFile() as sink:
        source.write("".join([*set_up(), *reads(count)]).encode())
        source.seek(0)
        before = time.perf_counter()
        status = subprocess.run([PROGRAM, "talk", "--clock", "1000"], stdin=source, stdout=sink).returncode
        taken = time.perf_counter() - before
        assert status == 0, status
        if not IS_PLAIN:
            return taken, b""
        sink.seek(0)
        return taken, sink.read()


def objects(replies):
    """Returns the objects in the replies, by path."""
    found, at = {}, 0
    paths = [None] * 72 + [request.split(" ", 2)[1] for request in reads(3 * len(RRRS))]
    for path in paths:
        end = replies.index(b"\r\n\r\n", at) + 4
        head = replies[at:end]
        assert head.startswith(b"HTTP/1.1 200 "), replies[at:end + 40]
        length = int(head.split(b"Content-Length: ")[1].split(b"\r\n")[0])
        if path:
            found[path] = json.loads(replies[end:end + length])["object"]
        at = end + length
    return found


class Handler(BaseHTTPRequestHandler):
    protocol_version = "HTTP/1.1"

    def __init__(self, stream, by_path):
        self.rfile, self.wfile, self.by_path = io.BytesIO(stream), io.BytesIO(), by_path
        self.client_address, self.requestline = ("", 0), ""
        self.handle()

    def log_message(self, *words):
        pass

    def do_GET(self):
        path, _, query = self.path.partition("?")
        assert self.headers["Register-Party"] == "1" and self.headers["Register-Role"] == "stateAdministrator"
        body = json.dumps({"object": self.by_path[path]}, separators=(",", ":")).encode()
        self.send_response(200)
        self.send_header("Content-Type", "application/json")
        self.send_header("Content-Length", str(len(body)))
        self.end_headers()
        self.wfile.write(body)


def main():
    by_path = objects(served(3 * len(RRRS))[1]) if IS_PLAIN else {}
    for _ in range(TURNS):
        none, _ = served(0)
        print("only the set-up %.3f s" % none)
        for count in (10000, 100000):
            taken, _ = served(count)
            print("land %d reads %.3f s, without the set-up %.2f us each, %.0f per second"
                  % (count, taken, (taken - none) / count * 1e6, count / (taken - none)), flush=True)
        if IS_PLAIN:
            stream = "".join(reads(20000)).encode()
            before = time.perf_counter()
            handler = Handler(stream, by_path)
            taken = time.perf_counter() - before
            assert handler.wfile.getvalue().count(b"HTTP/1.1 200") == 20000
            print("python %.2f us each, %.0f per second" % (taken / 20000 * 1e6, 20000 / taken), flush=True)


main()
