#!/usr/bin/env python3
"""Requests per second of `land serve` on a file, compared with Python's http.server and sqlite3 on the same tables.

    ./land --prove                       # builds crates/land/out/land
    bench/service.py [OBJECTS [SECONDS]]      (1000 5; at least 500 objects)
    LAND=PROGRAM bench/service.py ..     another program than crates/land/out/land

Creates a register with a number of parties, and sends both servers the same requests for a number of seconds each, in turn: a view of a
party, the list of all parties, and an enrolment, each on a keep-alive connection and with a new connection per request. Python's server
looks up role and party by an index, and commits an enrolment to the same tables; it implements the policy of these requests only.
"""
import http.client
import http.server
import json
import os
import shutil
import socket
import sqlite3
import subprocess
import sys
import tempfile
import time

import registers

TOP = os.path.dirname(os.path.dirname(os.path.abspath(__file__)))
PROGRAM = os.environ.get("LAND", os.path.join(TOP, "crates", "land", "out", "land"))
OFFICE = {"Register-Party": "1", "Register-Role": "stateAdministrator"}
OPEN = 4102444800000


class Desk(http.server.BaseHTTPRequestHandler):
    """The server in Python, for the state administrator."""

    protocol_version = "HTTP/1.1"
    wbufsize = -1

    def reply(self, status, body):
        text = json.dumps(body, separators=(",", ":")).encode()
        self.send_response_only(status)
        self.send_header("Content-Type", "application/json")
        self.send_header("Content-Length", str(len(text)))
        self.end_headers()
        self.wfile.write(text)

    def is_denied(self):
        caller = int(self.headers["Register-Party"]), self.headers["Register-Role"], OPEN
        found = self.server.base.execute("SELECT 1 FROM role WHERE party = ? AND role = ? AND until = ?", caller)
        if found.fetchone():
            return False
        self.reply(403, {"denied": 2})
        return True

    def do_GET(self):
        if self.is_denied():
            return
        base = self.server.base
        if self.path == "/parties":
            rows = base.execute("SELECT number FROM party WHERE until = ? ORDER BY number", (OPEN,))
            self.reply(200, {"numbers": [number for number, in rows]})
            return
        number = int(self.path.rpartition("/")[2])
        party = base.execute("SELECT name, kind FROM party WHERE number = ? AND until = ?", (number, OPEN)).fetchone()
        if party is None:
            self.reply(403, {"denied": 27})
            return
        roles = base.execute("SELECT role FROM role WHERE party = ? AND until = ?", (number, OPEN))
        self.reply(200, {"object": {"kind": party[1], "members": [], "name": party[0], "number": number,
                                    "roles": [role for role, in roles]}})

    def do_POST(self):
        body = json.loads(self.rfile.read(int(self.headers["Content-Length"])))
        if self.is_denied():
            return
        base = self.server.base
        last, number = base.execute("SELECT stamp, next FROM moments ORDER BY stamp DESC LIMIT 1").fetchone()
        stamp = max(time.time_ns() // 1000000, last + 1)
        with base:
            base.execute("INSERT INTO party (number, since, until, name, kind) VALUES (?, ?, ?, ?, ?)",
                         (number, stamp, OPEN, body["name"], body["kind"]))
            base.execute("INSERT INTO role (party, role, since, until) VALUES (?, ?, ?, ?)",
                         (number, "citizen", stamp, OPEN))
            base.execute("INSERT INTO moments (stamp, next) VALUES (?, ?)", (stamp, number + 1))
        self.reply(200, {"made": [number], "number": number, "stamp": stamp})

    def log_message(self, *_):
        pass


def python_service(file, port):
    server = http.server.HTTPServer(("127.0.0.1", port), Desk)
    server.base = sqlite3.connect(file)
    server.base.execute("PRAGMA journal_mode = wal")
    server.base.execute("PRAGMA synchronous = full")
    server.serve_forever()


def free_port():
    with socket.socket() as it:
        it.bind(("127.0.0.1", 0))
        return it.getsockname()[1]


def start(call, port):
    """Starts a server and waits until it listens. Returns the process."""
    service = subprocess.Popen(call)
    for _ in range(400):
        try:
            socket.create_connection(("127.0.0.1", port)).close()
            return service
        except ConnectionRefusedError:
            if service.poll() is not None:
                raise SystemExit(f"a server exits with {service.returncode}")
            time.sleep(0.02)
    raise SystemExit("the server does not listen on the port")


def send(connection, method, path, body):
    connection.request(method, path, body, OFFICE)
    reply = connection.getresponse()
    answer = reply.read()
    if reply.status != 200:
        raise SystemExit(f"{method} {path}: {reply.status}: {answer}")
    return answer


REQUESTS = {
    "view a party": ("GET", "/parties/500", None),
    "list all parties": ("GET", "/parties", None),
    "enrolment": ("POST", "/acts/enrol", '{"kind":"naturalPerson","name":"Anna"}'),
}


def rate(port, request, seconds, is_keep_alive):
    """Returns the number of requests per second."""
    count, begin = 0, time.perf_counter()
    keep_alive = http.client.HTTPConnection("127.0.0.1", port)
    while time.perf_counter() - begin < seconds:
        connection = keep_alive if is_keep_alive else http.client.HTTPConnection("127.0.0.1", port)
        send(connection, *request)
        if not is_keep_alive:
            connection.close()
        count += 1
    spent = time.perf_counter() - begin
    keep_alive.close()
    return count / spent


def land(file, port):
    return [PROGRAM, "serve", "--file", file, "--port", str(port), "--connections", "1000000"]


def fill(file, objects):
    registers.new(PROGRAM, file)
    port = free_port()
    call = land(file, port)
    call[-1] = "2"
    service = start(call, port)
    connection = http.client.HTTPConnection("127.0.0.1", port)
    for number in range(2, objects + 1):
        send(connection, "POST", "/acts/enrol", json.dumps({"kind": "naturalPerson", "name": f"Party {number}"}))
    connection.close()
    if service.wait() != 0:
        raise SystemExit(f"the server exits with {service.returncode}")


def main():
    if sys.argv[1:2] == ["serve"]:
        python_service(sys.argv[2], int(sys.argv[3]))
        return
    objects = int(sys.argv[1]) if len(sys.argv) > 1 else 1000
    seconds = float(sys.argv[2]) if len(sys.argv) > 2 else 5
    with tempfile.TemporaryDirectory() as folder:
        first = os.path.join(folder, "first.land")
        fill(first, objects)
        print(f"{objects} parties, requests per second")
        print(f"{'':22}{'':12}{'land':>10}{'Python':>10}")
        for name, request in REQUESTS.items():
            for is_keep_alive in (True, False):
                rates = []
                for is_land in (True, False):
                    file = os.path.join(folder, "copy.land")
                    shutil.copy(first, file)
                    port = free_port()
                    call = land(file, port) if is_land else [sys.executable, __file__, "serve", file, str(port)]
                    service = start(call, port)
                    try:
                        rates.append(rate(port, request, seconds, is_keep_alive))
                    finally:
                        service.kill()
                        service.wait()
                    for end in ("", "-wal", "-shm"):
                        if os.path.exists(file + end):
                            os.remove(file + end)
                way = "keep-alive" if is_keep_alive else "new"
                print(f"{name:22}{way:12}{rates[0]:10.0f}{rates[1]:10.0f}", flush=True)


if __name__ == "__main__":
    main()
