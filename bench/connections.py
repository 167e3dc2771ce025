#!/usr/bin/env python3
"""Requests per second and their times with many keep-alive clients: `land serve --at-once`, next to nginx, which serves the same bytes as a
file, and to a small server in Python (asyncio), which sends the same bytes.

    bench/connections.py [SECONDS [ROUNDS]]       (2 3)
    LAND=PROGRAM bench/connections.py ..          another program than crates/land/out/land

A register of 100 parties; each request is a view of one. The clients are one process in C (pingpong.c), so that they take little of the CPU;
each of them sends its next request when it has the reply. The servers take turns, and each figure is the median of the rounds. Then: one
client of the server without `--at-once`, of one that has it, and of the latter with 900 idle connections; and one client next to four that
send 500 pipelined requests again and again. Last, clients through HAProxy with different numbers of places (`maxconn`). nginx and HAProxy
are skipped if they are not installed.
"""
import asyncio
import contextlib
import os
import resource
import shutil
import socket
import statistics
import subprocess
import sys
import tempfile
import time

from service import OFFICE, PROGRAM, fill, free_port

HERE = os.path.dirname(os.path.abspath(__file__))
CLIENTS = (1, 50, 200, 1000)
REQUEST = ("GET /parties/50 HTTP/1.1\r\nHost: land\r\n" + "".join(f"{name}: {it}\r\n" for name, it in OFFICE.items()) + "\r\n").encode()
NGINX = """pid {folder}/nginx.pid; error_log {folder}/error.log; worker_processes 1; worker_rlimit_nofile 4096;
events {{ worker_connections 2048; }}
http {{ access_log off; client_body_temp_path {folder}/b; proxy_temp_path {folder}/p; fastcgi_temp_path {folder}/f;
    uwsgi_temp_path {folder}/u; scgi_temp_path {folder}/s; keepalive_requests 1000000000; tcp_nodelay on;
    server {{ listen 127.0.0.1:{port}; root {folder}/root; default_type application/json; server_tokens off; }} }}
"""
HAPROXY = """global
    maxconn 4000
    nbthread 1
defaults
    mode http
    timeout connect 2s
    timeout client 60s
    timeout server 30s
    timeout queue 20s
frontend queue
    bind 127.0.0.1:{port}
    default_backend register
backend register
    http-reuse always
    server one 127.0.0.1:{to} maxconn {places} maxqueue 1500 pool-max-conn {places} pool-purge-delay 10s
"""


class Server:
    """A server in its own process."""

    def __init__(self, words, port):
        self.process, self.port = subprocess.Popen(words, stdin=subprocess.DEVNULL), port
        while True:
            with open("/proc/net/tcp", encoding="ascii") as it:
                if any(f":{port:04X} 00000000:0000 0A" in line for line in it):
                    return
            if self.process.poll() is not None:
                raise SystemExit(f"a server exits with {self.process.returncode}")
            time.sleep(0.01)

    def cpu(self):
        """Returns its CPU seconds."""
        with open(f"/proc/{self.process.pid}/schedstat", encoding="ascii") as it:
            return int(it.read().split()[0]) / 1e9

    def memory(self):
        """Returns its resident memory, in MB."""
        with open(f"/proc/{self.process.pid}/status", encoding="ascii") as it:
            return next(int(line.split()[1]) for line in it if line.startswith("VmRSS:")) / 1000

    def stop(self):
        self.process.kill()
        self.process.wait()


def land(file, at_once=None):
    port = free_port()
    words = [PROGRAM, "serve", "--file", file, "--port", str(port), "--connections", "1000000"]
    return Server([*words, *(["--at-once", str(at_once)] if at_once else [])], port)


def nginx(folder, body):
    port, path = free_port(), os.path.join(folder, "nginx.conf")
    os.makedirs(os.path.join(folder, "root", "parties"), exist_ok=True)
    os.chmod(folder, 0o755)
    with open(os.path.join(folder, "root", "parties", "50"), "wb") as sink:
        sink.write(body)
    with open(path, "w", encoding="ascii") as sink:
        sink.write(NGINX.format(folder=folder, port=port))
    return Server(["nginx", "-e", f"{folder}/error.log", "-c", path, "-g", "daemon off; master_process off;"], port)


def haproxy(folder, to, places):
    """Returns HAProxy in front of a port, with this number of places."""
    port, path = free_port(), os.path.join(folder, f"haproxy-{places}.cfg")
    with open(path, "w", encoding="ascii") as sink:
        sink.write(HAPROXY.format(port=port, to=to, places=places))
    return Server(["haproxy", "-f", path], port)


def python(reply):
    port = free_port()
    return Server([sys.executable, __file__, "serve", str(port), reply.hex()], port)


class Replies(asyncio.Protocol):
    """Sends the same reply to each request."""

    def connection_made(self, transport):
        self.transport, self.received = transport, b""

    def data_received(self, data):
        *requests, self.received = (self.received + data).split(b"\r\n\r\n")
        for _ in requests:
            self.transport.write(Replies.reply)


async def serve_in_python(port):
    server = await asyncio.get_running_loop().create_server(Replies, "127.0.0.1", port, backlog=1024)
    await server.serve_forever()


def ask(port):
    """Returns the reply to one request."""
    with socket.create_connection(("127.0.0.1", port)) as it:
        it.sendall(REQUEST)
        return it.recv(1 << 16)


class Clients:
    """The clients in C."""

    def __init__(self, folder):
        self.program = os.path.join(folder, "pingpong")
        subprocess.run(["cc", "-O2", "-o", self.program, os.path.join(HERE, "pingpong.c")], check=True)

    def start(self, port, clients, seconds, depth=1):
        """Starts clients that each send `depth` requests, wait for as many replies, and so on."""
        words = [self.program, str(port), str(clients), str(seconds), str(depth), str(len(ask(port))), REQUEST]
        return subprocess.Popen(words, stdout=subprocess.PIPE, text=True)

    def run(self, server, clients, seconds):
        """Returns the requests per second, the median and the 99th percentile in microseconds, and the CPU microseconds per request."""
        began = server.cpu()
        output = self.start(server.port, clients, seconds).communicate()[0]
        if not output:
            raise SystemExit(f"the clients of port {server.port} fail: {ask(server.port)}")
        served, rate, median, high, count = map(float, output.split())
        if served < clients:
            print(f"only {served:.0f} of {clients} clients are served: measure for more seconds", file=sys.stderr)
        return rate, median, high, (server.cpu() - began) / max(count, 1) * 1e6


def medians(samples):
    return [statistics.median(it) for it in zip(*samples)]


def main():
    if sys.argv[1:2] == ["serve"]:
        Replies.reply = bytes.fromhex(sys.argv[3])
        asyncio.run(serve_in_python(int(sys.argv[2])))
        return
    seconds = float(sys.argv[1]) if len(sys.argv) > 1 else 2
    rounds = int(sys.argv[2]) if len(sys.argv) > 2 else 3
    resource.setrlimit(resource.RLIMIT_NOFILE, (8192, max(8192, resource.getrlimit(resource.RLIMIT_NOFILE)[1])))
    with tempfile.TemporaryDirectory() as folder, contextlib.ExitStack() as running:
        file = os.path.join(folder, "town.land")
        fill(file, 100)
        clients = Clients(folder)

        def start(server):
            running.callback(server.stop)
            return server
        many = start(land(file, 1024))
        reply = ask(many.port)
        servers = {"`land`": many, "nginx": start(nginx(folder, reply.partition(b"\r\n\r\n")[2])) if shutil.which("nginx") else None,
                   "Python": start(python(reply))}
        servers = {name: it for name, it in servers.items() if it}
        copies = [shutil.copy(file, os.path.join(folder, f"{it}.land")) for it in ("alone", "idle")]
        table(clients, servers, seconds, rounds)
        one_client(clients, start, land(copies[0]), land(copies[1], 1024), seconds, rounds)
        floods(clients, many, seconds, rounds)
        if shutil.which("haproxy"):
            queues(clients, {places: start(haproxy(folder, many.port, places)) for places in (1, 8, 64)}, seconds, rounds)


def table(clients, servers, seconds, rounds):
    print("| clients |" + "".join(f" {name}: requests/s | p50, us | p99, us | CPU, us |" for name in servers))
    print("|--:|" + "--:|--:|--:|--:|" * len(servers))
    for count in CLIENTS:
        found = {name: [] for name in servers}
        for _ in range(rounds):
            for name, server in servers.items():
                found[name].append(clients.run(server, count, seconds))
        cells = (f" {rate:,.0f} | {median:,.0f} | {high:,.0f} | {cpu:.1f} |" for rate, median, high, cpu in map(medians, found.values()))
        print(f"| {count:,} |" + "".join(cells), flush=True)
    print(f"\nMemory of `land` after 1,000 clients: {servers['`land`'].memory():.1f} MB")


def one_client(clients, start, alone, many, seconds, rounds):
    """One client: without `--at-once`, with it, and with it next to 900 idle connections."""
    start(alone)
    start(many)
    samples = {"without `--at-once`": [], "with it": [], "with 900 idle connections": []}
    for _ in range(rounds):
        samples["without `--at-once`"].append(clients.run(alone, 1, seconds))
        samples["with it"].append(clients.run(many, 1, seconds))
    before = many.memory()
    idle = [socket.create_connection(("127.0.0.1", many.port)) for _ in range(900)]
    time.sleep(1)
    began = many.cpu()
    time.sleep(3)
    spent = many.cpu() - began
    for _ in range(rounds):
        samples["with 900 idle connections"].append(clients.run(many, 1, seconds))
        samples["without `--at-once`"].append(clients.run(alone, 1, seconds))
    grown = many.memory() - before
    for it in idle:
        it.close()
    print("\n| one client | requests/s | p50, us | p99, us | CPU, us |\n|---|--:|--:|--:|--:|")
    for name, found in samples.items():
        rate, median, high, cpu = medians(found)
        print(f"| {name} | {rate:,.0f} | {median:,.0f} | {high:,.0f} | {cpu:.1f} |", flush=True)
    print(f"\n900 idle connections take {spent * 1000:.1f} ms of CPU in 3 s, and {grown:.1f} MB of memory")


def floods(clients, server, seconds, rounds):
    """One client next to four floods."""
    found = []
    for _ in range(rounds):
        flooding = clients.start(server.port, 4, seconds + 1, depth=500)
        time.sleep(0.5)
        found.append((*clients.run(server, 1, seconds), float(flooding.communicate()[0].split()[1])))
    rate, median, high, _, others = medians(found)
    print(f"\nNext to four floods of 500 pipelined requests each ({others:,.0f} replies/s): {rate:,.0f} requests/s, p50 {median:,.0f} us, "
          f"p99 {high:,.0f} us")


def queues(clients, servers, seconds, rounds):
    """Clients through HAProxy, by its number of places."""
    print("\n| clients through HAProxy |" + "".join(f" maxconn {places}: requests/s | p99, us |" for places in servers))
    print("|--:|" + "--:|--:|" * len(servers))
    for count in (1, 8, 40):
        found = {places: [] for places in servers}
        for _ in range(rounds):
            for places, server in servers.items():
                found[places].append(clients.run(server, count, seconds))
        cells = (f" {rate:,.0f} | {high:,.0f} |" for rate, _, high, _ in map(medians, found.values()))
        print(f"| {count} |" + "".join(cells), flush=True)


if __name__ == "__main__":
    main()
