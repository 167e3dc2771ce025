#!/usr/bin/env python3
"""Time per act, the bytes that it writes and the number of its syncs, on the disk of a folder, for one or more programs and page sizes.

    bench/acts.py [--acts N] [--page-size SIZE].. FOLDER PROGRAM [PROGRAM..]      (1000, 4096)

For each program and page size a new register is served from a file in the folder. One client enrols N parties on a keep-alive connection,
one request after another. The registers take turns in rounds of N / 10 enrolments, so that a slow minute of the disk meets all of them. It
prints for each of them the median and the minimum of the ten rounds, in milliseconds per act, the bytes that the program writes per act to
the file, its log and the connection, and by `strace`, if it is installed, the number of calls of fdatasync for 20 more enrolments.
"""
import argparse
import http.client
import json
import os
import re
import shutil
import socket
import statistics
import subprocess
import sys
import tempfile
import time

import registers

OFFICE = {"Register-Party": "1", "Register-Role": "stateAdministrator"}
ROUNDS = 10


def free_port():
    with socket.socket() as probe:
        probe.bind(("127.0.0.1", 0))
        return probe.getsockname()[1]


class Register:
    """A new register that a program serves from a file, and a keep-alive connection to it."""

    def __init__(self, program, page_size, folder, *tracer):
        self.program, self.page_size, self.port = program, page_size, free_port()
        file = os.path.join(folder, f"{self.port}.land")
        registers.new(program, file, page_size)
        words = [*tracer, program, "serve", "--file", file, "--port", str(self.port), "--connections", "1"]
        self.service = subprocess.Popen(words)
        for _ in range(600):
            try:
                self.client = http.client.HTTPConnection("127.0.0.1", self.port, timeout=60)
                self.client.connect()
                break
            except ConnectionRefusedError:
                time.sleep(0.05)
        else:
            raise SystemExit(f"acts: {program} does not listen")
        self.client.sock.setsockopt(socket.IPPROTO_TCP, socket.TCP_NODELAY, 1)

    def enrol(self, count):
        """Enrols a number of parties, and returns the seconds that it took."""
        body = json.dumps({"kind": "naturalPerson", "name": "Anna"})
        start = time.perf_counter()
        for _ in range(count):
            self.client.request("POST", "/acts/enrol", body, OFFICE)
            reply = self.client.getresponse()
            text = reply.read()
            if reply.status != 200:
                raise SystemExit(f"acts: {self.program}: {text.decode()}")
        return time.perf_counter() - start

    def written(self):
        """Returns the number of bytes that the program has written so far."""
        with open(f"/proc/{self.service.pid}/io", encoding="ascii") as it:
            return int(re.search(r"(?m)^wchar: (\d+)$", it.read())[1])

    def end(self):
        self.client.close()
        self.service.wait(30)


def count_syncs(program, page_size, folder, acts):
    """Returns the number of syncs of a register that executes a number of enrolments, or None without strace."""
    if not shutil.which("strace"):
        return None
    trace = os.path.join(folder, "syncs")
    register = Register(program, page_size, folder, "strace", "-f", "-e", "trace=fdatasync,fsync", "-o", trace)
    register.enrol(acts)
    register.end()
    with open(trace) as lines:
        return sum("sync(" in line for line in lines)


def main():
    options = argparse.ArgumentParser(description=__doc__, formatter_class=argparse.RawDescriptionHelpFormatter)
    options.add_argument("--acts", type=int, default=1000, help="enrolments for each program (1000)")
    options.add_argument("--page-size", type=int, action="append", metavar="SIZE", help="bytes of a page of the files, repeatable (4096)")
    options.add_argument("folder")
    options.add_argument("programs", nargs="+", metavar="PROGRAM")
    wanted = options.parse_args()
    each = max(1, wanted.acts // ROUNDS)
    with tempfile.TemporaryDirectory(dir=wanted.folder) as folder:
        sides = [Register(os.path.abspath(it), size, folder) for it in wanted.programs for size in wanted.page_size or [registers.PAGE_SIZE]]
        times = {it: [] for it in sides}
        for it in sides:
            it.enrol(each)
        written = {it: it.written() for it in sides}
        for _ in range(ROUNDS):
            for it in sides:
                times[it].append(it.enrol(each) / each * 1000)
        for it in sides:
            written[it] = (it.written() - written[it]) / (ROUNDS * each)
            it.end()
            before, after = (count_syncs(it.program, it.page_size, folder, acts) for acts in (20, 40))
            syncs = None if before is None else after - before
            print(f"{it.program}, pages of {it.page_size:,} bytes: median {statistics.median(times[it]):.2f} ms, minimum {min(times[it]):.2f} ms "
                  f"and {written[it]:,.0f} bytes per enrolment"
                  + (f", {syncs} syncs for 20 more" if syncs is not None else ""))


if __name__ == "__main__":
    sys.exit(main())
