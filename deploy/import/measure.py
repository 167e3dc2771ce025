#!/usr/bin/python3
"""Measures an import of a generated register: the dry run, the acts, the comparison, and the memory of the importer and of the register.

    measure.py FOLDER [PARCELS [DEPTH]]     PARCELS: default 1000; DEPTH: the number of pipelined requests (default 32)

The register's file, the source and the journal are in FOLDER: on a disk, or on a RAM disk such as /dev/shm. LAND names the program."""
import os
import re
import resource
import shutil
import signal
import subprocess
import sys
import tempfile
import time

HERE = os.path.dirname(os.path.abspath(__file__))
sys.path[:0] = [HERE, os.path.join(HERE, "tests"), os.path.dirname(HERE)]
sys.dont_write_bytecode = True
import generate  # noqa: E402
from interrupting_proxy import Register  # noqa: E402
from stack import create_register, free_port, program  # noqa: E402


def run(*words):
    """Runs land-import. Returns its output, the seconds, and its memory in MB."""
    began = time.monotonic()
    process = subprocess.Popen([sys.executable, os.path.join(HERE, "land-import"), *map(str, words)], stdout=subprocess.PIPE,
                               stderr=subprocess.STDOUT, text=True)
    output = process.stdout.read()
    _, status, used = os.wait4(process.pid, 0)
    if status:
        sys.exit(output)
    return output, time.monotonic() - began, used.ru_maxrss // 1024


def main(folder, parcels, depth):
    work = tempfile.mkdtemp(prefix="land-measure-", dir=folder)
    file, source = os.path.join(work, "r.land"), os.path.join(work, "old")
    try:
        generate.main(source, parcels)
        create_register(file)
        register = Register(program(), file, free_port())
        register.start()
        try:
            output, seconds, memory = run("run", source, "--scale", "1000", "--port", register.port, "--depth", depth)
        finally:
            register.process.send_signal(signal.SIGTERM)
            register.process.wait()
        dry = re.search(r"read and checked in ([\d.]+) s", output)[1]
        acts, sent, rate = re.search(r"([\d,]+) acts in ([\d.]+) s \(([\d,]+)/s\)", output).groups()
        size = os.path.getsize(file) / 1e6
        began = time.monotonic()
        checked = subprocess.run([program(), "check", "--file", file], check=True, capture_output=True, text=True).stdout.strip()
        check = time.monotonic() - began
        compared, comparison, more = run("compare", source, "--scale", "1000", "--file", file, "--program", program())
        print(f"{parcels:,} parcels, depth {depth}: {acts} acts; dry run {dry} s; acts {sent} s, {rate}/s; run in total {seconds:.1f} s, "
              f"{memory} MB; file {size:.1f} MB; land check {check:.1f} s; comparison {comparison:.1f} s, {more} MB; "
              f"{compared.strip().splitlines()[-1]}; {checked}; load {os.getloadavg()[0]:.1f}", flush=True)
    finally:
        shutil.rmtree(work)
    children = resource.getrusage(resource.RUSAGE_CHILDREN)
    print(f"CPU time of all processes: {children.ru_utime + children.ru_stime:.1f} s")


if __name__ == "__main__":
    if len(sys.argv) not in (2, 3, 4) or not all(word.isdigit() for word in sys.argv[2:]):
        sys.exit(__doc__)
    numbers = [int(word) for word in sys.argv[2:]]
    main(sys.argv[1], numbers[0] if numbers else 1000, numbers[1] if len(numbers) > 1 else 32)
