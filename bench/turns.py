#!/usr/bin/env python3
"""Do reads take longer in a larger register? Servers of registers of three sizes take turns, so that other load affects all of them.

    bench/turns.py                       (takes two minutes or more: the largest register is opened)

The reads of an owner of one unit, of banks and of conveyancers (joins.py), 600 each; then the SQL statements of each by C SQLite
(texts.py), each time the median of three runs. Prints the median and the tenth percentile, in microseconds. In each turn the smallest
register is read first, after the statements on the other files, which makes it slower.
"""
import os
import re
import shutil
import tempfile
import time

import joins
import registers
import texts

SIZES, TURNS = (1000, 10000, 100000), 600


class Size:
    """A register of one size, its server, and the baseline on a copy of it."""

    def __init__(self, folder, program, entries):
        file = os.path.join(folder, f"{entries}.land")
        self.known = registers.of_entries(file, entries)
        self.baseline = texts.Baseline([program, shutil.copy(file, file + ".baseline"), "delete"])
        self.client = joins.Client(joins.land(file).port)

    def choose(self, place):
        """Selects one of the requests, and clears the times."""
        party, role, name, path = joins.requests_of(self.known)[place]
        self.request, self.plan = joins.head("GET", path, party, role), f"{role}: {name}"
        self.values, self.land_times, self.sqlite_times = joins.values(self.known, party, path), [], []

    def send(self):
        begin = time.perf_counter()
        self.client.send(self.request)
        self.land_times.append(time.perf_counter() - begin)

    def run(self):
        self.sqlite_times.append(self.baseline.read(self.plan, 0, *self.values)[0])


def part(times, place):
    """Returns a quantile of some times, in microseconds."""
    return f"{sorted(times)[int(len(times) * place)] * 1e6:.0f}"


def parts(all_times):
    return " ".join(f"{name} {', '.join(part(times, place) for times in all_times)}" for name, place in (("p50", 0.5), ("p10", 0.1)))


def main():
    missing = texts.missing()
    if missing:
        raise SystemExit(missing)
    with tempfile.TemporaryDirectory() as folder:
        try:
            sizes = [Size(folder, texts.build(folder), entries) for entries in SIZES]
            for place, (_, role, name, path) in enumerate(joins.requests_of(sizes[0].known)):
                if role == "notary" or re.search(r"\ball\b", name) or path == "/nothing":
                    continue
                for size in sizes:
                    size.choose(place)
                for _ in range(TURNS):
                    for size in sizes:
                        size.send()
                    for size in sizes:
                        size.run()
                print(f"{role}: {name} | land {parts([size.land_times for size in sizes])}"
                      f" | sqlite {parts([size.sqlite_times for size in sizes])}", flush=True)
        finally:
            for service in [*joins.Service.running]:
                service.stop()


if __name__ == "__main__":
    main()
