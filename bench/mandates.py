#!/usr/bin/env python3
"""The time of a citizen's requests by the number of its mandates: `land serve` on a file, compared with C SQLite.

    bench/mandates.py                    (takes a minute; C SQLite needs cc and sqlite3.h)
    LAND=PROGRAM bench/mandates.py       another program than crates/land/out/land

The register is that of joins.py with 10,000 entries (registers.py). Five of its citizens, each an owner of one unit, are agents with 0, 1,
10, 1,000 and 1,000 principals. Each principal is an owner of one other unit; those of the last agent own nine more units each, with one
entry each, which are added to the 10,000 entries. The agent without mandates is the citizen of joins.py; it also uses a second file, the
register of joins.py without any mandate. Each agent lists its units, entries and parties; it views an entry of its unit, that unit, its
sheet and its other owner, and an entry that is denied.

    land        `land serve`: HTTP on a keep-alive connection over loopback, one request at a time
    C SQLite    the SQL statements of the request, in the order and with the parameters of the program (texts.py, checked by order.py), run
                by the baseline in C (baseline.c) on a copy of the file: statements prepared once, the file opened exclusively, all columns
                of all rows read, timed inside the process. No HTTP, JSON or policy: it decides, sorts and writes nothing

Before the timing, `land check` validates both files, and the replies of `land` are compared with a slow evaluation in Python, which uses no
SQL statement of the program: the numbers of each list, and for each view whether it is allowed. If a reply differs, no figure is printed.
The object in the reply is not checked here.

Each figure is the minimum of the medians of five short runs, as in joins.py; within each run all callers, and the baseline for each of
them, take turns, so that other load affects all of them. Finally two goals are checked, and if one is missed, the exit status is 1: without
mandates, each request takes the same time as on the file without any, within a tenth; and for two agents with the same number of
principals, of which one's hold ten times as much, each view takes the same time, within a tenth.

Not measured: mutations, which are found like units; acts, which read at most one mandate; and the list of all parcels, for which no mandate
is read (joins.py has it).
"""
import json
import os
import shutil
import signal
import sqlite3
import sys
import tempfile

import joins
import registers
import texts
from joins import RUNS, SECONDS, head, micros
from registers import OPEN

ENTRIES, COUNTS, MORE = 10000, (0, 1, 10, 1000), 9
LISTS = ("list own units", "list visible entries", "list visible parties")
PARTY = "view a visible party"
VIEWS = ("view a visible entry", "view a denied entry", "view own unit", "own title sheet", PARTY)
NAMES = (*LISTS, *VIEWS)
RIGHTS = ("ownership", "lease", "usufruct")


def requests_of(agent):
    """Returns the caller, its role, the name and the path of each request: those of joins.py's citizen, with this agent as the caller, and
    two more."""
    caller = agent["owner"], "citizen"
    rows = [*joins.requests_of(agent), (*caller, "view own unit", f"/units/{agent['unit']}"), (*caller, PARTY, f"/parties/{agent['partner']}")]
    found = {row[2]: row for row in rows if row[:2] == caller}
    return [found[name] for name in NAMES]


# ---- the expected replies


class Expected:
    """The current rows of a file, and the objects that a citizen may see according to docs/POLICY.md."""

    def __init__(self, file):
        base = sqlite3.connect(file)

        def current(columns, table):
            return base.execute(f"SELECT {columns} FROM {table} WHERE until = {OPEN}").fetchall()

        self.mandates, self.members = current("principal, agent", "mandate"), current("grp, party", "member")
        self.entries = current("number, unit, party, class", "rrr")
        base.close()

    def visible(self, party):
        """Returns the numbers of each kind, by the first part of its path."""
        circle = {party, *(principal for principal, agent in self.mandates if agent == party)}
        groups = {group for group, member in self.members if member in circle}
        mine = [(unit, kind) for _, unit, holder, kind in self.entries if holder in circle | groups and kind in RIGHTS]
        held, owned = {unit for unit, _ in mine}, {unit for unit, kind in mine if kind == "ownership"}
        entries = [row for row in self.entries if row[1] in held and (row[3] != "mortgage" or row[1] in owned)]
        return {"units": held, "rrrs": {row[0] for row in entries}, "parties": circle | groups | {row[2] for row in entries}}


def is_expected(visible, path, status, body):
    """Returns whether a reply is correct: the numbers of a list, or whether a view is allowed."""
    kind, *rest = path[1:].split("/")
    if rest:
        return status == (200 if int(rest[0]) in visible[kind] else 403)
    return status == 200 and json.loads(body)["numbers"] == sorted(visible[kind])


class Caller:
    """An agent, the server that it uses, and the baseline on a copy of the server's file, if there is one. The constructor checks all
    replies."""

    def __init__(self, service, baseline, agent, visible):
        self.service, self.baseline, self.agent = service, baseline, agent
        self.principals, self.units, self.statuses = len(agent["principals"]), len(visible["units"]), []
        client = joins.Client(service.port)
        for party, role, name, path in requests_of(agent):
            status, body = client.send(head("GET", path, party, role))
            if not is_expected(visible, path, status, body):
                raise SystemExit(f"{name}, with {self.principals} principals: unexpected reply {status}, {body[:200]}")
            self.statuses.append(status)
        client.close()

    def run(self, place):
        """Runs a request. Returns the seconds of the server and of the baseline, and the number of its statements."""
        party, role, name, path = requests_of(self.agent)[place]
        # The server answers one connection at a time.
        client, request = joins.Client(self.service.port), head("GET", path, party, role)
        served = joins.median(lambda: client.send(request))
        client.close()
        if not self.baseline:
            return served, None, None
        return served, *self.baseline.read(texts.plan_of(role, name, self.agent), SECONDS, *joins.values(self.agent, party, path))


def measured(callers, place):
    """Returns the minimum of the figures of a request for each caller: of the server and of the baseline, and the number of statements."""
    runs = [[caller.run(place) for caller in callers] for _ in range(RUNS)]
    return [[None if None in figure else min(figure) for figure in zip(*of_caller)] for of_caller in zip(*runs)]


# ---- the output


def print_times(agents, statuses, figures):
    """Prints the times of each request, by the number of principals of the caller."""
    names = [f"{agent.principals:,}" for agent in agents]
    print(joins.header(["request: `land` (C SQLite)", "status", "none in the file", *names[:-1], f"{names[-1]}, {MORE + 1} units each"]))
    for name, status, (without, *row) in zip(NAMES, statuses, figures):
        cells = [micros(without[0]), *(f"{micros(served)} ({micros(lite)})" for served, lite, _ in row)]
        print(f"| citizen: {name} | {status} | {' | '.join(cells)} |")


def print_statements(figures):
    """Prints for each request the number of SQL statements for each agent, the ratio of `land` to C SQLite, and the time per principal."""
    few, many = 0, len(COUNTS) - 1
    each_of = f"per principal, of {COUNTS[many]:,}: `land` (C SQLite)"
    print("\n" + joins.header(["request", "SQL statements", "`land` with HTTP to C SQLite", each_of]))
    for name, (_, *row) in zip(NAMES, figures):
        counts = ", ".join("-" if ran is None else f"{ran:,}" for _, _, ran in row)
        ratios = ", ".join(f"{served / lite:.1f}" if lite else "-" for served, lite, _ in row)
        each = [f"{(most - least) / COUNTS[many] * 1e6:.2f}" if least else "-" for least, most in zip(row[few][:2], row[many][:2])]
        print(f"| citizen: {name} | {counts} | {ratios} | {each[0]} ({each[1]}) |")


def is_met(goal, names, pairs):
    """Prints and returns whether the two times of each request are the same within a tenth."""
    parts = [one / other - 1 for one, other in pairs]
    missed = [f"{name}: {part:+.0%}" for name, part in zip(names, parts) if abs(part) > 0.1]
    result = "missed by " + "; ".join(missed) if missed else "met"
    print(f"\ngoal: {goal}, within a tenth: {result} (by request {', '.join(f'{part:+.1%}' for part in parts)})")
    return not missed


def are_met(figures):
    """Prints and returns whether both goals are met."""
    without = [(row[1][0], row[0][0]) for row in figures]
    rich = [(row[-1][0], row[-2][0]) for name, row in zip(NAMES, figures) if name in VIEWS]
    is_free = is_met("without mandates, the time of a file that has none", NAMES, without)
    return is_met("the time of views does not grow with the units of principals", VIEWS, rich) and is_free


def of_file(file):
    """Returns the expected replies for a file, and a server for it."""
    print(f"{os.path.basename(file)}: `land check` takes {joins.check(file):.2f} s", flush=True)
    return Expected(file), joins.land(file)


def compare(folder, program):
    """Measures and prints the figures. Returns whether the goals are met."""
    plain, given = (os.path.join(folder, name) for name in ("without.land", "mandates.land"))
    known = registers.of_entries(plain, ENTRIES)
    agents = registers.add_mandates(shutil.copy(plain, given), known, COUNTS, MORE)
    citizen = {**agents[0], "principals": []}
    baseline = texts.Baseline([program, shutil.copy(given, given + ".baseline"), "delete"]) if program else None
    (before, without), (after, service) = of_file(plain), of_file(given)
    callers = [Caller(without, None, citizen, before.visible(citizen["owner"]))]
    callers += [Caller(service, baseline, agent, after.visible(agent["owner"])) for agent in agents]
    statuses = callers[0].statuses
    if any(caller.statuses != statuses for caller in callers):
        raise SystemExit(f"the statuses differ between callers: {[caller.statuses for caller in callers]}")
    figures = [measured(callers, place) for place in range(len(NAMES))]
    print(f"\n## {ENTRIES:,} entries, and {MORE * COUNTS[-1]:,} more; reads by the number of principals, in µs\n")
    print_times(callers[1:], statuses, figures)
    print_statements(figures)
    print(f"\nUnits visible to the agents: {', '.join(f'{caller.units:,}' for caller in callers[1:])}")
    if baseline:
        baseline.stop()
    return are_met(figures)


def main():
    signal.signal(signal.SIGTERM, lambda *_: sys.exit(1))
    missing = texts.missing()
    if missing:
        print(f"C SQLite is skipped: {missing}")
    with tempfile.TemporaryDirectory() as folder:
        try:
            is_good = compare(folder, None if missing else texts.build(folder))
        finally:
            for service in [*joins.Service.running]:
                service.stop()
    sys.exit(not is_good)


if __name__ == "__main__":
    main()
