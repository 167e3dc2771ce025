#!/usr/bin/env python3
"""Where the program spends its time, in instructions, which do not depend on the load of the host.

    bench/profile.py [talk] [serve] [acts] [listing] [reads] [opening]
                                                         (all six; it needs valgrind, which makes the program some fifty times slower)
    LAND=PROGRAM bench/profile.py ..                     another program than crates/land/out/land, with symbols
    PAGE_SIZE=2048 bench/profile.py ..                   another page size of the files than 4096
    ADMINISTRATORS=20 bench/profile.py acts              another number of state administrators than one

talk        A register is filled by acts: 20 enrolments, and 10 registrations of a parcel and two rights. Then one request is sent a
            hundred times, and in a second run two hundred times. The figure is the difference, per request: start, set-up and one-time work
            cancel out. `land talk` has the register in memory, and reads all requests from one file.
serve       The same with `land serve`, which has the register in a new file; the requests are sequential, on one connection.
acts        An enrolment, a registration, a filing and an approval, by `land serve` on a file with 1,000 entries, from forty and eighty acts,
            as in bench/joins.py.
listing     A notary's list of all 2,500 units of a file with 10,000 entries, by `land serve`, from ten and twenty lists.
reads       Each read of bench/joins.py on a file with 1,000 entries, by `land serve` and by the baseline in C (baseline.c), which runs the
            same SQL statements: from twenty and forty reads. The ratio is that of `land` without HTTP, that is, without the instructions of
            a request for an unknown path. The last column is its ratio to the baseline on the statements that version 0.4.0 ran, if there
            is a target for it. It needs cc and sqlite3.h.
opening     `land check` of a file with 10,000 changes, as in bench/check.py: a party and its unit in turn.

Valgrind's callgrind counts the instructions of the process, without the kernel (which reads, writes and waits for the disk) and without
caches; a long memset may count one instruction per byte, more than it costs. Inlined functions count for their callers, for example the
parser of heads.

The instructions of a request are divided by the names of functions, each with its own instructions; library functions (maps, formatting,
comparisons, hashes) count for their callers. An opening is divided by a few functions, each with all that it calls except the other ones.
If several parts call a function, its instructions, and those of its callees, are divided in proportion to the cost of these calls.
"""
import os
import re
import shutil
import subprocess
import sys
import tempfile
from collections import Counter, defaultdict
from functools import partial
from pathlib import Path

import joins
import registers
import texts
from registers import PROGRAM, square

COUNT, UNITS, ENTRIES, CHANGES = 100, 10, 10000, 10000
ACTS, FEW_ENTRIES, READS = 40, 1000, 20
RUNS_OF_BASELINE = 3  # of a read that is given no time
ADMINISTRATORS = int(os.environ.get("ADMINISTRATORS", "1"))
ROUNDS = 60  # more than the depth of the call graph
REQUESTS = {
    "a citizen's units": ("GET", "/units", 2, "citizen", None),
    "a citizen's entry": ("GET", "/rrrs/25", 2, "citizen", None),
    "a citizen's title sheet": ("GET", "/units/23/sheet", 2, "citizen", None),
    "an enrolment": ("POST", "/acts/enrol", registers.OFFICE, "stateAdministrator", {"kind": "naturalPerson", "name": "Anna"}),
}
PERFORMED = {"an enrolment": joins.enrolments, "a registration": joins.registrations, "a filing": joins.lodgings, "an approval": joins.lodgings}
REST, MEMORY = "the rest", "memory"
# The parts of a request, each with the prefixes of the names of its functions. The longest prefix counts.
PARTS = {
    "HTTP read and written": "httparse http_header simdutf8 land_commands land_desk land_streams land_wire::framing land_wire::fields"
                             " read write recv send",
    "routing, JSON read": "matchit land_wire land_wire_json serde_json json",
    "JSON and sheets written": "land_wire_json::texts land_wire::text land_sheet serde_json::ser serde_json::from json::write ryu"
                               " serde_json::number::write serde_json::value::Value::to_string",
    "policy, acts": "land_rules land_keep land_acts land_core land_fraction",
    "lookups and queries, decoding rows": "land_select land_tables land_shape land_wire_json::bodies::outline"
                                     " land_wire_json::bodies::content",
    "SQLite: cached statement, types and plan": "sqlite_syntax sqlite_typing sqlite_resolve sqlite_draft sqlite_schema sqlite_catalog"
                                                " sqlite::cache sqlite::schema sqlite_exec::planner",
    "SQLite: execution": "sqlite",
    "SQLite: B-trees, records, pages, log": "sqlite_btree sqlite_format sqlite_record sqlite_pager sqlite_pool sqlite_wal sqlite_trees"
                                              " sqlite_store sqlite_disk sqlite_std_file pread pwrite",
    MEMORY: "malloc free realloc calloc _int_malloc _int_free _int_realloc _int_memalign sysmalloc unlink_chunk memcpy memset memmove"
            " memcmp bcmp __memcpy __memset __memmove __memcmp rattle_alloc rattle_dealloc rattle_realloc std_alloc",
}
# Functions that are measured with all that they call, including memory.
INCLUSIVE = {
    "of it: reading the header section, its fields and the route": "land_desk::next_item::parse_first",
    "of it: body and header section of the reply": "land_desk::handler::try_respond",
}
# The parts of an opening, each with the prefixes of the names of its functions.
OPENING = {
    "the kit opens the file and checks its pages and trees": "sqlite::file",
    "the kit checks each row against its keys and indexes": "sqlite::connection::Connection::over",
    "the kit lists rows and rowids": "sqlite::connection::Connection::query sqlite::rows::stream::Rows::next",
    "decoding rows": "land_tables::store_versions land_tables_rows",
    "reading outlines and contents": "land_wire_json land_shape",
    "comparing rowids": "land_tables_rows::rowids",
    "validating the history": "land_tables::validation land_tables_history land_tables_validity",
}


def prefixes(parts):
    """Returns the prefixes with their parts, the longest first."""
    return sorted(((prefix, part) for part, words in parts.items() for prefix in words.split()), key=lambda it: -len(it[0]))


def part_of(name, by_prefix):
    """Returns the part of a function, or REST."""
    return next((part for prefix, part in by_prefix if name.startswith(prefix)), REST)


def callgrind(out):
    return ["valgrind", "-q", "--tool=callgrind", "--compress-strings=no", "--compress-pos=no", f"--callgrind-out-file={out}", PROGRAM]


def read(out):
    """Returns the own instructions of each function, and the inclusive instructions of its calls of each other function."""
    own, calls, name, called, is_call = Counter(), Counter(), "", "", False
    with open(out, encoding="utf-8") as lines:
        for line in lines:
            word, _, rest = line.rstrip("\n").partition("=")
            if word in ("fn", "cfn"):
                rest = re.sub(r"'\d+$", "", rest)
                name, called = (rest, called) if word == "fn" else (name, rest)
            elif word == "calls":
                is_call = True
            elif line[:1].isdigit():
                count = int(line.split()[1])
                if not is_call:
                    own[name] += count
                elif called != name:
                    calls[name, called] += count
                is_call = False
    return own, calls


def set_up():
    """Yields the requests that fill the register: the parties 2 to 21, and from 22 on a document, a unit, its parcel and two rights
    each."""
    for place in range(2 * UNITS):
        yield joins.head("POST", "/acts/enrol", registers.OFFICE, "stateAdministrator", {"kind": "naturalPerson", "name": f"Party {place}"})
    for place in range(UNITS):
        rights = [{"party": 2 + 2 * place + step, "type": "ownership", "share": "1/2"} for step in range(2)]
        parcel = {"label": f"{place}", "outline": square(place)}
        yield joins.head("POST", "/acts/register", registers.OFFICE, "stateAdministrator", {
            "name": f"Garden {place}", "checked": True, "document": f"Deed {place}", "parcels": [parcel], "rights": rights})


def talk(folder, requests):
    """Returns the counts of `land talk` while it answers requests."""
    out, source = Path(folder, "talk.out"), Path(folder, "requests")
    source.write_bytes(b"".join(requests))
    with open(source, "rb") as stream:
        ran = subprocess.run([*callgrind(out), "talk", "--clock", "1000"], stdin=stream, stdout=subprocess.PIPE, check=True)
    if ran.stdout.count(b"HTTP/1.1 200") != len(requests):
        raise SystemExit("talk: a request was not answered")
    return read(out)


def serve(folder, requests):
    """Returns the counts of `land serve` on a new file while it answers requests."""
    file = Path(tempfile.mkdtemp(dir=folder), "register.land")
    registers.new(PROGRAM, file)
    return serve_file(folder, file, requests)


def serve_file(folder, file, requests, is_answer=lambda status: status == 200):
    """Returns the counts of `land serve` on a file while it answers requests."""
    out = Path(folder, "serve.out")
    service = joins.Service([*callgrind(out), "serve", "--file", str(file), "--port", "{port}", "--connections", "2"])
    client = joins.Client(service.port)
    if not all(is_answer(client.send(request)[0]) for request in requests):
        raise SystemExit("serve: a request was not answered")
    client.close()
    service.process.wait()
    joins.Service.running.remove(service)
    return read(out)


def of_one(folder, run, asked):
    """Returns the counts of one request, as the difference of two runs."""
    method, path, party, role, body = asked
    request = joins.head(method, path, party, role, body)
    return per_request(COUNT, *(run(folder, [*set_up(), *[request] * count]) for count in (COUNT, 2 * COUNT)))


def per_request(count, few, many):
    """Returns the counts per request, from a run with `count` requests and one with twice as many."""
    return tuple({key: (more[key] - less[key]) / count for key in more.keys() | less.keys()} for less, more in zip(few, many))


def shares(calls, by_prefix):
    """Returns the share of each part in each function: a function with a prefix belongs to its part, others are divided by the cost of
    their calls."""
    callers, found = defaultdict(list), defaultdict(lambda: {REST: 1})
    for (caller, called), count in calls.items():
        if count > 0:
            callers[called].append((caller, count))
    for _ in range(ROUNDS):
        for called, edges in callers.items():
            part, whole, mixed = part_of(called, by_prefix), sum(count for _, count in edges), Counter()
            for caller, count in edges:
                for one, share in found[caller].items():
                    mixed[one] += share * count / whole
            found[called] = mixed if part == REST else {part: 1}
    return found


def divided(own, calls, parts):
    """Returns the instructions of each part, and how many of them are for memory."""
    found, sums, memory = shares(calls, prefixes(parts)), Counter(), Counter()
    is_memory = prefixes({MEMORY: PARTS[MEMORY]})
    for name, count in own.items():
        for part, share in found[name].items():
            sums[part] += share * count
            memory[part] += share * count * (part_of(name, is_memory) == MEMORY)
    return sums, memory


def cell(count, whole):
    return f"{count / 1000:,.1f} ({round(100 * count / whole)} %)"


def row(*cells):
    print("| " + " | ".join(cells) + " |", flush=True)


def inclusive(calls, prefix):
    """Returns the inclusive instructions of the functions with a prefix."""
    return sum(count for (caller, called), count in calls.items() if called.startswith(prefix) and not caller.startswith(prefix))


def table(names, counted):
    """Prints the parts of requests, their sum, and the inclusive instructions of some functions."""
    columns, calls = [divided(*it, PARTS)[0] for it in counted], [calls for _, calls in counted]
    whole = [sum(sums.values()) for sums in columns]
    row("part", *names)
    print("|---" * (1 + len(names)) + "|")
    for part in (*PARTS, REST):
        row(part, *(cell(sums[part], all_parts) for sums, all_parts in zip(columns, whole)))
    row("all", *(f"{all_parts / 1000:,.1f}" for all_parts in whole))
    for name, prefix in INCLUSIVE.items():
        row(name, *(cell(inclusive(it, prefix), all_parts) for it, all_parts in zip(calls, whole)))


def requests(run, folder):
    print(f"\nThousands of instructions per request, `land {run.__name__}`:\n")
    table(REQUESTS, [of_one(folder, run, asked) for asked in REQUESTS.values()])


def perform(folder, name, count):
    """Returns the counts of `land serve` on a file with 1,000 entries while it performs a number of acts."""
    file = Path(tempfile.mkdtemp(dir=folder), "entries.land")
    known = registers.of_entries(file, FEW_ENTRIES)
    registers.add_administrators(file, ADMINISTRATORS - 1)
    is_approval = name == "an approval"
    sent = [joins.head("POST", f"/acts/{word}", party, role, body)
            for word, party, role, body in PERFORMED[name](known, 2 * ACTS if is_approval else count, "Act")]
    if is_approval:     # of the first lodgings; each has made a document and a mutation
        first = registers.next_of(file)
        sent += [joins.head("POST", "/acts/approve", registers.OFFICE, "stateAdministrator", {"mutation": first + 2 * place + 1})
                 for place in range(count)]
    return serve_file(folder, file, sent)


def acts(folder):
    print(f"\nThousands of instructions per act, `land serve`, with {FEW_ENTRIES:,} entries and state administrators: {ADMINISTRATORS}\n")
    table(PERFORMED, [per_request(ACTS, *(perform(folder, name, count) for count in (ACTS, 2 * ACTS))) for name in PERFORMED])


def opening(folder):
    file, out = Path(folder, "changes.land"), Path(folder, "check.out")
    registers.of_changes(file, CHANGES)
    subprocess.run([*callgrind(out), "check", "--file", file], stdout=subprocess.DEVNULL, check=True)
    print(f"\nThousands of instructions of `land check` of a file with {CHANGES:,} changes:\n")
    table_of_opening(*divided(*read(out), OPENING))


def table_of_opening(sums, memory):
    whole = sum(sums.values())
    row("part", "instructions", "of these for memory")
    print("|---" * 3 + "|")
    for part in (*OPENING, REST):
        row(part, cell(sums[part], whole), f"{memory[part] / 1000:,.1f}")
    row("all", f"{whole / 1000:,.1f}", cell(sum(memory.values()), whole))


def listing(folder):
    file, count = Path(folder, "entries.land"), COUNT // 10
    units = len(registers.of_entries(file, ENTRIES)["units"])
    request = joins.head("GET", "/units", registers.NOTARY, "notary")
    own, calls = per_request(count, *(serve_file(folder, file, [request] * times) for times in (count, 2 * count)))
    sums = divided(own, calls, PARTS)[0]
    print(f"\nThousands of instructions of a notary's list of {units:,} units, `land serve`, and instructions per unit:\n")
    row("part", "list of all units", "per unit")
    print("|---" * 3 + "|")
    for part in (*PARTS, REST):
        row(part, cell(sums[part], sum(sums.values())), f"{sums[part] / units:,.0f}")
    row("all", f"{sum(sums.values()) / 1000:,.1f}", f"{sum(sums.values()) / units:,.0f}")


def of_server(folder, file, request, count):
    """Returns the instructions of `land serve` on a file while it answers a request a number of times, with any status."""
    return sum(serve_file(folder, file, [request] * count, bool)[0].values())


def of_baseline(folder, program, file, plan, count):
    """Returns the instructions of the baseline in C on a file while it runs a read a number of times."""
    out = Path(folder, "baseline.out")
    baseline = texts.Baseline([*callgrind(out)[:-1], program, str(file), "delete"])
    for _ in range(count):
        baseline.read(*plan)
    baseline.stop()
    return sum(read(out)[0].values())


def instructions_of_baseline(folder, program, file, plan):
    """Returns the instructions of one run of a read by the baseline."""
    few, many = (of_baseline(folder, program, file, plan, count) for count in (READS, 2 * READS))
    return (many - few) / READS / RUNS_OF_BASELINE


def reads(folder):
    missing = texts.missing()
    if missing:
        print(f"reads are skipped: {missing}")
        return
    file, program, http = Path(folder, "reads.land"), texts.build(folder), None
    known = registers.of_entries(file, FEW_ENTRIES)
    copy = shutil.copy(file, f"{file}.baseline")
    print(f"\nThousands of instructions per read, `land serve` and C SQLite, with {FEW_ENTRIES:,} entries:\n")
    row("request", "`land`", "C SQLite", "`land` without HTTP / C SQLite", "/ C SQLite on the statements of 0.4.0")
    print("|---" * 5 + "|")
    for party, role, name, path in [*joins.requests_of(known), (known["owner"], "citizen", "view own unit", f"/units/{known['unit']}")]:
        request, values = joins.head("GET", path, party, role), joins.values(known, party, path)
        few, many = (of_server(folder, file, request, count) for count in (READS, 2 * READS))
        mine = (many - few) / READS
        if http is None:
            http = mine
            row(f"{role}: {name}", f"{mine / 1000:,.1f}", "-", "-", "-")
            continue
        plans = [f"{role}: {name}", *([texts.earlier(role, name)] if (role, name) in texts.EARLIER else [])]
        theirs = [instructions_of_baseline(folder, program, copy, (plan, 0, *values)) for plan in plans]
        ratios = [f"{(mine - http) / it:.2f}" for it in theirs]
        row(f"{role}: {name}", f"{mine / 1000:,.1f}", f"{theirs[0] / 1000:,.1f}", *ratios, *["-"] * (2 - len(ratios)))


PROFILES = {"talk": partial(requests, talk), "serve": partial(requests, serve), "acts": acts, "listing": listing, "reads": reads,
            "opening": opening}


def main():
    if not shutil.which("valgrind"):
        raise SystemExit("valgrind is not installed")
    with tempfile.TemporaryDirectory() as folder:
        try:
            for name in sys.argv[1:] or PROFILES:
                PROFILES[name](folder)
        finally:
            for service in [*joins.Service.running]:
                service.stop()


if __name__ == "__main__":
    main()
