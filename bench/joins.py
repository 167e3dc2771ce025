#!/usr/bin/env python3
"""The time of each request on registers of several sizes: `land serve` on a file, compared with C SQLite, PostgreSQL and Python.

    bench/joins.py [ENTRIES..]           (1000 10000; 100000 takes minutes more)
    LAND=PROGRAM bench/joins.py ..       another program than crates/land/out/land

For each number of entries a register is written (registers.py) and validated by `land check`. The callers are an owner of one unit, a bank
with one mortgage, conveyancers and a notary. The columns:

    land        `land serve`: HTTP on a keep-alive connection over loopback, one request at a time
    new         the same with a new connection per request, which is opened and closed within the time
    pipelined   the same with 32 pipelined requests; the client acknowledges each segment immediately (TCP_QUICKACK)
    C SQLite    the SQL statements of the request, in the order and with the parameters of the program (texts.py), run by the baseline in C
                (baseline.c): statements prepared once, the file opened exclusively, all columns of all rows read, timed inside the process.
                No HTTP, JSON or policy: it decides, sorts and writes nothing. Two ratios: `land` to C SQLite, and `land` without HTTP, that
                is, without the time of an unknown path
    PostgreSQL  one statement (four for a sheet) with row-level security, by pgbench: prepared, on a Unix socket, with the caller set once
                per connection. No HTTP, no JSON, and no check that the caller still has its role
    Python      http.server with sqlite3 (desk.py), like `land`, also with new connections. It lists everything visible where `land` looks
                up one object, with the SQL statements of the program

The replies of `land` and of Python are compared before the timing. Each figure is the minimum of the medians of five short runs, which
alternate between the sides. A request that takes more than 10 milliseconds is not pipelined.

Then the acts, in milliseconds, one at a time, with the sides taking turns: the median of the medians of five runs, and the mean CPU time,
on a keep-alive connection and with a new connection per request. The baseline runs the reads and writes of the act in one transaction,
plans nothing, and gets the values to write. It has two columns: with one sync per commit, and with two, as `land` has (baseline.c, marked);
Python has one. strace counts the syncs if it is installed, and `land check` validates all files afterwards. PostgreSQL or the baseline is
skipped if it is not installed or cannot be built.
"""
import contextlib
import glob
import json
import os
import re
import shutil
import signal
import socket
import sqlite3
import statistics
import subprocess
import sys
import tempfile
import time

import registers
import texts
from registers import BANK, BUSY, CALM, NOTARY, OFFICE, PROGRAM, SMALL_BANK, TOP

RUNS, SECONDS, PIPELINED, ACTS = 5, 0.04, 32, 20


def head(method, path, party, role, body=None):
    """Returns the bytes of a request."""
    text = "" if body is None else json.dumps(body)
    length = f"Content-Length: {len(text)}\r\n" if text else ""
    return f"{method} {path} HTTP/1.1\r\nRegister-Party: {party}\r\nRegister-Role: {role}\r\n{length}\r\n{text}".encode()


class Client:
    """A connection that reads replies by their Content-Length."""

    def __init__(self, port):
        self.socket = socket.create_connection(("127.0.0.1", port))
        self.socket.setsockopt(socket.IPPROTO_TCP, socket.TCP_NODELAY, 1)
        self.rest = b""
        self.acknowledges = False

    def reply(self):
        data = self.rest
        while (end := data.find(b"\r\n\r\n")) < 0:
            data += self.more()
        place = data.index(b"Content-Length: ") + 16
        whole = end + 4 + int(data[place:data.index(b"\r", place)])
        if len(data) < whole:
            parts, size = [data], len(data)
            while size < whole:
                parts.append(self.more())
                size += len(parts[-1])
            data = b"".join(parts)
        self.rest = data[whole:]
        return int(data[9:12]), data[end + 4:whole]

    def more(self):
        if self.acknowledges:
            self.socket.setsockopt(socket.IPPROTO_TCP, socket.TCP_QUICKACK, 1)
        some = self.socket.recv(1 << 18)
        if not some:
            raise SystemExit("a server has closed its connection")
        return some

    def send(self, request):
        self.socket.sendall(request)
        return self.reply()

    def send_pipelined(self, requests, count):
        self.acknowledges = True
        self.socket.sendall(requests)
        for _ in range(count):
            self.reply()
        self.acknowledges = False

    def close(self):
        self.socket.close()


def free_port():
    with socket.socket() as it:
        it.bind(("127.0.0.1", 0))
        return it.getsockname()[1]


class Service:
    """A server process. The constructor waits until it listens."""

    running = []

    def __init__(self, call, **options):
        self.port = free_port()
        # A process group of its own, so that a program under strace or gdb is killed with it.
        self.process = subprocess.Popen([word.format(port=self.port) for word in call], preexec_fn=os.setpgrp, **options)
        self.running.append(self)
        while True:
            try:
                Client(self.port).close()
                return
            except ConnectionRefusedError:
                if self.process.poll() is not None:
                    raise SystemExit(f"a server exits with {self.process.returncode}")
                time.sleep(0.02)

    def cpu_seconds(self):
        """Returns the CPU time of the process so far."""
        with open(f"/proc/{self.process.pid}/schedstat", encoding="ascii") as it:
            return int(it.read().split()[0]) / 1e9

    def stop(self):
        with contextlib.suppress(ProcessLookupError):
            os.killpg(self.process.pid, signal.SIGKILL)
        self.process.wait()
        self.running.remove(self)


def land(file):
    return Service([PROGRAM, "serve", "--file", file, "--port", "{port}", "--connections", "1000000"])


def python(file):
    return Service([sys.executable, str(TOP / "bench" / "desk.py"), file, "{port}"])


def check(file):
    begin = time.perf_counter()
    ran = subprocess.run([PROGRAM, "check", "--file", file], capture_output=True, text=True)
    if not ran.stdout.startswith("sound: "):
        raise SystemExit(f"{file}: check: status {ran.returncode}: {ran.stdout}{ran.stderr}")
    return time.perf_counter() - begin


def median(work):
    """Calls a function repeatedly. Returns the median of the seconds of a call."""
    times, end = [], time.perf_counter() + SECONDS
    while len(times) < 3 or time.perf_counter() < end:
        begin = time.perf_counter()
        work()
        times.append(time.perf_counter() - begin)
    return statistics.median(times)


POLICIES = """
CREATE VIEW my_groups AS SELECT grp FROM member WHERE party = (SELECT ME) AND CURRENT;
CREATE VIEW held AS
  SELECT unit, class FROM rrr WHERE party = (SELECT ME) AND class IN ('ownership', 'lease', 'usufruct') AND CURRENT
  UNION ALL
  SELECT unit, class FROM my_groups JOIN rrr ON rrr.party = my_groups.grp WHERE class IN ('ownership', 'lease', 'usufruct') AND CURRENT;
CREATE VIEW credited AS SELECT unit FROM rrr WHERE party = (SELECT ME) AND class = 'mortgage' AND CURRENT;
CREATE VIEW citizen_parties AS
  SELECT ME AS number UNION ALL SELECT grp FROM my_groups UNION ALL
  SELECT rrr.party FROM held JOIN rrr ON rrr.unit = held.unit WHERE (rrr.class <> 'mortgage' OR held.class = 'ownership') AND CURRENT;
CREATE VIEW bank_parties AS
  SELECT ME AS number UNION ALL
  SELECT rrr.party FROM credited JOIN rrr ON rrr.unit = credited.unit WHERE (rrr.class <> 'mortgage' OR rrr.party = (SELECT ME)) AND CURRENT;
CREATE VIEW citizen_mutations AS SELECT names.mutation FROM held JOIN names ON names.unit = held.unit WHERE CURRENT;
CREATE VIEW awaited AS SELECT unit FROM names WHERE CURRENT AND mutation = ANY (ARRAY(
  SELECT number FROM mutation WHERE lodger = (SELECT ME) AND state = 'lodged' AND CURRENT));
CREATE ROLE citizen; CREATE ROLE bank; CREATE ROLE notary; CREATE ROLE conveyancer;
GRANT SELECT ON ALL TABLES IN SCHEMA public TO citizen, bank, notary, conveyancer;
ALTER TABLE party ENABLE ROW LEVEL SECURITY;
ALTER TABLE unit ENABLE ROW LEVEL SECURITY;
ALTER TABLE parcel ENABLE ROW LEVEL SECURITY;
ALTER TABLE rrr ENABLE ROW LEVEL SECURITY;
ALTER TABLE mutation ENABLE ROW LEVEL SECURITY;
CREATE POLICY everybody ON parcel FOR SELECT USING (CURRENT);
CREATE POLICY notaries ON party FOR SELECT TO notary USING (CURRENT);
CREATE POLICY notaries ON unit FOR SELECT TO notary USING (CURRENT);
CREATE POLICY notaries ON rrr FOR SELECT TO notary USING (CURRENT);
CREATE POLICY citizens ON party FOR SELECT TO citizen USING (CURRENT AND number = ANY (ARRAY(SELECT number FROM citizen_parties)));
CREATE POLICY citizens ON unit FOR SELECT TO citizen USING (CURRENT AND number = ANY (ARRAY(SELECT unit FROM held)));
CREATE POLICY citizens ON rrr FOR SELECT TO citizen USING (CURRENT AND unit = ANY (ARRAY(SELECT unit FROM held))
  AND (class <> 'mortgage' OR unit = ANY (ARRAY(SELECT unit FROM held WHERE class = 'ownership'))));
CREATE POLICY citizens ON mutation FOR SELECT TO citizen USING (CURRENT AND number = ANY (ARRAY(SELECT mutation FROM citizen_mutations)));
CREATE POLICY conveyancers ON unit FOR SELECT TO conveyancer USING (CURRENT AND number = ANY (ARRAY(SELECT unit FROM awaited)));
CREATE POLICY conveyancers ON mutation FOR SELECT TO conveyancer USING (CURRENT AND lodger = (SELECT ME));
CREATE POLICY banks ON party FOR SELECT TO bank USING (CURRENT AND number = ANY (ARRAY(SELECT number FROM bank_parties)));
CREATE POLICY banks ON unit FOR SELECT TO bank USING (CURRENT AND number = ANY (ARRAY(SELECT unit FROM credited)));
CREATE POLICY banks ON rrr FOR SELECT TO bank USING (CURRENT AND unit = ANY (ARRAY(SELECT unit FROM credited))
  AND (class <> 'mortgage' OR party = (SELECT ME)));
"""
MOMENT = "(SELECT current_setting('land.at')::bigint)"
POLICIES = POLICIES.replace("CURRENT", f"since <= {MOMENT} AND {MOMENT} < until")
POLICIES = re.sub(r"\bME\b", "current_setting('land.party')::bigint", POLICIES)


class Postgres:
    """A PostgreSQL server in a temporary folder, with the rows of one register at a time."""

    def __init__(self, folder):
        self.folder = os.path.join(folder, "postgres")
        self.bin = sorted(glob.glob("/usr/lib/postgresql/*/bin"))[-1]
        os.mkdir(self.folder)
        self.user = None
        if os.geteuid() == 0:
            self.user = "nobody"
            os.chmod(folder, 0o755)
            shutil.chown(self.folder, self.user)
        self.data = os.path.join(self.folder, "data")
        self.run("initdb", "-D", self.data, "-U", "office", "-A", "trust", "--locale=C", "-E", "UTF8")
        with open(os.path.join(self.data, "postgresql.conf"), "a", encoding="ascii") as it:
            it.write(f"listen_addresses = ''\nunix_socket_directories = '{self.folder}'\nautovacuum = off\n")
        self.run("pg_ctl", "-D", self.data, "-l", os.path.join(self.folder, "log"), "-w", "start")

    def run(self, program, *arguments, caller="", stdin=None):
        settings = {"PATH": os.environ["PATH"], "PGHOST": self.folder, "PGUSER": "office", "PGDATABASE": "postgres", "PGOPTIONS": caller, "LC_ALL": "C"}
        ran = subprocess.run([os.path.join(self.bin, program), *arguments], input=stdin, capture_output=True, text=True, env=settings,
                             user=self.user, cwd=self.folder)
        if ran.returncode != 0:
            raise SystemExit(f"{program}: {ran.stdout}{ran.stderr}")
        return ran.stdout

    def load(self, file):
        """Loads the schema with the same keys and indexes, all rows, and the policies."""
        schema = registers.schema().replace(") STRICT", ")").replace("INTEGER", "BIGINT")
        lines = ["DROP SCHEMA public CASCADE; CREATE SCHEMA public; GRANT USAGE ON SCHEMA public TO PUBLIC;",
                 "DROP ROLE IF EXISTS citizen; DROP ROLE IF EXISTS bank; DROP ROLE IF EXISTS notary;", "DROP ROLE IF EXISTS conveyancer;", schema]
        base = sqlite3.connect(file)
        for table in re.findall(r"CREATE TABLE (\w+)", schema):
            lines.append(f"COPY {table} FROM STDIN;")
            lines += ["\t".join("\\N" if cell is None else str(cell) for cell in row) for row in base.execute(f"SELECT * FROM {table}")]
            lines.append("\\.")
        base.close()
        self.run("psql", "-q", "-v", "ON_ERROR_STOP=1", stdin="\n".join([*lines, POLICIES, "VACUUM ANALYZE;", ""]))

    def caller(self, party, role):
        return f"-c role={role} -c land.party={party} -c land.at={time.time_ns() // 1000000}"

    def rows(self, statement, party, role):
        return self.run("psql", "-qAt", "-c", statement, caller=self.caller(party, role)).splitlines()

    def seconds(self, statements, party, role, count):
        script = os.path.join(self.folder, "script")
        with open(script, "w", encoding="ascii") as it:
            it.write("".join(f"{statement};\n" for statement in statements))
        os.chmod(script, 0o644)
        output = self.run("pgbench", "-n", "-M", "prepared", "-f", script, "-t", str(count), "-l", "--log-prefix",
                          os.path.join(self.folder, "times"), caller=self.caller(party, role))
        log, = glob.glob(os.path.join(self.folder, "times.*"))
        with open(log, encoding="ascii") as it:
            times = [spent for spent in (int(line.split()[2]) for line in it) if spent > 0]
        os.remove(log)
        return statistics.median(times) / 1e6 if times else float(re.search(r"latency average = ([0-9.]+) ms", output)[1]) / 1000

    def stop(self):
        self.run("pg_ctl", "-D", self.data, "-m", "immediate", "stop")


TABLES = {"parties": "party", "units": "unit", "parcels": "parcel", "rrrs": "rrr", "mutations": "mutation"}


def statements(path):
    """Returns the PostgreSQL statements for a path."""
    word, *rest = path[1:].split("/")
    table = TABLES[word]
    if not rest:
        return [f"SELECT number FROM {table} ORDER BY number"]
    view = [f"SELECT * FROM {table} WHERE number = {rest[0]}"]
    if len(rest) == 1:
        return view
    return [*view, f"SELECT * FROM parcel WHERE unit = {rest[0]} ORDER BY number",
            f"SELECT * FROM rrr WHERE unit = {rest[0]} ORDER BY number",
            f"SELECT number, name FROM party WHERE number = ANY (ARRAY(SELECT party FROM rrr WHERE unit = {rest[0]}))"]


def requests_of(known):
    """Returns the requests: the caller, its role, the name of the request, and the path."""
    owner, unit, other = known["owner"], known["unit"], known["entries"][0]
    citizen, bank, notary, conveyancer = (owner, "citizen"), (SMALL_BANK, "bank"), (NOTARY, "notary"), (BUSY, "conveyancer")
    mutation, partner = known["mutations"][0]
    return [
        (*citizen, "unknown path (HTTP only)", "/nothing"),
        (*citizen, "list own units", "/units"),
        (*citizen, "list visible entries", "/rrrs"),
        (*citizen, "list visible parties", "/parties"),
        (*citizen, "view a visible entry", f"/rrrs/{known['entry']}"),
        (*citizen, "view a denied entry", f"/rrrs/{other}"),
        (*citizen, "view a parcel", f"/parcels/{known['parcel']}"),
        (*citizen, "own title sheet", f"/units/{unit}/sheet"),
        (*citizen, "denied title sheet", f"/units/{known['units'][0]}/sheet"),
        (*bank, "list visible units", "/units"),
        (*bank, "list visible entries", "/rrrs"),
        (*bank, "view own mortgage", f"/rrrs/{known['mortgage']}"),
        (*bank, "view a denied entry", f"/rrrs/{other}"),
        (*bank, "title sheet", f"/units/{unit}/sheet"),
        (BANK, "bank", "view an entry, mortgages on all other units", f"/rrrs/{other}"),
        (BANK, "bank", "view an owner, mortgages on all other units", f"/parties/{partner}"),
        (partner, "citizen", "mutation of own unit", f"/mutations/{mutation}"),
        (*citizen, "denied mutation", f"/mutations/{mutation}"),
        (*conveyancer, "mutation, if it filed all", f"/mutations/{mutation}"),
        (CALM[0], "conveyancer", "mutation filed by another", f"/mutations/{mutation}"),
        (*conveyancer, "view a unit, all its filings decided", f"/units/{known['units'][0]}"),
        (*notary, "view an entry", f"/rrrs/{other}"),
        (*notary, "view a missing entry", "/rrrs/999999999"),
        (*notary, "title sheet", f"/units/{unit}/sheet"),
        (*notary, "list all units", "/units"),
        (*citizen, "list all parcels", "/parcels"),
    ]


def masked(reply):
    """Returns a reply without the time of a sheet."""
    return reply[0], re.sub(rb"(?m)^At .*", b"At T", reply[1])


def check_replies(client, desk, postgres, requests):
    """Checks that both servers send the same replies, and PostgreSQL the same number of rows. Returns the status of each request."""
    found = []
    for party, role, name, path in requests:
        request = head("GET", path, party, role)
        mine, theirs = masked(client.send(request)), masked(desk.send(request))
        if mine != theirs:
            raise SystemExit(f"{role}, {name}: {mine}, and Python: {theirs}")
        found.append(mine[0])
        if postgres and mine[0] != 400:
            rows = len(postgres.rows(statements(path)[0], party, role))
            wanted = 0 if mine[0] == 403 else len(json.loads(mine[1])["numbers"]) if path.count("/") == 1 else 1
            if rows != wanted:
                raise SystemExit(f"{role}, {name}: {rows} rows of PostgreSQL, not {wanted}")
    return found


def values(known, party, path):
    """Returns the values of a read for the baseline: the caller, the number in the path, the unit that the mutation refers to."""
    number = re.search(r"\d+", path)
    return party, int(number[0]) if number else 0, known["units"][0]


def micros(seconds):
    return "-" if seconds is None else f"{seconds * 1e6:,.0f}"


def send_new(port, request):
    """Sends a request on a new connection."""
    client = Client(port)
    client.send(request)
    client.close()


HEADS = ("caller", "request", "status", "`land`: HTTP, policy, JSON", "new", "pipelined", "C SQLite: no HTTP, JSON, policy", "SQL statements",
         "to C SQLite: `land`, and without HTTP", "PostgreSQL: no HTTP, JSON, check of the role", "Python: HTTP, JSON, lists for lookups", "new")


def header(names):
    """Returns the header of a table."""
    return f"| {' | '.join(names)} |\n{'|---' * len(names)}|"


def reads(file, known, postgres, program):
    """Prints the table of reads. Returns for each request its caller, its name, and the seconds of `land` on a keep-alive connection and
    with a new connection per request."""
    requests = requests_of(known)
    mine, theirs = land(file), python(shutil.copy(file, file + ".python"))
    baseline = texts.Baseline([program, shutil.copy(file, file + ".baseline"), "delete"]) if program else None
    client, desk = Client(mine.port), Client(theirs.port)
    found = check_replies(client, desk, postgres, requests)
    client.close()
    desk.close()
    print(header(HEADS))
    served, http_only = [], None
    for (party, role, name, path), status in zip(requests, found):
        request, figures = head("GET", path, party, role), []
        counts, ran = 20, 0
        for _ in range(RUNS):
            # Each server answers one connection at a time.
            client, desk = Client(mine.port), Client(theirs.port)
            one = median(lambda: client.send(request))
            row = median(lambda: client.send_pipelined(request * PIPELINED, PIPELINED)) / PIPELINED if one < 0.01 else None
            lite = rows = None
            if baseline and status != 400:
                lite, ran = baseline.read(f"{role}: {name}", SECONDS, *values(known, party, path))
            other = median(lambda: desk.send(request))
            if postgres and status != 400:
                rows = postgres.seconds(statements(path), party, role, counts)
                counts = max(20, min(5000, int(2 * SECONDS / rows)))
            client.close()
            desk.close()
            new, other_new = (median(lambda: send_new(service.port, request)) for service in (mine, theirs))
            figures.append((one, new, row, lite, rows, other, other_new))
        one, new, row, lite, rows, other, other_new = (
            min((some for some in figure if some is not None), default=None) for figure in zip(*figures))
        served.append((role, name, one, new))
        if status == 400:
            http_only = one
        ratio = f"{one / lite:.1f}, {(one - http_only) / lite:.1f}" if lite else "-"
        cells = (micros(one), micros(new), micros(row), micros(lite), ran or "-", ratio, micros(rows), micros(other), micros(other_new))
        print(f"| {role} | {name} | {status} | {' | '.join(map(str, cells))} |", flush=True)
    if baseline:
        baseline.stop()
    mine.stop()
    theirs.stop()
    return served


def enrolments(_, count, tag):
    return [("enrol", OFFICE, "stateAdministrator", {"kind": "naturalPerson", "name": f"{tag} {n}"}) for n in range(count)]


def registrations(known, count, tag):
    owner = known["owner"]
    return [("register", OFFICE, "stateAdministrator", {
        "name": f"{tag} {n}", "checked": True, "document": "Deed", "parcels": [{"label": "1", "outline": registers.square(900000 + n)}],
        "rights": [{"party": owner, "type": "ownership", "share": "1/1"}]}) for n in range(count)]


def transfer(lodger, reference, unit, right):
    """Returns a lodging: the transfer of a right to the notary."""
    return "transfer", lodger, "conveyancer", {
        "reference": reference, "document": "Deed", "unit": unit, "right": right, "receiver": NOTARY, "share": "1/2"}


def lodgings(known, count, tag):
    """Returns transfers by 20 lodgers in turn, each of another right."""
    return [transfer(CALM[n % len(CALM)], f"{tag} {n}", *known["rights"].pop()) for n in range(count)]


def busy_lodgings(known, count, tag):
    """Returns transfers by the lodger of all earlier ones, which are never decided."""
    rights = known["rights"]
    return [transfer(BUSY, f"{tag} {n}", *rights[n % len(rights)]) for n in range(count)]


def approvals(lodged):
    """Returns the approvals of lodgings."""
    return [("approve", OFFICE, "stateAdministrator", body) for _, _, _, body in lodged]


def given(word, party, body, mutation):
    """Returns the values of an act for the baseline. For an approval, the body is that of the lodging."""
    if word == "enrol":
        return party, body["name"]
    if word == "register":
        return party, body["name"], body["parcels"][0]["outline"], body["rights"][0]["party"]
    if word == "approve":
        return party, mutation, body["unit"], body["right"], body["receiver"]
    content = {key: body[key] for key in ("receiver", "right", "share", "unit")}
    return party, body["reference"], body["unit"], body["receiver"], json.dumps(content, separators=(",", ":"))


class Served:
    """A server that performs acts, on a keep-alive connection or with a new one per request; their seconds, and the numbers of the last
    lodgings."""

    def __init__(self, service, is_keep_alive):
        self.service, self.client = service, Client(service.port) if is_keep_alive else None

    def start(self):
        self.times, self.lodged, self.before = [], [], self.service.cpu_seconds()

    def act(self, word, party, role, body, lodged):
        request = head("POST", f"/acts/{word}", party, role, {"mutation": lodged} if lodged else body)
        begin = time.perf_counter()
        client = self.client or Client(self.service.port)
        status, reply = client.send(request)
        if not self.client:
            client.close()
        self.times.append(time.perf_counter() - begin)
        if status != 200:
            raise SystemExit(f"{request}: {status}: {reply}")
        self.lodged.append(json.loads(reply)["number"])

    def figures(self):
        """Returns the median of the seconds, and the mean CPU time."""
        return statistics.median(self.times), (self.service.cpu_seconds() - self.before) / len(self.times)

    def stop(self):
        if self.client:
            self.client.close()


class InProcess:
    """The baseline, which performs acts without a connection."""

    def __init__(self, baseline):
        self.baseline = baseline

    def start(self):
        self.times, self.lodged, self.busy = [], [], 0

    def act(self, word, party, _, body, lodged):
        spent, busy, first = self.baseline.act(word, *given(word, party, body, lodged))
        self.times.append(spent)
        self.busy += busy
        # The first new number of a lodging is that of its document.
        self.lodged.append(first + 1)

    def figures(self):
        return statistics.median(self.times), self.busy / len(self.times)

    def stop(self):
        pass


def played(sides, requests):
    """Performs acts, with the sides taking turns. Returns the figures of each side. Approvals are of the preceding lodgings of that
    side."""
    is_approval = requests[0][0] == "approve"
    lodged = [side.lodged if is_approval else [None] * len(requests) for side in sides]
    for side in sides:
        side.start()
    for request, *numbers in zip(requests, *lodged):
        for side, number in zip(sides, numbers):
            side.act(*request, number)
    return [side.figures() for side in sides]


def without_log(file):
    """Copies the log of a file that C SQLite wrote into the file. Returns the path."""
    base = sqlite3.connect(file)
    base.execute("PRAGMA journal_mode = delete")
    base.close()
    return file


# The journals of the baseline for acts, each with the head of its column.
BASELINES = {"wal": "C SQLite: no HTTP, JSON, policy", "marked": "C SQLite, two syncs per commit"}
KINDS = ("enrolment", "registration", "filing, by 20 lodgers in turn", "approval", "filing, by the lodger of all earlier ones")


def run_of_acts(sides, known, tag):
    """Returns the figures of one run, by kind of act and side."""
    lodged = lodgings(known, ACTS, f"L {tag}")
    return [played(sides, requests) for requests in (
        enrolments(known, ACTS, f"Act {tag}"), registrations(known, ACTS, f"Act {tag}"), lodged, approvals(lodged),
        busy_lodgings(known, ACTS, f"B {tag}"))]


def acts(file, known, program):
    """Prints the table of acts, which change the files. Returns for each act its name, the kind of connection, and the figures of
    `land`."""
    journals = BASELINES if program else {}
    files = [shutil.copy(file, f"{file}.{journal}") for journal in journals]
    services = [land(file), python(file + ".python")]
    baselines = [texts.Baseline([program, *call]) for call in zip(files, journals)]
    names = ["`land`: HTTP, policy, JSON", *journals.values(), "Python: HTTP, JSON, few checks"]
    print("\n" + header(["act", "connection", *(word for name in names for word in (name, "CPU time"))]))
    figures = []
    for is_keep_alive, way in ((True, "keep-alive"), (False, "new")):
        mine, theirs = (Served(service, is_keep_alive) for service in services)
        sides = [mine, *map(InProcess, baselines), theirs]
        runs = [run_of_acts(sides, known, f"{way} {run}") for run in range(RUNS)]
        for side in sides:
            side.stop()
        for name, *of_runs in zip(KINDS, *runs):
            row = [statistics.median(some) for of_side in zip(*of_runs) for some in zip(*of_side)]
            print(f"| {name} | {way} | {' | '.join(f'{seconds * 1e3:.2f}' for seconds in row)} |", flush=True)
            figures.append((name, way, *row[:2]))
    for service in services:
        service.stop()
    for baseline in baselines:
        baseline.stop()
    check(file)
    for other in [*files, file + ".python"]:
        check(without_log(other))
    return figures


# ---- calls that wait for the disk


def counted(log):
    """Returns the number of calls of fsync and fdatasync in the output of strace."""
    with open(log, encoding="ascii") as it:
        rows = [line.split() for line in it]
    found = {row[-1]: row[3] for row in rows if row}
    return f"{found.get('fsync', 0)}, {found.get('fdatasync', 0)}"


def traced(log):
    return ["strace", "-f", "-c", "-e", "trace=fsync,fdatasync", "-o", log]


def enrol_all(side, count):
    side.start()
    for request in enrolments(None, count, "Traced"):
        side.act(*request, None)
    side.stop()


def waits_of_land(file, count):
    service = Service([*traced(file + ".log"), PROGRAM, "serve", "--file", file, "--port", "{port}", "--connections", "2"])
    enrol_all(Served(service, True), count)
    # The server exits after two connections.
    service.process.wait()
    service.running.remove(service)
    return counted(file + ".log")


def waits_of_baseline(file, count, program, journal):
    baseline = texts.Baseline([*traced(file + ".log"), program, file, journal])
    enrol_all(InProcess(baseline), count)
    baseline.stop()
    return counted(file + ".log")


def waits(file, program):
    """Prints the number of calls by which `land` and the baseline wait for the disk, for a file that is opened, receives enrolments, and is
    closed."""
    if not shutil.which("strace"):
        print("\nWaits for the disk are not counted: strace is not installed")
        return
    print("\n## Waits for the disk when a file is opened, receives enrolments and is closed, by `strace`\n")
    print(header(["enrolments", "`land`: fsync, fdatasync", "C SQLite: fsync, fdatasync", "with two syncs"]))
    for count in (0, ACTS, 2 * ACTS):
        mine = waits_of_land(shutil.copy(file, f"{file}.{count}"), count)
        theirs = (waits_of_baseline(shutil.copy(file, f"{file}.{count}.{journal}"), count, program, journal) for journal in BASELINES)
        print(f"| {count} | {mine} | {' | '.join(theirs)} |", flush=True)


def main():
    signal.signal(signal.SIGTERM, lambda *_: sys.exit(1))
    sizes = [int(word) for word in sys.argv[1:]] or [1000, 10000]
    read, acted = [], []
    with tempfile.TemporaryDirectory() as folder:
        missing = texts.missing()
        program = None if missing else texts.build(folder)
        if missing:
            print(f"C SQLite is skipped: {missing}")
        has_postgres = bool(glob.glob("/usr/lib/postgresql/*/bin/postgres"))
        postgres = Postgres(folder) if has_postgres else None
        try:
            for entries in sizes:
                file = os.path.join(folder, f"{entries}.land")
                known = registers.of_entries(file, entries)
                if program and entries == sizes[0]:
                    waits(file, program)
                print(f"\n## {entries:,} entries, {len(known['units']):,} units; `land check` takes {check(file):.2f} s; reads in µs\n", flush=True)
                if postgres:
                    postgres.load(file)
                read.append(reads(file, known, postgres, program))
                acted.append(acts(file, known, program))
        finally:
            for service in [*Service.running]:
                service.stop()
            if postgres:
                postgres.stop()
    print("\n## `land` by the number of entries\n\n" + header(["request", *(f"{size:,}" for size in sizes)]))
    for row in zip(*read):
        print(f"| {row[0][0]}: {row[0][1]}, µs (new) | {' | '.join(f'{micros(one)} ({micros(new)})' for _, _, one, new in row)} |")
    for row in zip(*acted):
        print(f"| {row[0][0]}, {row[0][1]}, ms (CPU) | {' | '.join(f'{spent * 1e3:.2f} ({cpu * 1e3:.2f})' for _, _, spent, cpu in row)} |")


if __name__ == "__main__":
    main()
