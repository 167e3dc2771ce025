"""Compares the mirror with the served program on random registers: lists through the views and through the gateway's function, and views of
objects or the numbers of their denials. Then mutants of the generated policy, each of which the comparison has to kill."""
import json
import os
import random
import subprocess
import sys
import time

from harness import check, note
from mirror_acts import KINDS, OPEN, ROLES, Actor, Reader
from mirror_cluster import run_audit, serving, start_feed
from stack import DEPLOY, TOP

sys.path.insert(0, os.path.join(DEPLOY, "mirror"))
from land_mirror.generate import generate, schema_of      # noqa: E402
from land_mirror.rattle import Policy                      # noqa: E402

CRATES = os.path.join(TOP, "crates")
WORDS = {word: schema_of(role) for role, word in Policy(CRATES).words.items()}


def statement(selection, old, new):
    """A mutant of one statement."""
    def mutate(policy):
        if old not in policy.texts[selection]:
            raise SystemExit(f"the statement of {selection} has no `{old}`")
        policy.texts[selection] = policy.texts[selection].replace(old, new)
    return f"{selection}: `{old}` becomes `{new}`", mutate


def other(name, mutate):
    return name, mutate


MUTANTS = [
    statement("HeldEntries", "(seen.class <> 'mortgage' OR held.class = 'ownership') AND ", ""),
    statement("HeldUnits", "since <= ?2", "since < ?2"),
    statement("HeldMutations", "names.since <= ?2 AND ", ""),
    statement("GroupEntries", "member.since <= ?2 AND ?2 < member.until AND ", ""),
    statement("GroupParties", "member.party = ?1", "member.grp = ?1"),
    statement("GroupUnits", "'ownership', 'lease', 'usufruct'", "'ownership', 'lease'"),
    statement("ItsGroups", "?2 < until", "?2 <= until"),
    statement("CreditEntries", "AND (seen.class <> 'mortgage' OR seen.party = ?1) ", ""),
    statement("CreditUnits", "class = 'mortgage'", "class <> 'mortgage'"),
    statement("LodgedUnits", "mutation.state = 'lodged' AND ", ""),
    statement("LodgedParties", "mutation.lodger = ?1 AND ", ""),
    statement("ItsLodgings", "lodger = ?1", "lodger <> ?1"),
    other("a citizen's parties are without GroupParties", lambda it: it.sight["Citizen"]["Party"].remove("GroupParties")),
    other("rule 16 is reported as 15", lambda it: it.denials["Bank"].update(Rrr=15)),
    other("rule 3 does not bind conveyancers", lambda it: it.present.remove("Conveyancer")),
]


class Case:
    """A random register, its mirror in a database, and the program's replies."""

    def __init__(self, folder, server, seed, acts, moments, views):
        self.server, self.seed, self.database = server, seed, f"compare{seed}"
        self.dice = random.Random(seed)
        file = folder.register(self.database)
        server.install(self.database)
        create_login(server)
        with serving(file) as service:
            actor = Actor(service.port, seed)
            actor.act()
            feed = start_feed(folder, server, self.database, file, "--every", "0.05", *([] if seed % 3 else ["--copy"]))
            try:
                actor.acts(acts)
                actor.close()
                self.wait(actor.stamp, feed)
            finally:
                feed.kill()
                feed.communicate()
            self.stamp = actor.stamp
            audit = run_audit(folder, server, self.database, file)
            check(f"seed {seed}: the audit is clean", audit.returncode == 0, audit.stderr)
            self.done = sum(actor.done[it] for it in actor.done if not it.isdigit())
            rows = [(row[0], row[-1]) for row in actor.ledger.rows()]
            ends = sorted({end for table, end in rows if table in ("member", "mandate", "role") and end < OPEN})
            stamps = [it for it, _ in actor.ledger.moments]
            self.collect(actor.ledger, service.port, self.draw_moments(stamps, ends, moments), views)

    def wait(self, stamp, feed):
        with self.server.connect("postgres", self.database) as db, db.cursor() as cursor:
            for _ in range(6000):
                cursor.execute("SELECT stamp FROM reg.state")
                if cursor.fetchone() == (stamp,):
                    return
                if feed.poll() is not None:
                    raise SystemExit(f"the feed ended: {feed.stderr.read()}")
                time.sleep(0.01)
        raise SystemExit(f"the mirror did not reach stamp {stamp}")

    def draw_moments(self, stamps, ends, count):
        """Draws moments at and right before stamps; half of them where memberships, mandates or roles end."""
        some = self.dice.sample(stamps, min(count // 2, len(stamps))) + self.dice.sample(ends, min(count // 2, len(ends)))
        return [None, *sorted({it - step for it in some for step in (0, 1) if it >= step} | {0, 5})]

    def collect(self, found, port, moments, views):
        """Asks the program: lists of each party in its roles and some others at each moment, and a number of views of objects."""
        reader = Reader(port)
        parties = [row["number"] for row in found.current["party"]] + [777777, 10**9]
        held = {}
        for row in found.current["role"]:
            held.setdefault(row["party"], []).append(row["role"])
        top = found.moments[-1][1]
        self.lists, self.views = [], []
        for at in moments:
            query = "" if at is None else f"?at={at}"
            for party in parties:
                for role in ROLES:
                    if role in held.get(party, ()) or self.dice.random() < 0.05:
                        replies = reader.get([(party, role, f"/{path}{query}") for path in KINDS.values()])
                        self.lists.append((party, role, at, [(status, json.loads(text)) for status, text in replies]))
        by_role = {role: [it for it in self.lists if it[1] == role] for role in ROLES}
        for turn in range(views):
            some = by_role[ROLES[turn % len(ROLES)]]
            allowed = [it for it in some if it[3][0][0] == 200] if turn % 8 else []
            party, role, at, replies = self.dice.choice(allowed or some)
            query = "" if at is None else f"?at={at}"
            for kind, (status, listed) in zip(KINDS, replies):
                seen = listed.get("numbers", [])
                numbers = sorted({*self.dice.sample(seen, min(len(seen), 12)), *(self.dice.randrange(1, top + 3) for _ in range(12))})
                replies_of = reader.get([(party, role, f"/{KINDS[kind]}/{it}{query}") for it in numbers])
                self.views.append((party, role, at, kind, [(it, status, json.loads(text)) for it,
                                                           (status, text) in zip(numbers, replies_of)]))
        reader.close()

    # ---- the mirror's side

    def compare(self, stop=False):
        """Compares all replies with the mirror. Returns counts and the differences; with `stop`, only the first one."""
        with self.server.connect("postgres", self.database) as admin, self.server.connect("land_compare", self.database) as views, \
                self.server.connect("land_gateway", self.database) as gateway:
            self.admin, self.reader, self.gateway = admin.cursor(), views.cursor(), gateway.cursor()
            self.prepare()
            counts, differences = {"lists": 0, "denied lists": 0, "not empty": 0, "views": 0, "objects": 0}, []
            for it in self.lists:
                differences += self.compare_lists(it, counts)
                if stop and differences:
                    return counts, differences
            for it in self.views:
                differences += self.compare_views(it, counts)
                if stop and differences:
                    return counts, differences
        return counts, differences

    def prepare(self):
        for schema in WORDS.values():
            arrays = ", ".join(f"ARRAY(SELECT number FROM {schema}.{kind} ORDER BY 1)" for kind in KINDS)
            self.reader.execute(f"PREPARE lists_{schema} AS SELECT {arrays}")
        self.gateway.execute("PREPARE lists(bigint, text, bigint) AS SELECT a.status, convert_from(a.body, 'UTF8') FROM "
                             f"unnest(ARRAY[{', '.join(repr(it) for it in KINDS)}]) WITH ORDINALITY k(kind, place), "
                             "gate.answer($1, $2, $3, 'list', jsonb_build_object('of', k.kind)) a ORDER BY place")
        self.gateway.execute("PREPARE views(bigint, text, bigint, text, bigint[]) AS SELECT a.status, convert_from(a.body, 'UTF8') FROM "
                             "unnest($5) WITH ORDINALITY k(number, place), "
                             "gate.answer($1, $2, $3, 'object', jsonb_build_object('of', $4, 'number', k.number)) a ORDER BY place")

    def compare_lists(self, it, counts):
        party, role, at, replies = it
        self.admin.execute("INSERT INTO access.login VALUES ('land_compare', %s) ON CONFLICT (login) DO UPDATE SET party = excluded.party",
                           (party,))
        self.reader.execute(f"SET land.moment = '{'' if at is None else at}'; EXECUTE lists_{WORDS[role]}")
        by_view = self.reader.fetchone()
        self.gateway.execute("EXECUTE lists(%s, %s, %s)", (party, role, at))
        by_gate = self.gateway.fetchall()
        for kind, (status, wanted), numbers, (code, text) in zip(KINDS, replies, by_view, by_gate):
            counts["lists"] += 1
            counts["denied lists"] += status == 403
            counts["not empty"] += bool(wanted.get("numbers"))
            if numbers != wanted.get("numbers", []):
                yield "view", party, role, at, kind, str(numbers)[:200], wanted
            if (code, json.loads(text)) != (status, wanted):
                yield "list", party, role, at, kind, text[:200], wanted

    def compare_views(self, it, counts):
        party, role, at, kind, replies = it
        self.gateway.execute("EXECUTE views(%s, %s, %s, %s, %s)", (party, role, at, kind, [number for number, _, _ in replies]))
        for (number, status, wanted), (code, text) in zip(replies, self.gateway.fetchall()):
            counts["views"] += 1
            counts["objects"] += status == 200
            if (code, json.loads(text)) != (status, wanted):
                yield "object", party, role, at, kind, number, text[:300], wanted

    def replace_policy(self, mutate=None):
        text = generate(CRATES, mutate)
        with self.server.connect("postgres", self.database) as db, db.cursor() as cursor:
            cursor.execute("SET ROLE land_owner; DROP SCHEMA gate, citizen, conveyancer, notary, bank, surveyor, office, policy CASCADE; "
                           "CREATE SCHEMA policy;" + text)


def create_login(server):
    with server.connect("postgres", "postgres") as db, db.cursor() as cursor:
        cursor.execute("SELECT 1 FROM pg_roles WHERE rolname = 'land_compare'")
        if not cursor.fetchone():
            cursor.execute("CREATE ROLE land_compare LOGIN IN ROLE land_reader")


def run(folder, server, lists, views, objects, mutants=True, seed=1):
    """Compares registers until the given numbers of lists, views and objects are reached."""
    totals, cases, began = {}, [], time.monotonic()
    while not totals or totals["lists"] < lists or totals["views"] < views or totals["objects"] < objects:
        case = Case(folder, server, seed, acts=300, moments=24 if lists > 50000 else 12, views=250 if views > 50000 else 60)
        counts, differences = case.compare()
        totals = {key: totals.get(key, 0) + value for key, value in counts.items()}
        note(f"seed {seed}: {case.done} acts, {counts}, {time.monotonic() - began:.0f} s in all")
        check(f"seed {seed}: no difference", not differences, differences[:4])
        if len(cases) < 6 and mutants:
            cases.append(case)
        seed += 1
    note(f"compared: {totals}")
    if mutants:
        run_mutants(cases)


def run_mutants(cases):
    for name, mutate in MUTANTS:
        killed = None
        for case in cases:
            case.replace_policy(mutate)
            try:
                _, differences = case.compare(stop=True)
            finally:
                case.replace_policy()
            if differences:
                killed = differences[0]
                break
        check(f"mutant killed: {name}", killed, "no difference in any register")
        if killed:
            note(f"mutant killed: {name}: {str(killed)[:140]}")
    counts, differences = cases[0].compare()
    check("after the mutants the comparison has no difference", not differences, differences[:2])
