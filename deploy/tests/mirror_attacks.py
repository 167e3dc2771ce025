"""What logins of PostgreSQL can do to a mirror: a citizen and a bank with SQL, the gateway's login, the feed's login.

A statement has to fail, or to return the expected value."""
import sys
import os

from harness import check, note
from mirror_cluster import feed_once
from stack import TOP

try:
    import psycopg2
except ImportError:
    psycopg2 = None

FAILS = object()
# The citizen anna owns one unit with its entries, and sees her own parties. Entry 100 exists and is not hers.
ANNA = [
    ("SELECT count(*) FROM citizen.rrr", 4), ("SELECT count(*) FROM citizen.unit", 1), ("SELECT count(*) FROM office.rrr", 0),
    ("SELECT count(*) FROM bank.rrr", 0), ("SELECT count(*) FROM notary.party", 0), ("SELECT count(*) FROM citizen.source", 0),
    ("SET land.party = '1'; SELECT count(*) FROM office.rrr", 0), ("SET land.moment = '0'; SELECT count(*) FROM citizen.rrr", 0),
    ("SET land.moment = '4102444799999'; SELECT count(*) FROM citizen.rrr", 0), ("SET land.moment = 'x'; SELECT count(*) FROM citizen.rrr",
        FAILS),
    ("SET ROLE land_owner", FAILS), ("SET ROLE land_gateway", FAILS), ("SET SESSION AUTHORIZATION clerk", FAILS),
    ("SELECT count(*) FROM reg.rrr", FAILS), ("SELECT * FROM reg.state", FAILS), ("SELECT * FROM access.login", FAILS),
    ("UPDATE access.login SET party = 1", FAILS), ("TABLE access.setting", FAILS),
    ("SELECT * FROM gate.answer(1, 'stateAdministrator', NULL, 'list', '{\"of\": \"rrr\"}')", FAILS),
    ("SELECT office.numbers('rrr', 1, 3000, '{1}')", FAILS), ("SELECT citizen.find_party('ow', 1000, 28, 3000, '{28}')", FAILS),
    ("SELECT policy.standing(1, 'stateAdministrator', NULL)", FAILS), ("SELECT policy.denial(1, 'citizen', 3000, 'unit', 5)", FAILS),
    ("SELECT policy.circle(28, 3000)", FAILS), ("SELECT count(*) FROM reg.mandate", FAILS), ("TABLE citizen.mandate", FAILS),
    ("SELECT citizen.mandates('{}', 28, 3000, '{28}')", FAILS), ("SELECT p FROM policy.ask('citizen')",
                                                27), ("SELECT t FROM policy.ask('stateAdministrator')", None),
    # functions that are not leakproof see no row beyond the view
    ("SELECT count(*) FROM citizen.rrr WHERE 1 / (number - 100) > 5", 0), ("SELECT count(*) FROM citizen.party WHERE name::int = 1", FAILS),
    ("SELECT count(*) FROM citizen.rrr WHERE 1 / (number - 33) > 5", FAILS),
    ("CREATE FUNCTION public.leak(text) RETURNS bool LANGUAGE sql AS 'SELECT true'", FAILS), ("CREATE SCHEMA mine", FAILS),
    ("CREATE FUNCTION pg_temp.leak(text) RETURNS bool LANGUAGE sql AS 'SELECT true'", FAILS), ("CREATE TEMP TABLE mine (i int)", FAILS),
    ("CREATE VIEW public.mine AS SELECT 1", FAILS), ("CREATE EXTENSION dblink", FAILS), ("SELECT lo_create(0)", FAILS),
    ("DO $$ BEGIN EXECUTE 'SELECT 1 FROM reg.rrr'; END $$", FAILS), ("ALTER VIEW citizen.rrr SET (security_barrier = false)", FAILS),
    ("DROP VIEW citizen.rrr", FAILS), ("INSERT INTO citizen.unit VALUES (1, 'x', 1)", FAILS), ("DELETE FROM citizen.rrr", FAILS),
    ("UPDATE citizen.rrr SET party = 27", FAILS), ("GRANT SELECT ON citizen.rrr TO clerk", None), ("ALTER ROLE anna SET land.moment = '0'",
        FAILS),
    ("COPY (SELECT 1) TO PROGRAM 'id'", FAILS), ("COPY (SELECT 1) TO '/tmp/x'", FAILS), ("SELECT pg_read_file('/etc/passwd')", FAILS),
    ("SELECT lo_import('/etc/passwd')", FAILS), ("SELECT count(*) FROM pg_stats WHERE schemaname = 'reg'", 0), ("TABLE pg_statistic",
        FAILS),
    ("SELECT count(*) FROM pg_stat_activity WHERE usename <> 'anna' AND query NOT LIKE '<insufficient%' AND query <> ''", 0),
    ("SELECT count(*) FROM pg_authid", FAILS), ("SELECT pg_terminate_backend(pid) FROM pg_stat_activity WHERE usename = 'postgres'", FAILS),
]
CLERK = [
    ("SELECT count(*) FROM bank.rrr", 4), ("SELECT count(*) FROM bank.unit", 1), ("SELECT count(*) FROM citizen.rrr", 0),
    ("SET land.moment = '1500'; SELECT count(*) FROM bank.rrr", 0), ("SET land.moment = '1500'; SELECT count(*) FROM bank.parcel", 0),
    ("SELECT count(*) FROM bank.rrr WHERE class = 'mortgage' AND party <> 4", 0),
]
GATEWAY = [
    ("SELECT status FROM gate.answer(1, 'stateAdministrator', NULL, 'object', '{\"of\": \"party\", \"number\": 1}')", 200),
    ("SELECT status FROM gate.answer(1, 'citizen', NULL, 'list', '{\"of\": \"party\"}')", 403),
    ("SELECT status FROM gate.answer(1, 'postgres', NULL, 'list', '{\"of\": \"party\"}')", 403),
    ("SELECT status FROM gate.answer(NULL, NULL, NULL, 'list', '{\"of\": \"party\"}')", 403),
    ("SELECT count(*) FROM reg.rrr", FAILS), ("SELECT count(*) FROM citizen.rrr", FAILS), ("SELECT count(*) FROM office.rrr", FAILS),
    ("SELECT office.numbers('rrr', 1, 3000, '{1}')", FAILS), ("TABLE access.login", FAILS),
    ("SELECT citizen.mandates('{}', 28, 3000, '{28}')", FAILS), ("SELECT policy.standing(1, 'citizen', NULL)",
        FAILS),
    ("SET ROLE land_owner", FAILS), ("SET ROLE land_feed", FAILS), ("CREATE TEMP TABLE mine (i int)", FAILS), ("CREATE SCHEMA mine", FAILS),
    ("UPDATE reg.state SET halted = NULL", FAILS), ("SELECT reg.refresh_statistics()", FAILS), ("SELECT count(*) FROM gate.state()", 1),
]


def attempt(cursor, statement):
    try:
        cursor.execute(statement)
        row = cursor.fetchone() if cursor.description else (None,)
        return row[0] if row else None
    except psycopg2.Error:
        return FAILS


def run(folder, server):
    sys.path.insert(0, os.path.join(TOP, "bench"))
    import registers
    file = folder.register("attacks")
    registers.of_entries(file, 2000)
    os.chmod(file, 0o644)
    server.install("attacks")
    loaded = feed_once(folder, server, "attacks", file)
    check("the register is loaded", loaded.returncode == 0, loaded.stderr)
    with server.connect("postgres", "attacks") as db, db.cursor() as cursor:
        cursor.execute("CREATE ROLE anna LOGIN IN ROLE land_reader; CREATE ROLE clerk LOGIN IN ROLE land_reader; "
                       "INSERT INTO access.login VALUES ('anna', 27), ('clerk', 4)")
    count = 0
    for login, cases in (("anna", ANNA), ("clerk", CLERK), ("land_gateway", GATEWAY)):
        for statement, wanted in cases:
            with server.connect(login, "attacks") as db, db.cursor() as cursor:
                found = attempt(cursor, statement)
            count += 1
            check(f"{login}: {statement}", found == wanted, "no error" if wanted is FAILS else found)
    with server.connect("postgres", "attacks") as db, db.cursor() as cursor:
        for function in ("gate.answer", "gate.state", "policy.standing", "office.answer", "citizen.numbers", "reg.doubled",
                         "reg.refresh_statistics"):
            cursor.execute("SELECT count(*) FROM pg_proc p, aclexplode(coalesce(p.proacl, acldefault('f', p.proowner))) a "
                           "WHERE p.oid = %s::regproc AND a.grantee = 0", (function,))
            check(f"{function} is not for everyone", cursor.fetchone() == (0,))
        cursor.execute("SELECT count(*) FROM pg_proc p JOIN pg_namespace n ON n.oid = p.pronamespace, "
                       "aclexplode(coalesce(p.proacl, acldefault('f', p.proowner))) a "
                       "WHERE n.nspname IN ('reg', 'policy', 'gate', 'access', 'citizen', 'conveyancer', 'notary', 'bank', 'surveyor', "
                       "'office') "
                       "AND a.grantee = 0")
        check("no function of the mirror is for everyone", cursor.fetchone() == (0,))
        cursor.execute("SELECT count(*) FROM pg_class c JOIN pg_namespace n ON n.oid = c.relnamespace WHERE c.relkind = 'v' "
                       "AND n.nspname IN ('citizen', 'conveyancer', 'notary', 'bank', 'surveyor', 'office') "
                       "AND 'security_barrier=true' = ANY(c.reloptions)")
        check("54 views with a barrier", cursor.fetchone() == (54,))
    note(f"{count} statements of logins")
