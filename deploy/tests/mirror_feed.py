"""The feed: refusals, damaged and replaced files, the append-only mirror, audits, and the lag."""
import json
import os
import shutil
import sqlite3
import time

from harness import check, note
from mirror_acts import Actor, Load, prepare
from mirror_cluster import MIRROR, feed_once, feed_words, run_as, run_audit, serving, start_feed, user
import subprocess

STOPPED = 3


def state(server, name):
    with server.connect("postgres", name) as db, db.cursor() as cursor:
        cursor.execute("SELECT stamp, halted FROM reg.state")
        return cursor.fetchone()


def is_locked(server, name):
    """Returns whether a feed is connected to the mirror and has its lock."""
    with server.connect("postgres", name) as db, db.cursor() as cursor:
        cursor.execute("SELECT count(*) FROM pg_locks WHERE locktype = 'advisory' AND granted AND database = "
                       "(SELECT oid FROM pg_database WHERE datname = current_database())")
        return cursor.fetchone()[0] == 1


def copy(file, other):
    """Copies a register that nothing writes."""
    for end in ("", "-wal"):
        if os.path.exists(other + end):
            os.remove(other + end)
        if os.path.exists(file + end):
            shutil.copyfile(file + end, other + end)


def wait_for(test, seconds=60):
    """Waits until a test succeeds. Returns its result."""
    end = time.monotonic() + seconds
    while time.monotonic() < end:
        found = test()
        if found:
            return found
        time.sleep(0.02)
    return test()


def make(folder, server, name, acts=60, seed=5):
    """Makes a register of random acts with a mirror. Returns the file, which is not served any more."""
    file = folder.register(name)
    server.install(name)
    with serving(file) as service:
        actor = Actor(service.port, seed)
        actor.acts(acts)
        actor.close()
    run = feed_once(folder, server, name, file)
    check(f"{name}: the first load", run.returncode == 0 and state(server, name) == (actor.stamp, None), run.stderr)
    return file


# ---- refusals

def test_permissions(folder, server):
    """The feed refuses to start as a user that can write file, log or folder, with and without --copy."""
    file = make(folder, server, "permissions")
    words = feed_words(folder, server, "permissions", file, "--once")
    for more in ([], ["--copy"]):
        run = subprocess.run([*words, *more], capture_output=True, text=True)
        check(f"root is refused {more}", run.returncode == 1 and "can write" in run.stderr, run.stderr)
    nobody = user("nobody").__closure__[0].cell_contents.pw_uid
    for path in (file, file + "-wal", os.path.dirname(file)):
        if os.path.exists(path):
            os.chown(path, nobody, -1)
            run = run_as("nobody", words)
            check(f"the owner of {os.path.basename(path)} is refused", run.returncode == 1 and f"can write {path}" in run.stderr,
                  run.stderr)
            os.chown(path, 0, -1)
    before = {end: open(file + end, "rb").read() for end in ("", "-wal") if os.path.exists(file + end)}
    check("the register has a log", "-wal" in before)
    for more in ([], ["--copy"], ["--scan"]):
        check(f"nobody may read {more}", run_as("nobody", [*words, *more]).returncode == 0)
    after = {end: open(file + end, "rb").read() for end in ("", "-wal") if os.path.exists(file + end)}
    check("file and log are unchanged", before == after)


def test_refusals(folder, server):
    """The feed stops the mirror if the register is not its continuation."""
    file = make(folder, server, "past")
    old = folder.register("old")
    copy(file, old)
    with serving(file, new=False) as service:
        actor = Load(service, 200)
        prepare(service.port)
        actor.start()
        time.sleep(0.5)
        actor.stop()
    run = feed_once(folder, server, "past", file)
    check("more acts are applied", run.returncode == 0, run.stderr)
    run = feed_once(folder, server, "past", old)
    check("an older copy stops the mirror", run.returncode == STOPPED and state(server, "past")[1], run.stderr)
    run = feed_once(folder, server, "past", file)
    check("a stopped mirror stays stopped", run.returncode == STOPPED and "install --replace" in run.stderr, run.stderr)
    with server.connect("land_gateway", "past") as db, db.cursor() as cursor:
        cursor.execute("SELECT status, convert_from(body, 'UTF8') FROM "
                       "gate.answer(1, 'stateAdministrator', NULL, 'list', '{\"of\": \"party\"}')")
        check("a stopped mirror answers nothing", cursor.fetchone() == (503, '{"mirror":"stopped"}'))
    server.install("past")
    check("it is rebuilt from the file", feed_once(folder, server, "past", file).returncode == 0 and
          run_audit(folder, server, "past", file).returncode == 0)
    other = make(folder, server, "other", seed=6)
    run = feed_once(folder, server, "past", other)
    check("another register stops the mirror", run.returncode == STOPPED, run.stderr)
    for name, change, word in (("text", "DROP TABLE mandate", "mandate"), ("version", "UPDATE edition SET version = 1", "land migrate")):
        bad = folder.register(name)
        copy(file, bad)
        base = sqlite3.connect(bad)
        base.execute(change)
        base.commit()
        base.close()
        server.install(name)
        run = feed_once(folder, server, name, bad)
        check(f"a file with another schema is refused ({name})", run.returncode == 1 and word in run.stderr, run.stderr)


def test_one_feed(folder, server):
    file = make(folder, server, "twice")
    first = start_feed(folder, server, "twice", file)
    try:
        check("the first feed takes the lock", wait_for(lambda: is_locked(server, "twice")))
        check("a second feed is refused", wait_for(lambda: "another feed" in feed_once(folder, server, "twice", file).stderr, 20))
    finally:
        first.kill()
        first.communicate()


# ---- damage and replacement

def test_damage(folder, server, tries):
    """Damages the file in many places: the mirror is stopped, or equal to the register, or the feed reports an error only."""
    file = make(folder, server, "damage", acts=150)
    bad, ends = folder.register("damaged"), {"stopped": 0, "equal": 0, "error": 0}
    size = os.path.getsize(file + "-wal")
    for turn in range(tries):
        copy(file, bad)
        target = bad + "-wal" if turn % 2 and size > 4200 else bad
        with open(target, "r+b") as it:
            place = (turn * 7919 + 100) % (os.path.getsize(target) - 8)
            it.seek(place)
            old = it.read(4)
            it.seek(place)
            it.write(bytes(byte ^ 0x5a for byte in old))
        run = feed_once(folder, server, "damage", bad)
        stamp, halted = state(server, "damage")
        if halted:
            ends["stopped"] += 1
            check(f"damage at {place}: the status is {STOPPED}", run.returncode == STOPPED, run.stderr)
            with server.connect("postgres", "damage") as db, db.cursor() as cursor:
                cursor.execute("ALTER TABLE reg.state DISABLE TRIGGER append_only; UPDATE reg.state SET halted = NULL; "
                               "ALTER TABLE reg.state ENABLE TRIGGER append_only")
        else:
            ends["error" if run.returncode else "equal"] += 1
        audit = run_audit(folder, server, "damage", file)
        check(f"damage at {place}: the mirror is that of the undamaged file", audit.returncode == 0, audit.stderr + run.stderr)
    note(f"damaged files: {ends}")


def test_replaced(folder, server):
    """While the feed runs, the file is replaced by an older one: the mirror is stopped. By an equal one: it goes on."""
    file = make(folder, server, "replaced")
    old, equal = folder.register("replaced-old"), folder.register("replaced-equal")
    copy(file, old)
    with serving(file, new=False) as service:
        prepare(service.port)
    feed = start_feed(folder, server, "replaced", file, "--every", "0.05")
    try:
        before = state(server, "replaced")
        wait_for(lambda: state(server, "replaced")[0] > before[0] if before else True, 20)
        copy(file, equal)
        for end in ("-wal", ""):
            os.replace(equal + end, file + end)
        time.sleep(0.6)
        check("an equal file is accepted", feed.poll() is None and state(server, "replaced")[1] is None, feed.poll())
        for end in ("-wal", ""):
            os.replace(old + end, file + end)
        check("an older file stops the mirror", wait_for(lambda: state(server, "replaced")[1], 20))
        check("the feed ends", wait_for(lambda: feed.poll() == STOPPED, 20), feed.poll())
    finally:
        feed.kill()
        feed.communicate()


# ---- append-only

def test_append_only(folder, server):
    """Statements that the feed's login, and the owner, cannot execute."""
    make(folder, server, "append")
    cases = (
        "UPDATE reg.rrr SET party = 1", "UPDATE reg.parcel SET outline = outline", "DELETE FROM reg.rrr", "TRUNCATE reg.moments",
        "UPDATE reg.party SET until = 5 WHERE until = 4102444800000", "UPDATE reg.role SET until = until + 1 WHERE until < 4102444800000",
        "INSERT INTO reg.party VALUES (7, 'x', 'group', 5, 4102444800000)", "INSERT INTO reg.moments VALUES (1, 2)",
        "UPDATE reg.state SET stamp = 5", "UPDATE reg.state SET next = 1", "DELETE FROM reg.state", "DROP TABLE reg.rrr",
        "ALTER TABLE reg.rrr DISABLE TRIGGER ALL", "CREATE TABLE reg.x (i int)", "CREATE TEMP TABLE x (i int)",
        "SELECT * FROM access.login",
        "SELECT * FROM citizen.rrr", "SELECT gate.answer(1, 'citizen', NULL, 'list', '{}')", "INSERT INTO access.login VALUES ('a', 1)",
        "SET ROLE land_owner", "COPY reg.rrr TO PROGRAM 'id'")
    import psycopg2
    for login in ("land_feed", "land_owner"):
        with server.connect("postgres" if login == "land_owner" else login, "append") as db, db.cursor() as cursor:
            if login == "land_owner":
                cursor.execute("SET ROLE land_owner")
            for statement in cases if login == "land_feed" else cases[:10]:
                try:
                    cursor.execute(statement)
                    check(f"{login}: {statement}", False, "it was done")
                except psycopg2.Error:
                    check(f"{login}: {statement}", True)


def test_audit(folder, server):
    """The audit finds a row that was changed, removed or added behind the triggers."""
    file = make(folder, server, "audit")
    cases = ("UPDATE reg.party SET name = name || ' ' WHERE number = 1", "DELETE FROM reg.role WHERE party = 2",
             "INSERT INTO reg.mandate VALUES (1, 2, 5, 4102444800000)",
             "UPDATE reg.rrr SET until = until - 1 WHERE number = (SELECT min(number) FROM reg.rrr)",
             "DELETE FROM reg.moments WHERE stamp = (SELECT min(stamp) FROM reg.moments WHERE stamp > 0)",
             "UPDATE reg.member SET num = num + 1", "UPDATE reg.mutation SET content = replace(content, ':', ': ')",
             "UPDATE reg.parcel SET outline = replace(outline, '0000 ', '0001 ')")
    for statement in cases:
        with server.connect("postgres", "audit") as db, db.cursor() as cursor:
            cursor.execute("SET session_replication_role = replica; BEGIN; " + statement)
            changed = cursor.rowcount
            cursor.execute("COMMIT")
        run = run_audit(folder, server, "audit", file)
        check(f"the audit finds: {statement}", changed and run.returncode == STOPPED, (changed, run.stderr))
        server.install("audit")
        feed_once(folder, server, "audit", file)
    run = feed_once(folder, server, "audit", file)
    check("an audit at start is clean", "no difference" in run.stderr, run.stderr)
    with server.connect("postgres", "audit") as db, db.cursor() as cursor:
        cursor.execute("SET session_replication_role = replica; UPDATE reg.party SET name = 'x' WHERE number = 1")
    run = feed_once(folder, server, "audit", file)
    check("the audit at start stops the mirror", run.returncode == STOPPED and state(server, "audit")[1], run.stderr)


def test_regular_audit(folder, server):
    """A running feed audits at intervals, and stops the mirror if it differs."""
    file = make(folder, server, "regular")
    feed = start_feed(folder, server, "regular", file, "--audit-every", "0.5")
    try:
        time.sleep(1.5)
        check("the feed runs while audits are clean", feed.poll() is None)
        with server.connect("postgres", "regular") as db, db.cursor() as cursor:
            cursor.execute("SET session_replication_role = replica; UPDATE reg.party SET name = 'x' WHERE number = 1")
        check("a regular audit stops the mirror", wait_for(lambda: state(server, "regular")[1], 20))
        check("and the feed", wait_for(lambda: feed.poll() == STOPPED, 20), feed.poll())
    finally:
        feed.kill()
        feed.communicate()


# ---- lag

def test_lag(folder, server, seconds, name="lag", new=True):
    """Measures lag and processor time at 100 acts a second, by the log, by scans and by copies. Party 2 must be a notary."""
    file = folder.register(name)
    if new:
        server.install(name)
    with serving(file, new) as service:
        if new:
            prepare(service.port)
        load = Load(service, 100, seed=1 if new else 300)
        load.start()
        for way, words in (("log, each 250 ms", ["--every", 0.25]), ("log, each 50 ms", ["--every", 0.05]),
                           ("scan, each 250 ms", ["--scan", "--every", 0.25]), ("copy, each second", ["--copy"])):
            stats = os.path.join(folder.scratch, way.replace(" ", "-"))
            before = load.done
            run = run_as("nobody", feed_words(folder, server, name, file, "--seconds", seconds, "--stats", stats, *words))
            check(f"{way}: the feed runs", run.returncode == 0, run.stderr)
            with open(stats, encoding="utf-8") as it:
                ticks = [json.loads(line) for line in it][1:]
            lags = sorted(tick["lag_ms"] for tick in ticks)
            check(f"{way}: ticks", len(ticks) > 2)
            note(f"{way}: {(load.done - before) / seconds:.0f} acts/s, {len(ticks)} ticks, lag median {lags[len(lags) // 2]} ms, 95 % "
                 f"{lags[int(len(lags) * 0.95)]} ms, "
                 f"processor {sum(tick['processor_ms'] for tick in ticks) / 10 / seconds:.1f} % of a core, "
                 f"by log {sum(tick['how'] == 'log' for tick in ticks)}, tries {max(tick['tries'] for tick in ticks)}")
        load.stop()
        check("acts were accepted", load.done > 100 * seconds, load.done)
        note(f"an act took at most {load.slowest * 1000:.0f} ms")
    audit = run_audit(folder, server, name, file)
    check("the audit after the load is clean", audit.returncode == 0, audit.stderr)
    note(audit.stderr.strip())


def run(folder, server, damages=40, seconds=8):
    for test in (test_permissions, test_refusals, test_one_feed, test_replaced, test_append_only, test_audit, test_regular_audit):
        test(folder, server)
    test_damage(folder, server, damages)
    test_lag(folder, server, seconds)
