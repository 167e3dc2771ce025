"""Streaming standbys: the primary is killed in the middle of a tick, a standby is promoted, and the feed continues there."""
import random
import time

from harness import check, note
from mirror_acts import Load, prepare
from mirror_cluster import Server, run_audit, serving
from mirror_feed import state, wait_for
from mirror_kills import Unit
from mirror_queries import Gateway

NAME = "replicas"


class Cluster:
    """A primary and two standbys, and a connection string that reaches the one that accepts writes."""

    def __init__(self, folder, server):
        self.folder, self.servers, self.turn = folder, [server], 0
        self.lost = []
        for _ in range(2):
            self.add()

    def add(self):
        self.turn += 1
        self.servers.append(Server(self.folder, f"standby{self.turn}", copy_of=self.servers[0]))

    @property
    def ports(self):
        return ",".join(str(it.port) for it in self.servers)

    def dsn(self, login, name):
        hosts = ",".join(self.servers[0].socket for _ in self.servers)
        return f"host={hosts} port={self.ports} user={login} dbname={name} target_session_attrs=read-write"


def run(folder, server, failovers):
    dice = random.Random(failovers)
    file = folder.register(NAME)
    server.install(NAME)
    cluster = Cluster(folder, server)
    waits = []
    with serving(file) as service:
        prepare(service.port)
        load = Load(service, 100, seed=7)
        load.start()
        unit = Unit(folder, cluster, NAME, file, "--every", "0.02")
        try:
            wait_for(lambda: (state(server, NAME) or (0,))[0] > 0)
            for turn in range(failovers):
                waits.append(fail_over(folder, cluster, unit, load, file, turn, dice))
        finally:
            load.stop()
            unit.kill()
    audit = run_audit(folder, cluster.servers[0], NAME, file)
    check("the audit at the end is clean", audit.returncode == 0, audit.stderr)
    for it in cluster.servers[1:]:
        wait_for(lambda: state(it, NAME) == state(cluster.servers[0], NAME), 20)
        audit = run_audit(folder, it, NAME, file)
        check(f"the audit of {it.name} is clean", audit.returncode == 0, audit.stderr)
    waits.sort()
    note(f"{failovers} lost primaries: up to date again after a median of {waits[len(waits) // 2]:.1f} s, worst {waits[-1]:.1f} s; "
         f"{audit.stderr.strip()}")
    for it in cluster.servers:
        it.stop() if it is not server else None
    if cluster.servers[0] is not server:
        server.wipe()


def fail_over(folder, cluster, unit, load, file, turn, dice):
    """Kills the primary at a random place, promotes the standby that has more, and waits until it is up to date. Returns the seconds."""
    primary = cluster.servers[0]
    before = wait_for(lambda: keep(unit) and state(primary, NAME)[0])
    with Gateway(*(it.dsn("land_gateway", NAME) for it in cluster.servers)) as gateway:
        stamps = [int(gateway.get(1, "stateAdministrator", "/parties/1")[1]["Register-Stamp"])]
        time.sleep(0.3 + dice.random() * 0.3)
        primary.kill()
        began, wanted = time.monotonic(), load.stamp
        cluster.servers.remove(primary)
        cluster.servers.sort(key=lambda it: -state(it, NAME)[0])
        chosen = cluster.servers[0]
        at = state(chosen, NAME)[0]
        chosen.promote()
        follow(cluster.servers[1], chosen)
        unit.words = (folder, cluster, NAME, file, "--every", "0.02")
        check(f"failover {turn + 1}: the mirror catches up", wait_for(lambda: keep(unit) and state(chosen, NAME)[0] >= wanted, 60),
              (state(chosen, NAME), wanted, unit.errors[-2:]))
        seconds = time.monotonic() - began
        for _ in range(20):
            status, headers, _ = gateway.get(1, "stateAdministrator", "/parties/1")
            if status == 200:
                stamps.append(int(headers["Register-Stamp"]))
    check(f"failover {turn + 1}: a client's stamps never go back", stamps == sorted(stamps) and len(stamps) > 1, stamps[:4])
    audit = run_audit(folder, chosen, NAME, file)
    check(f"failover {turn + 1}: the audit is clean", audit.returncode == 0 and at >= before - 10_000, audit.stderr)
    cluster.add()
    return seconds


def follow(standby, primary):
    """Lets a standby stream from another primary."""
    with standby.connect("postgres", "postgres") as db, db.cursor() as cursor:
        cursor.execute(f"ALTER SYSTEM SET primary_conninfo = 'host={primary.socket} port={primary.port} user=postgres'")
        cursor.execute("SELECT pg_reload_conf()")


def keep(unit):
    unit.keep()
    return True
