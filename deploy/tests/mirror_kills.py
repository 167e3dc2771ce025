"""Kills the feed, the service and PostgreSQL with SIGKILL at random places under load. Afterwards the audit has to be clean."""
import random
import time

from harness import check, note
from mirror_acts import Load, prepare
from mirror_cluster import run_audit, serving, start_feed
from mirror_feed import state, wait_for

STOPPED = 3


class Unit:
    """The feed as its unit runs it: started again whenever it exits, but not after it stopped the mirror."""

    def __init__(self, *words):
        self.words, self.errors, self.starts = words, [], 0
        self.start()

    def start(self):
        self.process = start_feed(*self.words)
        self.starts += 1

    def keep(self):
        """Starts the feed again if it has exited."""
        if self.process.poll() is not None:
            self.errors.append(self.process.communicate()[1].strip().splitlines()[-1:])
            if self.process.returncode == STOPPED:
                raise SystemExit(f"the mirror was stopped: {self.errors[-1]}")
            self.start()

    def kill(self):
        self.process.kill()
        self.process.communicate()


def run(folder, server, kills):
    dice = random.Random(kills)
    file = folder.register("kills")
    server.install("kills")
    with serving(file) as service:
        prepare(service.port)
        load = Load(service, 100)
        load.start()
        unit = Unit(folder, server, "kills", file, "--every", "0.02")
        for what in ("feed", "service", "PostgreSQL"):
            began, before, stamp = time.monotonic(), load.done, 0
            for turn in range(kills):
                # wait until the feed works again, so that the next kill is in the middle of its work
                wait_for(lambda: moved(server, unit, stamp))
                stamp = state(server, "kills")[0]
                time.sleep(dice.random() * 0.15)
                if what == "feed":
                    unit.kill()
                    unit.start()
                elif what == "service":
                    service.kill()
                    service.start()
                else:
                    server.kill()
                    server.restart()
                if turn % 10 == 9:
                    audit = run_audit(folder, server, "kills", file)
                    check(f"{what}, after {turn + 1} kills: the audit is clean", audit.returncode == 0, audit.stderr)
            note(f"{what}: {kills} kills, {load.done - before} acts meanwhile, {time.monotonic() - began:.0f} s")
        load.stop()
        check("the mirror catches up", wait_for(lambda: moved(server, unit, load.stamp - 1)), (state(server, "kills"), load.stamp))
        unit.kill()
    stamp, halted = state(server, "kills")
    audit = run_audit(folder, server, "kills", file)
    check("the mirror was never stopped", halted is None, halted)
    check("the audit at the end is clean", audit.returncode == 0, audit.stderr)
    check("it has every answered act", stamp >= load.stamp, (stamp, load.stamp))
    note(f"{load.done} answered acts, {unit.starts} starts of the feed; {audit.stderr.strip()}")


def moved(server, unit, stamp):
    """Returns whether the mirror is past a stamp, and keeps the feed running."""
    unit.keep()
    row = state(server, "kills")
    return row and row[0] > stamp
