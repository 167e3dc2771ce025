"""Follows a served register: each tick reads one committed state and applies what changed, in one transaction with the new stamp."""
import json
import os
import subprocess
import sys
import time

from land_mirror import MirrorError, Refused
from land_mirror.audit import audit
from land_mirror.source import Busy, Source
from land_mirror.target import Target

# Exit statuses. The unit does not restart the feed after the second.
ERROR, STOPPED = 1, 3
# `seen` of the state is written at most this often while nothing changes, in seconds.
HEARTBEAT = 5.0


def log(message):
    print(f"land-mirror: {message}", file=sys.stderr, flush=True)


class Feed:
    def __init__(self, options):
        self.options = options
        self.source = Source(options.file, options.copy, options.scratch)
        self.source.check_permissions()
        self.target = Target(options.dsn)
        self.target.lock()
        self.last = self.target.state()
        self.stats = open(options.stats, "a", encoding="utf-8") if options.stats else None
        self.identity = None
        self.auditor = None
        self.audited = self.beat = time.monotonic()

    def run(self):
        """Runs until `--once` or `--seconds` ends it. Raises Refused if the mirror must not be used any more."""
        try:
            if self.last is None:
                self.load()
            else:
                self.audit_now("at start")
            began = time.monotonic()
            while True:
                tick = time.monotonic()
                self.tick()
                self.watch_audit()
                if self.options.once or tick - began > self.options.seconds:
                    return
                time.sleep(max(0.0, self.options.every - (time.monotonic() - tick)))
        except Refused as error:
            self.target.halt(str(error))
            raise
        finally:
            if self.auditor:
                self.auditor.kill()
                self.auditor.wait()

    def load(self):
        began = time.monotonic()
        changes = self.source.read(None, by_copy=True)
        count = self.target.apply(None, changes)
        self.target.refresh_statistics()
        self.last, self.identity = (changes.stamp, changes.next), self.source.identity()
        log(f"loaded {count} rows up to stamp {changes.stamp} in {time.monotonic() - began:.1f} s")

    def tick(self):
        if self.identity != self.source.identity():
            if self.identity is not None:
                self.audit_now("because the file was replaced")
            self.identity = self.source.identity()
        if self.source.log.is_idle():
            return self.note_idle()
        began, processor = time.monotonic(), time.process_time()
        try:
            changes = self.source.read(self.last, scan=self.options.scan)
        except Busy as error:
            return log(f"{error}; trying again")
        if not changes.moments:
            return self.note_idle()
        read = time.monotonic()
        count = self.target.apply(self.last, changes)
        self.last = changes.stamp, changes.next
        self.beat = time.monotonic()
        if self.stats:
            print(json.dumps({
                "time": round(time.time(), 3), "stamp": changes.stamp, "lag_ms": round(time.time() * 1000 - changes.stamp),
                "moments": len(changes.moments), "rows": count, "how": changes.how, "frames": changes.frames, "tries": changes.tries,
                "read_ms": round((read - began) * 1000, 1), "apply_ms": round((self.beat - read) * 1000, 1),
                "processor_ms": round((time.process_time() - processor) * 1000, 1)}), file=self.stats, flush=True)

    def note_idle(self):
        if time.monotonic() - self.beat > HEARTBEAT:
            self.beat = time.monotonic()
            self.target.seen()

    # ---- audits

    def audit_now(self, why):
        began = time.monotonic()
        stamp, count, differences = audit(self.source, self.options.dsn)
        if differences:
            raise Refused(f"the audit {why} found differences at stamp {stamp}: {' | '.join(differences)}")
        log(f"audit {why}: {count} rows, no difference, {time.monotonic() - began:.1f} s")

    def watch_audit(self):
        """Runs an audit at intervals in another process, and stops the mirror if it found a difference."""
        if self.auditor and self.auditor.poll() is not None:
            status, self.auditor = self.auditor.returncode, None
            if status == STOPPED:
                raise Refused("the audit found differences")
            if status:
                log(f"the audit failed with status {status}; it runs again in {self.options.audit_every:.0f} s")
        if not self.auditor and time.monotonic() - self.audited > self.options.audit_every:
            self.audited = time.monotonic()
            words = [sys.executable, sys.argv[0], "audit", self.options.file, self.options.dsn]
            if self.options.scratch:
                words += ["--scratch", self.options.scratch]
            self.auditor = subprocess.Popen(words, preexec_fn=lambda: os.nice(10))


def run_feed(options):
    Feed(options).run()


def run_audit(options):
    """Audits once. Stops the mirror if it differs."""
    source = Source(options.file, True, options.scratch)
    source.check_permissions()
    began = time.monotonic()
    stamp, count, differences = audit(source, options.dsn)
    if differences:
        error = f"the audit found differences at stamp {stamp}: {' | '.join(differences)}"
        if not options.dry:
            Target(options.dsn).halt(error)
        raise Refused(error)
    log(f"audit: {count} rows at stamp {stamp}, no difference, {time.monotonic() - began:.1f} s")


def exit_with(run, options):
    """Runs a command and turns its errors into messages and exit statuses."""
    try:
        run(options)
    except Refused as error:
        log(f"stopped: {error}")
        sys.exit(STOPPED)
    except Exception as error:      # whatever it is, the unit restarts the feed, which audits first
        if isinstance(error, (MirrorError, Busy, OSError)):
            log(error)
        else:
            log(f"{type(error).__name__}: {str(error).strip()}")
        sys.exit(ERROR)
