"""Reads one committed state of a served register, without a lock.

In place: SQLite reads the file and its log where they are (vfs=unix-none). The result counts only if the log's header and the file's times
are the same before and after: the file changes only during a checkpoint, and a reader that takes no lock can see half of one.

By copy: file and log are copied, and the copy counts if the log's header is the same before and after, as in deploy/land-backup.

SQLite with write permission deletes the log of a served register when it closes it, and answered acts are lost (mode=ro does not cover the
log). So every read starts with a check that this user can write neither file, log nor folder."""
import contextlib
import json
import os
import shutil
import sqlite3
import tempfile
import time
from dataclasses import dataclass

from land_mirror import MirrorError, Refused
from land_mirror.tables import NUMBERED, OPEN, TABLES, VERSION
from land_mirror.wal import Log, Unreadable

# A file's time may lag the clock by one tick of the kernel (1 to 10 ms), so a file that was written just now may still change unseen.
GRAIN = 12_000_000
TRIES = 60


class Busy(Exception):
    """The register was not still during any try: try again later."""


@dataclass
class Changes:
    """The rows that began or ended after a stamp, up to the stamp of a committed state."""
    stamp: int
    next: int
    moments: list                       # (stamp, next), ascending
    rows: dict                          # table name: rows
    how: str = "scan"                   # or "log", or "idle" if nothing has changed
    frames: int = 0
    tries: int = 1


class Source:
    def __init__(self, file, by_copy=False, scratch=None):
        self.file = os.path.abspath(file)
        self.by_copy, self.scratch = by_copy, scratch
        self.log = Log(self.file)
        self.checked = None             # the identity of the file whose schema was checked

    # ---- safety

    def check_permissions(self):
        """Raises an error if this user can write the file, its log or their folder."""
        for path in (self.file, self.log.path, os.path.dirname(self.file)):
            if os.access(path, os.W_OK, effective_ids=True):
                raise MirrorError(
                    f"the user {os.geteuid()} can write {path}. SQLite with write permission deletes the log of a served register, and "
                    "answered acts are lost. Run the mirror as a user that can only read the file, its log and their folder")

    def identity(self):
        """Returns what changes if the file is replaced by another one."""
        it = os.stat(self.file)
        return it.st_dev, it.st_ino

    def version(self):
        """Returns what changes with each write to the file."""
        it = os.stat(self.file)
        return it.st_mtime_ns, it.st_ctime_ns, it.st_size, it.st_dev, it.st_ino

    # ---- opening

    @contextlib.contextmanager
    def _in_place(self):
        base = sqlite3.connect(f"file:{quote(self.file)}?vfs=unix-none&mode=ro", uri=True, isolation_level=None)
        try:
            base.execute("PRAGMA locking_mode=exclusive")       # the index of the log is in memory, not in a shared file
            base.execute("PRAGMA cache_size=-65536")
            yield base
        finally:
            base.close()

    @contextlib.contextmanager
    def copy(self):
        """Opens a copy of file and log that is one committed state."""
        self.check_permissions()
        with tempfile.TemporaryDirectory(prefix="land-mirror-", dir=self.scratch) as folder:
            copy = os.path.join(folder, "copy.land")
            for _ in range(TRIES):
                before, identity = self.log.header(), self.identity()
                shutil.copyfile(self.file, copy)
                with contextlib.suppress(FileNotFoundError):
                    os.remove(copy + "-wal")
                if before:
                    shutil.copyfile(self.log.path, copy + "-wal")
                if self.log.header() == before and self.identity() == identity:
                    break
                time.sleep(0.01)
            else:
                raise Busy(f"the log was restarted during each of {TRIES} copies")
            base = sqlite3.connect(f"file:{quote(copy)}", uri=True, isolation_level=None)
            try:
                base.execute("PRAGMA cache_size=-65536")
                yield base
            finally:
                base.close()

    def check_schema(self, base):
        """Raises an error if the file does not have the tables of this version."""
        try:
            found = base.execute("SELECT version FROM edition").fetchall()
        except sqlite3.OperationalError as error:
            raise MirrorError(f"{self.file} is not a register: {error}") from None
        if found != [(VERSION,)]:
            raise MirrorError(f"{self.file} has schema version {found}, and the mirror reads version {VERSION}: run `land migrate`")
        for table in TABLES:
            names = tuple(row[1] for row in base.execute(f"PRAGMA table_info({table.name})"))
            if names != table.names:
                raise MirrorError(f"table {table.name} of {self.file} has the columns {names}, and the mirror reads {table.names}")

    # ---- reading

    def read(self, last, by_copy=None, scan=False):
        """Returns the changes after `last`, a pair (stamp, next), or all rows if it is None.

        Raises Refused if the register is not a continuation of `last`, and Busy if it was never still."""
        by_copy = self.by_copy if by_copy is None else by_copy
        for turn in range(TRIES):
            self.check_permissions()
            head, version = self.log.header(), self.version()
            if not by_copy and abs(time.time_ns() - version[0]) < GRAIN:
                time.sleep(GRAIN / 1e9)
                continue
            mark = self.log.end()
            try:
                with self.copy() if by_copy else self._in_place() as base:
                    base.execute("BEGIN")
                    changes = self._changes(base, last, scan)
                    base.execute("COMMIT")
            except sqlite3.Error as error:
                if self._is_still(head, version) or by_copy:
                    raise MirrorError(f"{self.file} cannot be read: {error}. Run `land check` on a copy of it") from None
                changes = None
            except (Refused, MirrorError):
                if by_copy or self._is_still(head, version):
                    raise
                changes = None              # read during a checkpoint
            if changes and (by_copy or self._is_still(head, version)):
                self.log.mark = mark
                changes.tries = turn + 1
                return changes
            time.sleep(0.003)
        raise Busy(f"the register was written during each of {TRIES} reads")

    def _is_still(self, head, version):
        return self.log.header() == head and self.version() == version

    def _changes(self, base, last, scan):
        if self.checked != self.identity():
            self.check_schema(base)
        stamp, = base.execute("SELECT max(stamp) FROM moments").fetchone()
        if stamp is None:
            raise MirrorError(f"{self.file} has no moment: it is not a register")
        if last is not None:
            if stamp < last[0]:
                raise Refused(f"the last stamp of the register is {stamp}, before the mirror's {last[0]}: an older copy was restored")
            if base.execute("SELECT next FROM moments WHERE stamp = ?", (last[0],)).fetchone() != (last[1],):
                raise Refused(f"the register has no moment {last[0]} with next {last[1]}: it has another history than the mirror")
        after = last[0] if last is not None else -1
        moments = base.execute("SELECT stamp, next FROM moments WHERE stamp > ? ORDER BY stamp", (after,)).fetchall()
        if last is not None and not moments:
            return Changes(stamp, last[1], [], {}, "idle")
        changes = None
        if not scan and last is not None:
            with contextlib.suppress(Unreadable):
                rowids, frames = self.log.changed_rows()
                changes = Changes(stamp, moments[-1][1], moments, self._by_rowid(base, rowids, after), "log", frames)
                if not is_complete(changes, last):
                    changes = None
        self.checked = self.identity()
        return changes or Changes(stamp, moments[-1][1], moments, self._by_scan(base, after))

    @staticmethod
    def _by_rowid(base, rowids, after):
        rows = {}
        for table in TABLES:
            some = rowids.get(len(table.names))
            rows[table.name] = base.execute(
                f"SELECT {', '.join(table.names)} FROM {table.name} WHERE rowid IN (SELECT value FROM json_each(?2)) "
                f"AND (since > ?1 OR (until > ?1 AND until < {OPEN}))", (after, json.dumps(sorted(some)))).fetchall() if some else []
        return rows

    @staticmethod
    def _by_scan(base, after):
        return {table.name: base.execute(
            f"SELECT {', '.join(table.names)} FROM {table.name} WHERE since > ?1 OR (until > ?1 AND until < {OPEN})", (after,)).fetchall()
            for table in TABLES}


def is_complete(changes, last):
    """Returns whether each moment has a row that begins or ends at it, and each new number an object. Every act changes a row."""
    stamps, numbers = set(), set()
    for table in TABLES:
        for row in changes.rows[table.name]:
            stamps.update(row[-2:])
            if table.name in NUMBERED:
                numbers.add(row[0])
    return stamps.issuperset(stamp for stamp, _ in changes.moments) and numbers.issuperset(range(last[1], changes.next))


def quote(path):
    """Escapes a path for a URI of SQLite."""
    return path.replace("%", "%25").replace("?", "%3f").replace("#", "%23")
