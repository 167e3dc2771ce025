"""The PostgreSQL side of the feed: one transaction applies the changes of one tick together with the new stamp."""
import io

import psycopg2
import psycopg2.extras

from land_mirror import MirrorError, Refused
from land_mirror.tables import OPEN, TABLES

# The advisory lock of the feed: only one runs on a mirror.
LOCK = 7261


class Target:
    def __init__(self, dsn):
        try:
            self.db = psycopg2.connect(dsn, application_name="land-mirror feed")
        except psycopg2.OperationalError as error:
            raise MirrorError(f"cannot connect to PostgreSQL: {str(error).strip()}") from None
        self.cursor = self.db.cursor()

    def lock(self):
        """Takes the lock, or raises an error if another feed has it."""
        self.cursor.execute("SELECT pg_try_advisory_lock(%s)", (LOCK,))
        taken, = self.cursor.fetchone()
        self.db.commit()
        if not taken:
            raise MirrorError("another feed is connected to this mirror: stop it first")

    def state(self):
        """Returns the stamp and the next number of the mirror, or None if it is empty. Raises Refused if it was stopped."""
        try:
            self.cursor.execute("SELECT stamp, next, halted FROM reg.state")
        except psycopg2.errors.UndefinedTable:
            raise MirrorError("this database is not a mirror: run `land-mirror install`") from None
        row = self.cursor.fetchone()
        self.db.commit()
        if row and row[2]:
            raise Refused(f"the mirror was stopped: {row[2]}. Rebuild it: `land-mirror install --replace`, then start the feed")
        return row[:2] if row else None

    def halt(self, reason):
        """Marks the mirror as wrong: it answers no request any more."""
        self.db.rollback()
        self.cursor.execute("UPDATE reg.state SET halted = %s WHERE halted IS NULL", (reason[:500],))
        self.db.commit()

    def seen(self):
        """Records that the mirror was up to date now."""
        self.cursor.execute("UPDATE reg.state SET seen = clock_timestamp()")
        self.db.commit()

    def apply(self, last, changes):
        """Applies changes after `last` in one transaction. Returns the number of rows."""
        try:
            count = self._apply(last, changes)
            self.db.commit()
            return count
        except psycopg2.errors.IntegrityError as error:
            self.db.rollback()
            raise Refused(f"a row of the register conflicts with the mirror: {str(error).strip()}") from None
        except psycopg2.errors.RaiseException as error:
            self.db.rollback()
            raise Refused(f"the mirror refuses a row of the register: {str(error).strip()}") from None
        except Refused:
            self.db.rollback()
            raise

    def _apply(self, last, changes):
        after = last[0] if last is not None else -1
        self._copy("moments", ("stamp", "next"), changes.moments)
        count = 0
        for table in TABLES:
            rows = changes.rows.get(table.name, ())
            self._end(table, [row for row in rows if row[-2] <= after])
            self._copy(table.name, table.names, [row for row in rows if row[-2] > after])
            count += len(rows)
        if last is None:
            self.cursor.execute("INSERT INTO reg.state (stamp, next) VALUES (%s, %s)", (changes.stamp, changes.next))
        else:
            self.cursor.execute("UPDATE reg.state SET stamp = %s, next = %s, applied = clock_timestamp(), seen = clock_timestamp() "
                                "WHERE stamp = %s AND next = %s AND halted IS NULL", (changes.stamp, changes.next, *last))
            if self.cursor.rowcount != 1:
                raise Refused("the state of the mirror was changed by another program")
        return count

    def _copy(self, table, names, rows):
        if rows:
            lines = "".join("\t".join(map(_cell, row)) + "\n" for row in rows)
            self.cursor.copy_expert(f"COPY reg.{table} ({', '.join(names)}) FROM STDIN", io.StringIO(lines))

    def _end(self, table, rows):
        """Ends rows. Each row must be current in the mirror, with equal values in all columns."""
        if not rows:
            return
        key = (*table.key, "since")
        # `=` on the key uses the index, IS NOT DISTINCT FROM does not
        same = " AND ".join(f"t.{it} {'=' if it in key else 'IS NOT DISTINCT FROM'} v.{it}" for it in table.names[:-1])
        template = "(" + ", ".join(f"%s::{cast}" for cast in table.casts) + ")"
        done = psycopg2.extras.execute_values(
            self.cursor, f"UPDATE reg.{table.name} t SET until = v.until FROM (VALUES %s) v ({', '.join(table.names)}) "
            f"WHERE {same} AND t.until = {OPEN} RETURNING 1", rows, template=template, page_size=1000, fetch=True)
        if len(done) != len(rows):
            raise Refused(f"the register ends {len(rows)} rows of {table.name}, and only {len(done)} of them are current in the mirror")

    def refresh_statistics(self):
        self.cursor.execute("SELECT reg.refresh_statistics()")
        self.db.commit()


def _cell(value):
    if value is None:
        return r"\N"
    return str(value).replace("\\", "\\\\").replace("\t", "\\t").replace("\n", "\\n").replace("\r", "\\r")
