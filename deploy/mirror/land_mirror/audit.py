"""Compares all rows of the mirror with the register, cut at the mirror's stamp."""
import psycopg2

from land_mirror import MirrorError
from land_mirror.tables import OPEN, TABLES


def audit(source, dsn):
    """Returns the stamp of the mirror, the number of rows compared, and a list of the differences by table.

    The rows of the mirror are read in one snapshot, then the register is copied, so the copy is not older. Raises an error if it is."""
    with_db = psycopg2.connect(dsn, application_name="land-mirror audit")
    try:
        with_db.set_session(isolation_level="REPEATABLE READ", readonly=True)
        cursor = with_db.cursor()
        cursor.execute("SELECT stamp, next FROM reg.state")
        last = cursor.fetchone()
        if last is None:
            raise MirrorError("the mirror is empty: start the feed first")
        count, differences = 0, []
        with source.copy() as base:
            source.check_schema(base)
            base.execute("BEGIN")
            for name, names, wanted in rows_until(base, last[0]):
                cursor.execute(f"SELECT {', '.join(names)} FROM reg.{name}")
                mine = set(cursor.fetchall())
                count += len(wanted)
                if mine != wanted:
                    differences.append(describe(name, mine, wanted))
        return last[0], count, differences
    finally:
        with_db.close()


def rows_until(base, stamp):
    """Yields for each table of a register its name, its columns and the set of its rows as they were at a stamp."""
    yield "moments", ("stamp", "next"), set(base.execute("SELECT stamp, next FROM moments WHERE stamp <= ?", (stamp,)))
    for table in TABLES:
        rows = base.execute(f"SELECT {', '.join(table.names)} FROM {table.name} WHERE since <= ?", (stamp,))
        yield table.name, table.names, {row if row[-1] <= stamp else row[:-1] + (OPEN,) for row in rows}


def describe(name, mine, wanted):
    missing, added = wanted - mine, mine - wanted
    some = [f"{what} such as {sorted(rows, key=repr)[0]}" for what,
            rows in ((f"{len(missing)} missing", missing), (f"{len(added)} wrong", added))
            if rows]
    return f"{name}: {'; '.join(some)}"
