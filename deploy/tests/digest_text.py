#!/usr/bin/env python3
"""The digest of a register's history, computed from its file by SQL: a second implementation of `land_digest`.

    digest_text.py FILE [STAMP]          prints the last stamp at or before STAMP and the digest of the history up to it
    digest_text.py --text FILE [STAMP]   prints the text that is hashed
"""
import hashlib
import math
import sqlite3
import sys

KEYS = {"party": 1, "role": 2, "member": 2, "unit": 1, "parcel": 1, "rrr": 1, "source": 1, "mutation": 1, "names": 2, "mandate": 2}
ROLES = ["citizen", "conveyancer", "notary", "bank", "certifiedSurveyor", "stateAdministrator"]
SHARES = {"member": 0, "rrr": 3}  # where the numerator of a share is among the columns after the key


def field(value):
    """Returns the text of a column: a number is followed by `;`, a string is preceded by its length in bytes and `:`."""
    if value is None:
        return b"~"
    return b"%d;" % value if isinstance(value, int) else b"%d:%s" % (len(value.encode()), value.encode())


def rows(file, table, keys):
    """Yields the two numbers of the key, the other columns, the start and the end of each version. A share is in lowest terms."""
    for *columns, since, until in file.execute(f"SELECT * FROM {table}"):
        if table == "role":
            columns[1] = ROLES.index(columns[1])
        key, values = (columns[:keys] + [0])[:2], columns[keys:]
        share = SHARES.get(table)
        if share is not None and values[share] is not None:
            divisor = math.gcd(*values[share:share + 2])
            values[share:share + 2] = [part // divisor for part in values[share:share + 2]]
        yield key, values, since, until


def text(file, upto):
    """Returns a line for each moment, start and end up to a stamp, by stamp, starts before ends, by table and by key."""
    events = [(stamp, 0, 0, 0, 0, [number]) for stamp, number in file.execute("SELECT stamp, next FROM moments")]
    for table, (name, keys) in enumerate(KEYS.items(), 1):
        for key, values, since, until in rows(file, name, keys):
            events += [(since, 0, table, *key, values), (until, 1, table, *key, [])]
    lines = sorted((event for event in events if event[0] <= upto), key=lambda event: event[:5])
    return b"".join(b"".join(map(field, [*line[:5], *line[5]])) + b"\n" for line in lines)


def main(arguments):
    shows_text = arguments[:1] == ["--text"]
    name, *stamps = arguments[shows_text:]
    file = sqlite3.connect(f"file:{name}?mode=ro", uri=True)
    limit = int(stamps[0]) if stamps else 4102444799999
    stamp = file.execute("SELECT max(stamp) FROM moments WHERE stamp <= ?", (limit,)).fetchone()[0] or 0
    it = text(file, stamp)
    if shows_text:
        sys.stdout.buffer.write(it)
    else:
        print(f"digest: {stamp} {hashlib.sha256(it).hexdigest()}")


if __name__ == "__main__":
    main(sys.argv[1:])
