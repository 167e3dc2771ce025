"""Creates the database of a mirror, or replaces its policy and queries."""
import os

import psycopg2
from psycopg2 import sql

from land_mirror import MirrorError
from land_mirror.generate import generate

SQL = os.path.join(os.path.dirname(os.path.dirname(os.path.abspath(__file__))), "sql")


def read(name, **values):
    """Returns a file of sql/ with its {{placeholders}} filled."""
    with open(os.path.join(SQL, name), encoding="utf-8") as source:
        text = source.read()
    for key, value in values.items():
        text = text.replace("{{" + key + "}}", str(value))
    if "{{" in text:
        raise MirrorError(f"sql/{name} has a placeholder without a value: {text[text.index('{{'):][:40]}")
    return text


def connect(dsn, database):
    try:
        db = psycopg2.connect(dsn, dbname=database, application_name="land-mirror install")
    except psycopg2.OperationalError as error:
        raise MirrorError(f"cannot connect to PostgreSQL: {str(error).strip()}") from None
    db.autocommit = True
    return db, db.cursor()


def policy_text(options):
    if options.policy:
        with open(options.policy, encoding="utf-8") as source:
            return source.read()
    return generate(options.crates)


def install(options):
    """Creates a database with an empty mirror."""
    policy = policy_text(options)
    db, cursor = connect(options.dsn, "postgres")
    cursor.execute("SHOW is_superuser")
    if cursor.fetchone() != ("on",):
        raise MirrorError("`install` must run as a superuser of PostgreSQL, such as postgres: it creates roles, a database and extensions")
    cursor.execute(read("roles.sql"))
    cursor.execute("SELECT 1 FROM pg_database WHERE datname = %s", (options.database,))
    if cursor.fetchone():
        if not options.replace:
            raise MirrorError(f"database {options.database} exists: --replace drops it, and the feed then loads it again")
        cursor.execute(sql.SQL("DROP DATABASE {} WITH (FORCE)").format(sql.Identifier(options.database)))
    cursor.execute(sql.SQL("CREATE DATABASE {} TEMPLATE template0 ENCODING 'UTF8' LC_COLLATE 'C' LC_CTYPE 'C.UTF-8'")
                   .format(sql.Identifier(options.database)))
    db.close()
    db, cursor = connect(options.dsn, options.database)
    name = sql.Identifier(options.database)
    for statement in ("CREATE EXTENSION postgis", "CREATE EXTENSION pg_trgm", "REVOKE CREATE ON SCHEMA public FROM PUBLIC"):
        cursor.execute(statement)
    # any login could fill the disk with large objects
    cursor.execute("REVOKE EXECUTE ON FUNCTION lo_create(oid), lo_creat(int), lo_from_bytea(oid, bytea) FROM PUBLIC")
    for statement in ("REVOKE ALL ON DATABASE {} FROM PUBLIC", "GRANT CREATE, CONNECT ON DATABASE {} TO land_owner",
                      "GRANT CONNECT ON DATABASE {} TO land_feed, land_gateway, land_reader"):
        cursor.execute(sql.SQL(statement).format(name))
    run_as_owner(db, cursor, read("schema.sql", srid=int(options.srid)), policy)
    db.close()


def replace_policy(options):
    """Replaces the policy and the queries of a mirror in one transaction. The data stays."""
    policy = policy_text(options)
    db, cursor = connect(options.dsn, options.database)
    run_as_owner(db, cursor, "DROP SCHEMA IF EXISTS gate, citizen, conveyancer, notary, bank, surveyor, office CASCADE;\n"
                 "DROP SCHEMA policy CASCADE; CREATE SCHEMA policy;", policy)
    db.close()


def run_as_owner(db, cursor, *texts):
    db.autocommit = False
    cursor.execute("SET LOCAL ROLE land_owner")
    for text in texts:
        cursor.execute(text)
    db.commit()
    db.autocommit = True
