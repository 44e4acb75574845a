#!/usr/bin/env python3
"""Puts the instances of some databases of the broker into another number of them, for shards.

usage: examples/reshard.py OLD NEW N

OLD is a folder with copies of the databases, each with its log: 00.db, 00.db-wal, 01.db and so on. They were made while
no broker ran. NEW is a folder that isn't there yet. It gets N databases without logs, 00.db, 01.db and so on: each
instance goes where examples/haproxy-shards.cfg looks for it, by the CRC-32 of its id modulo N. Nothing of OLD is changed.
`osb-broker check --database` looks at each old one and each new one, and nothing may be more or fewer than before.

statuses: 0, all is in NEW; 1, something of OLD can't be taken over, as an instance that two of them have; 2, the words
aren't usable.
"""

import argparse
import os
import re
import shutil
import sqlite3
import subprocess
import sys
import tempfile
import zlib
from contextlib import closing
from pathlib import Path

# The table whose rows aren't by instance: it has the version.
FORMAT = "format"
# As the broker has it in new files.
PAGE_SIZE = 1024
COUNTS = re.compile(r"instances (\d+), bindings (\d+), running (\d+)\n")


class Refused(Exception):
    """Something of the old databases can't be taken over."""


def shard_of(instance, number):
    """Where HAProxy looks for an instance: the `crc32,mod(N)` of examples/haproxy-shards.cfg."""
    return zlib.crc32(instance.encode()) % number


def counts_of(path):
    """The instances, bindings and running orders that the broker counts in a database."""
    ran = subprocess.run(["osb-broker", "check", "--database", path], capture_output=True, text=True)
    found = COUNTS.fullmatch(ran.stdout)
    if ran.returncode or not found:
        raise Refused(f"{path.name}: {ran.stdout}{ran.stderr}".strip())
    return [int(number) for number in found.groups()]


def tables_of(database):
    """The tables whose rows are by instance."""
    rows = database.execute("SELECT name FROM sqlite_schema WHERE type = 'table' AND name <> ?", (FORMAT,))
    return [name for (name,) in rows]


def rows_of(path):
    """How many rows each of these tables has."""
    with closing(sqlite3.connect(path)) as database:
        return [database.execute(f"SELECT count(*) FROM {it}").fetchone()[0] for it in tables_of(database)]


def totals(of, paths):
    return [sum(each) for each in zip(*map(of, paths))]


def copied(old, place):
    """Copies of the old databases with their logs: sqlite3 may write to what it opens."""
    files = [path for path in old.iterdir() if path.name.endswith((".db", ".db-wal"))]
    for path in files:
        shutil.copy(path, place)
    return sorted({place / path.name.removesuffix("-wal") for path in files})


def begun(path, source):
    """A new database with the tables and indexes of another one, and its version."""
    database = sqlite3.connect(path, isolation_level=None)
    database.execute(f"PRAGMA page_size = {PAGE_SIZE}")
    database.execute("ATTACH ? AS source", (str(source),))
    statements = "SELECT sql FROM source.sqlite_schema WHERE sql IS NOT NULL ORDER BY rowid"
    for (sql,) in database.execute(statements).fetchall():
        database.execute(sql)
    database.execute(f"INSERT INTO main.{FORMAT} SELECT * FROM source.{FORMAT}")
    database.execute("DETACH source")
    return database


def take(database, source, is_here):
    """Takes the rows of the instances that belong here."""
    database.create_function("is_here", 1, is_here, deterministic=True)
    database.execute("ATTACH ? AS source", (str(source),))
    database.execute("BEGIN")
    for table in tables_of(database):
        database.execute(f"INSERT INTO main.{table} SELECT * FROM source.{table} WHERE is_here(instance_id)")
    database.execute("COMMIT")
    database.execute("DETACH source")


def make(path, sources, is_here):
    """Makes a database of the instances that belong there."""
    with closing(begun(path, sources[0])) as database:
        for source in sources:
            try:
                take(database, source, is_here)
            except sqlite3.Error as fault:
                raise Refused(f"{source.name}: {fault}") from fault


def reshard(old, new, number):
    """The counts of all instances, bindings and running orders, once they are in the new ones."""
    new.mkdir()
    targets = [new / f"{shard:02}.db" for shard in range(number)]
    with tempfile.TemporaryDirectory(dir=new) as place:
        sources = copied(old, Path(place))
        if not sources:
            raise Refused(f"{old} has no database")
        before = [totals(of, sources) for of in (counts_of, rows_of)]
        for shard, target in enumerate(targets):
            make(target, sources, lambda instance: shard_of(instance, number) == shard)
    after = [totals(of, targets) for of in (counts_of, rows_of)]
    if after != before:
        raise Refused(f"there were {before}, and there are {after}")
    return before[0]


def main():
    words = argparse.ArgumentParser(description="Puts the instances of some databases into another number of them.")
    words.add_argument("old", type=Path, help="the folder of the old databases")
    words.add_argument("new", type=Path, help="the folder of the new ones, which isn't there yet")
    words.add_argument("number", type=int, help="how many there will be, 100 at most")
    given = words.parse_args()
    if not 1 <= given.number <= 100:
        words.error("the number isn't 1 to 100")
    # Bindings have their credentials in it.
    os.umask(0o077)
    try:
        counts = reshard(given.old, given.new, given.number)
    except (Refused, OSError) as why:
        print(f"reshard: {why}", file=sys.stderr)
        return 1
    print("instances {}, bindings {}, running {}".format(*counts))
    return 0


if __name__ == "__main__":
    sys.exit(main())
