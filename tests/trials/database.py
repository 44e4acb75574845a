#!/usr/bin/env python3
"""Tries the database file of the built program's `serve`: opened again, read by sqlite3, and spoiled.

usage: tests/trials/database.py PROGRAM
"""

import contextlib
import json
import os
import random
import resource
import shutil
import sqlite3
import stat
import subprocess
import sys
import tempfile

sys.path.append(os.path.join(os.path.dirname(os.path.abspath(__file__)), "..", "lib"))

from conversations import ASYNC, B, BIND, GET_CATALOG, I, LATER, LEAVE, REPORT, SUCCEEDED, SYNC, SYNC_LEAVE
from conversations import FETCHED_LARGE, LARGE, LARGE_PARAMETERS, MEMORY_1, SYNC_BIND, UPDATE, X, Y
from conversations import REFUSED_REPLY, at, listed, operation, reply, request, with_context
from serving import SETTINGS, Serving, new_database, passed_over, refused_lines, tell

VERSION_1 = os.path.join(os.path.dirname(os.path.abspath(__file__)), "version-1.sql")
R = at("r")
G = at("g")
CREDENTIALS = '{"state":"succeeded","credentials":{"k":"v"}}'
IN_PROGRESS = '{"state":"in progress"}'
FETCHED = '{"parameters":{},"plan_id":"p-sync","service_id":"svc"}'

# An instance with a binding, one whose creation runs, and one that is gone.
BEGUN = [
    ("PUT", I + LATER, with_context(ASYNC, X), 202, operation("create-1")),
    ("PUT", REPORT + "1", SUCCEEDED, 200, "{}"),
    ("PUT", B + LATER, with_context(BIND, Y), 202, operation("bind-2")),
    ("PUT", REPORT + "2", CREDENTIALS, 200, "{}"),
    ("PUT", R + LATER, ASYNC, 202, operation("create-1")),
    ("PUT", G, with_context(SYNC, X), 201, "{}"),
    ("DELETE", G + SYNC_LEAVE, "", 200, "{}"),
]

# What the tables then have, in the order of their keys.
TABLES = {
    "format": [(2,)],
    "orders": [
        ("g", 1, 1, "", "svc", "p-sync", "o", "s", "{}", "", 1, "", "{}"),
        ("g", 2, 3, "", "svc", "p-sync", "o", "s", "{}", "", 1, "", "{}"),
        ("i", 1, 1, "", "svc", "p-async", "o", "s", "{}", "1.2.0", 1, "", "{}"),
        ("i", 2, 4, "b", "svc", "p-async", "", "{}", "{}", "", 1, "", '{"k":"v"}'),
        ("r", 1, 1, "", "svc", "p-async", "o", "s", "{}", "1.2.0", 0, "", "{}"),
    ],
    "instances": [
        ("g", 0, 0, 2, "", "", "", "", "", ""),
        ("i", 2, 0, 2, "svc", "p-async", "o", "s", "{}", "1.2.0"),
        ("r", 1, 1, 1, "svc", "p-async", "o", "s", "{}", "1.2.0"),
    ],
    "bindings": [("i", "b", 2, "svc", "p-async", "", "{}", "{}", '{"k":"v"}')],
    "contexts": [
        ("g", 0, ""),
        ("g", 1, X),
        ("g", 2, X),
        ("i", 0, X),
        ("i", 1, X),
        ("i", 2, Y),
        ("r", 0, "{}"),
        ("r", 1, "{}"),
    ],
}

# The tables and indexes of version 2, in the order in which they stand in the schema. SQLite names the
# indexes of the keys.
NAMES = [
    "format",
    "orders",
    "sqlite_autoindex_orders_1",
    "instances",
    "sqlite_autoindex_instances_1",
    "bindings",
    "sqlite_autoindex_bindings_1",
    "contexts",
    "sqlite_autoindex_contexts_1",
    "busy_instances",
    "subject_orders",
]

CONTEXTS_TABLE = (
    "CREATE TABLE contexts (instance_id TEXT NOT NULL, seq INTEGER NOT NULL, context TEXT NOT NULL, "
    "PRIMARY KEY (instance_id, seq)) STRICT"
)

# The indexes beside those of the keys, in the order in which they were made.
INDEXES = [
    "CREATE INDEX busy_instances ON instances (busy, instance_id)",
    "CREATE INDEX subject_orders ON orders (instance_id, binding_id, kind, seq)",
]

# What is answered from these tables, and changes nothing.
ASKED_AGAIN = [
    ("GET", I, "", 200, '{"parameters":{},"plan_id":"p-async","service_id":"svc"}'),
    ("GET", B, "", 200, '{"credentials":{"k":"v"},"parameters":{}}'),
    ("PUT", B + LATER, BIND, 200, '{"credentials":{"k":"v"}}'),
    ("GET", R + "/last_operation", "", 200, IN_PROGRESS),
    ("PUT", R + LATER, ASYNC, 202, operation("create-1")),
    ("GET", G + "/last_operation", "", 410, "{}"),
]


def report(instance, number):
    return f"/backend/v1/orders/{instance}/{number}"


# What is answered from the file that version-1.sql makes, and changes nothing.
MADE_BEFORE = [
    ("GET", at("bound"), "", 200, '{"parameters":{},"plan_id":"p-async","service_id":"svc"}'),
    ("GET", at("bound/service_bindings/b"), "", 200, '{"credentials":{"k":"v"},"parameters":{}}'),
    ("GET", at("bound/service_bindings/c"), "", 404, "{}"),
    ("GET", at("failed/last_operation"), "", 200, '{"description":"no disk","state":"failed"}'),
    ("GET", at("gone/last_operation"), "", 410, "{}"),
    ("PUT", at("new") + LATER, ASYNC, 202, operation("create-1")),
    ("PUT", at("small/service_bindings/b"), SYNC_BIND, 200, MEMORY_1),
    ("PATCH", at("updated") + LATER, UPDATE, 202, operation("update-2")),
    (
        "GET",
        "/backend/v1/orders",
        "",
        200,
        '{"orders":[{"app_guid":"","bind_resource":{},"binding_id":"c","instance_id":"bound","kind":"bind",'
        '"parameters":{},"plan_id":"p-async","seq":3,"service_id":"svc"},'
        '{"instance_id":"new","kind":"create","maintenance_version":"1.2.0","organization_guid":"o",'
        '"parameters":{},"plan_id":"p-async","seq":1,"service_id":"svc","space_guid":"s"},'
        '{"instance_id":"updated","kind":"update","maintenance_version":"1.2.0","organization_guid":"o",'
        '"parameters":{"n":1},"plan_id":"p-async","seq":2,"service_id":"svc","space_guid":"s"}]}',
    ),
]

# What ran in it goes on.
GOES_ON = [
    ("PUT", report("bound", 3), CREDENTIALS, 200, "{}"),
    ("GET", at("bound/service_bindings/c"), "", 200, '{"credentials":{"k":"v"},"parameters":{}}'),
    ("PUT", report("new", 1), SUCCEEDED, 200, "{}"),
    ("GET", at("new"), "", 200, '{"parameters":{},"plan_id":"p-async","service_id":"svc"}'),
    ("PUT", report("updated", 2), SUCCEEDED, 200, "{}"),
    ("GET", at("updated"), "", 200, '{"parameters":{"n":1},"plan_id":"p-async","service_id":"svc"}'),
    ("DELETE", at("failed") + LEAVE, "", 202, operation("delete-2")),
]


def goes(serving, conversation):
    """What each request of a conversation is answered, and should be."""
    for method, target, body, status, text in conversation:
        found = serving.sends(request(method, target, body))
        yield f"{method} {target}", found, reply(status, text)


def run(path, *statements):
    """Runs statements of SQL on a database, by Python's sqlite3."""
    with contextlib.closing(sqlite3.connect(path, timeout=0.1)) as connection:
        for statement in statements:
            connection.execute(statement)
        connection.commit()


def tables(path, names=TABLES):
    """The rows of each table, by Python's sqlite3, or why it doesn't read them."""
    try:
        with contextlib.closing(sqlite3.connect(path, timeout=0.1)) as connection:
            rows = {name: connection.execute(f"SELECT * FROM {name}") for name in names}
            return {name: sorted(found) for name, found in rows.items()}
    except sqlite3.Error as error:
        return str(error)


def content(path):
    """The schema and all rows of a database, whatever it has."""
    with contextlib.closing(sqlite3.connect(path)) as connection:
        schema = sorted(connection.execute("SELECT type, name, sql FROM sqlite_schema"), key=repr)
        named = [name for kind, name, _ in schema if kind == "table"]
        connection.text_factory = bytes
        return schema, [sorted(connection.execute(f"SELECT * FROM {name}")) for name in named]


def indexes(path):
    """What made the indexes beside those of the keys, in the schema's order."""
    with contextlib.closing(sqlite3.connect(path)) as connection:
        made = connection.execute("SELECT sql FROM sqlite_schema WHERE type = 'index' AND sql IS NOT NULL ORDER BY rowid")
        return [row[0] for row in made]


def names(path):
    """The names of the tables and the indexes, in the schema's order."""
    with contextlib.closing(sqlite3.connect(path)) as connection:
        return [row[0] for row in connection.execute("SELECT name FROM sqlite_schema ORDER BY rowid")]


def integrity(path):
    """What the integrity checks of Python's sqlite3 and of the program sqlite3 say."""
    with contextlib.closing(sqlite3.connect(path)) as connection:
        said = [row[0] for row in connection.execute("PRAGMA integrity_check")]
    words = ["sqlite3", path, "PRAGMA integrity_check"]
    said += subprocess.run(words, capture_output=True, text=True, check=True).stdout.splitlines()
    return set(said)


def copied(path, folder):
    """A copy of a database: its file, and where there is one the log beside it."""
    copy = new_database(folder)
    for ending in ("", "-wal"):
        if os.path.exists(path + ending):
            shutil.copy(path + ending, copy + ending)
    return copy


def starts(program, database, settings=SETTINGS, listen="127.0.0.1:0", cwd=None, more=()):
    """How the program ends that can't serve over this database, or its first line, which one that serves has."""
    words = ["--settings", settings, "--database", database, "--listen", listen, *more]
    with subprocess.Popen([program, "serve", *words], stdout=subprocess.PIPE, stderr=subprocess.PIPE, cwd=cwd) as process:
        try:
            first = process.stdout.readline()
            if first:
                return first
            output, errors = process.communicate(timeout=60)
            return process.returncode, output, errors
        finally:
            process.kill()


REFUSED = (1, b"", b"database: 1 Refused\n")
MISSING = (1, b"", b"database: 3 Missing\n")
NOT_OURS = (1, b"", b"database: 2 NotOurs\n")


def try_reopened(program, folder):
    """Stopped and started again, it goes on where it was."""
    path = new_database(folder)
    created = ("PUT", I + LATER, ASYNC, 202, operation("create-1"))
    with Serving(program, path) as serving:
        yield from goes(serving, [created])
    with Serving(program, path) as serving:
        polled = ("GET", I + "/last_operation", "", 200, IN_PROGRESS)
        yield from goes(serving, [polled, created])
    once = Serving(program, path, "--connections", "1")
    yield "listens again", once.listens(), True
    yield from goes(once, [("PUT", REPORT + "1", SUCCEEDED, 200, "{}")])
    yield "ends by itself", once.ended()[0], 0
    with Serving(program, path) as serving:
        yield from goes(serving, [("GET", I + "/last_operation", "", 200, SUCCEEDED)])


def try_reading(program, folder, path):
    """What sqlite3 reads while the program runs and after it."""
    with Serving(program, path) as serving:
        yield from goes(serving, BEGUN)
        yield "locked for sqlite3", tables(path), "database is locked"
        yield "locked for another broker", starts(program, path), REFUSED
        # No request is in flight, so what lies in the two files is the whole database.
        yield "a copy", tables(copied(path, folder)), TABLES
        yield "the copy's integrity", integrity(copied(path, folder)), {"ok"}
    files = sorted(os.listdir(os.path.dirname(path)))
    yield "the files", files, ["broker.db", "broker.db-wal"]
    kept = copied(path, folder)
    yield "read after the program", tables(kept), TABLES
    yield "one file is left", os.listdir(os.path.dirname(kept)), ["broker.db"]
    for name in (path, kept):
        with Serving(program, name) as serving:
            yield from goes(serving, ASKED_AGAIN)
        yield "nothing is changed", tables(copied(name, folder)), TABLES


ORDER = "INSERT INTO orders SELECT instance_id, 2, 2, '', service_id, plan_id, place, spot, params, maint, {state}, '', '{{}}' FROM orders WHERE instance_id = 'r'"
ITS_CONTEXT = "INSERT INTO contexts VALUES ('r', 2, '{}')"

# Databases that aren't of well-formed lives: what is done to the tables above.
SPOILED = {
    "a phase of another order": ["UPDATE instances SET phase = 2 WHERE instance_id = 'r'"],
    "a running order that isn't busy": ["UPDATE instances SET busy = 0 WHERE instance_id = 'r'"],
    "an ended order that is busy": ["UPDATE instances SET busy = 1 WHERE instance_id = 'i'"],
    "another last number": ["UPDATE instances SET last_seq = 3 WHERE instance_id = 'i'"],
    "another space": ["UPDATE instances SET space = 't' WHERE instance_id = 'i'"],
    "other credentials": ["UPDATE bindings SET credentials = '{}'"],
    "an instance without a row": [
        "DELETE FROM instances WHERE instance_id = 'i'",
        "DELETE FROM contexts WHERE instance_id = 'i' AND seq = 0",
    ],
    "an instance without a row but with a context": ["DELETE FROM instances WHERE instance_id = 'i'"],
    "an absent instance without a row": [
        "DELETE FROM instances WHERE instance_id = 'g'",
        "DELETE FROM contexts WHERE instance_id = 'g' AND seq = 0",
    ],
    "a row without an instance": [
        "INSERT INTO instances VALUES ('z', 0, 0, 0, '', '', '', '', '', '')",
        "INSERT INTO contexts VALUES ('z', 0, '')",
    ],
    "a binding without a row": ["DELETE FROM bindings"],
    "a row without a binding": [
        "INSERT INTO bindings VALUES ('i', 'c', 2, 'svc', 'p-async', '', '{}', '{}', '{}')"
    ],
    "a number left out": [
        "UPDATE orders SET seq = 3 WHERE instance_id = 'i' AND seq = 2",
        "UPDATE contexts SET seq = 3 WHERE instance_id = 'i' AND seq = 2",
        "UPDATE instances SET last_seq = 3 WHERE instance_id = 'i'",
    ],
    "two running orders": [
        ORDER.format(state=0),
        ITS_CONTEXT,
        "UPDATE instances SET last_seq = 2, phase = 4 WHERE instance_id = 'r'",
    ],
    "an order behind a running one": [
        ORDER.format(state=1),
        ITS_CONTEXT,
        "UPDATE instances SET last_seq = 2, phase = 2, busy = 0 WHERE instance_id = 'r'",
    ],
    "an order of an absent instance": [
        "INSERT INTO orders VALUES ('g', 3, 2, '', 'svc', 'p-sync', 'o', 's', '{}', '', 1, '', '{}')",
        "INSERT INTO contexts VALUES ('g', 3, '{}')",
        "UPDATE instances SET last_seq = 3 WHERE instance_id = 'g'",
    ],
    "a first order that creates nothing": ["UPDATE orders SET kind = 2 WHERE instance_id = 'r'"],
    "an id that is no id text": [
        "UPDATE orders SET instance_id = char(7) WHERE instance_id = 'r'",
        "UPDATE instances SET instance_id = char(7) WHERE instance_id = 'r'",
        "UPDATE contexts SET instance_id = char(7) WHERE instance_id = 'r'",
    ],
    "an empty id": [
        "UPDATE orders SET instance_id = '' WHERE instance_id = 'r'",
        "UPDATE instances SET instance_id = '' WHERE instance_id = 'r'",
        "UPDATE contexts SET instance_id = '' WHERE instance_id = 'r'",
    ],
    "a text that isn't compact": [
        "UPDATE orders SET params = '{ }' WHERE instance_id = 'r'",
        "UPDATE instances SET params = '{ }' WHERE instance_id = 'r'",
    ],
    "parameters that are no object": [
        "UPDATE orders SET params = '[]' WHERE instance_id = 'r'",
        "UPDATE instances SET params = '[]' WHERE instance_id = 'r'",
    ],
    "an order without its context": ["DELETE FROM contexts WHERE instance_id = 'i' AND seq = 2"],
    "an instance without a context": ["DELETE FROM contexts WHERE instance_id = 'i' AND seq = 0"],
    "an absent instance without one": ["DELETE FROM contexts WHERE instance_id = 'g' AND seq = 0"],
    "no contexts": ["DELETE FROM contexts"],
    "contexts alone": [f"DELETE FROM {name}" for name in ("orders", "instances", "bindings")],
    "a context without an order": ["INSERT INTO contexts VALUES ('i', 3, '{}')"],
    "a context without an instance": ["INSERT INTO contexts VALUES ('z', 0, '')"],
    "a context that isn't compact": ["UPDATE contexts SET context = '{ }' WHERE instance_id = 'r'"],
    "a context that is no object": ["UPDATE contexts SET context = '[]' WHERE instance_id = 'r'"],
    "an empty context": ["UPDATE contexts SET context = '' WHERE instance_id = 'r'"],
    "a binding's context that isn't compact": ["UPDATE contexts SET context = '{ }' WHERE seq = 2 AND instance_id = 'i'"],
    "an unlike context that stands": ["UPDATE contexts SET context = '{}' WHERE instance_id = 'i' AND seq = 0"],
    "an unlike context of a creation": ["UPDATE contexts SET context = '{}' WHERE instance_id = 'i' AND seq = 1"],
    "an absent instance with a context": ["UPDATE contexts SET context = '{}' WHERE instance_id = 'g' AND seq = 0"],
    "version 0": ["UPDATE format SET version = 0"],
    "version 1": ["UPDATE format SET version = 1"],
    "version 1 with contexts and one index": ["DROP INDEX subject_orders", "UPDATE format SET version = 1"],
    "version 1 with contexts and no index": [
        *[f"DROP INDEX {name}" for name in ("subject_orders", "busy_instances")],
        "UPDATE format SET version = 1",
    ],
    "version 3": ["UPDATE format SET version = 3"],
    "no version": ["DELETE FROM format"],
    "two versions": ["INSERT INTO format VALUES (2)"],
    "a table is missing": ["DROP TABLE bindings"],
    "the table of contexts is missing": ["DROP TABLE contexts"],
    "the table of contexts behind the indexes": [
        *[f"DROP INDEX {name}" for name in ("subject_orders", "busy_instances")],
        "ALTER TABLE contexts RENAME TO moved",
        *INDEXES,
        CONTEXTS_TABLE,
        "INSERT INTO contexts SELECT * FROM moved",
        "DROP TABLE moved",
    ],
    "a further table": ["CREATE TABLE more (a TEXT)"],
    "a further index": ["CREATE INDEX more ON orders (kind)"],
    "only the second index": ["DROP INDEX busy_instances"],
    "the indexes in another order": [
        "DROP INDEX busy_instances",
        "CREATE INDEX busy_instances ON instances (busy, instance_id)",
    ],
    "an index of that name on other columns": [
        "DROP INDEX subject_orders",
        "CREATE INDEX subject_orders ON orders (instance_id, binding_id, seq, kind)",
    ],
    "a further view": ["CREATE VIEW more AS SELECT 1 AS a"],
    "statistics": ["ANALYZE"],
    "a kind of 0": ["UPDATE orders SET kind = 0 WHERE instance_id = 'r'"],
    "a kind that is none": ["UPDATE orders SET kind = 6 WHERE instance_id = 'r'"],
    "a state that is none": ["UPDATE orders SET state = 3 WHERE instance_id = 'r'"],
    "a phase that is none": ["UPDATE instances SET phase = 9 WHERE instance_id = 'i'"],
    "busy twice": ["UPDATE instances SET busy = 2 WHERE instance_id = 'r'"],
    "an absent instance with a text": ["UPDATE instances SET plan_id = 'p' WHERE instance_id = 'g'"],
    "a binding's phase of 0": ["UPDATE bindings SET phase = 0"],
    "a binding's phase that is none": ["UPDATE bindings SET phase = 5"],
}

# The columns of each table that are numbers, and those that are texts.
NUMBERS = {
    "format": ["version"],
    "orders": ["seq", "kind", "state"],
    "instances": ["phase", "busy", "last_seq"],
    "bindings": ["phase"],
    "contexts": ["seq"],
}
TEXTS = {
    "orders": ["instance_id", "binding_id", "service_id", "plan_id", "place", "spot", "params", "maint", "note", "credentials"],
    "instances": ["instance_id", "service_id", "plan_id", "organization", "space", "params", "maint"],
    "bindings": ["instance_id", "binding_id", "service_id", "plan_id", "app_guid", "bind_resource", "params", "credentials"],
    "contexts": ["instance_id", "context"],
}


def last_row(table):
    return f"WHERE rowid = (SELECT max(rowid) FROM {table})"


def out_of_range(tables):
    """Numbers that aren't of 32 bits, in one row of each of these tables."""
    for table in tables:
        for column in NUMBERS[table]:
            # (in 32 bits the last one is what was there)
            for number in (-1, 1 << 32, -(1 << 63), (1 << 63) - 1, f"{column} + {1 << 32}"):
                yield f"{column} of {table}: {number}", f"UPDATE {table} SET {column} = {number} {last_row(table)}"


def not_utf_8(tables):
    """A text that isn't UTF-8, in one row of each of these tables."""
    for table in tables:
        for column in TEXTS.get(table, []):
            yield f"{column} of {table} isn't UTF-8", f"UPDATE {table} SET {column} = CAST(x'ff' AS TEXT) {last_row(table)}"


def unreadable(tables):
    """A rowid below 0, in one row of each of these tables."""
    for table in tables:
        yield f"a rowid of {table} below 0", f"UPDATE {table} SET rowid = -1 {last_row(table)}"


def no_rows(tables):
    """What is done to a row so that it is none of ours or can't be read, each with how a start ends."""
    yield from ((*it, NOT_OURS) for it in out_of_range(tables))
    yield from ((*it, NOT_OURS) for it in not_utf_8(tables))
    yield from ((*it, REFUSED) for it in unreadable(tables))


# What is done to a file of version 1.
SPOILED_BEFORE = {
    "version 0 without contexts": ["UPDATE format SET version = 0"],
    "version 2 without contexts": ["UPDATE format SET version = 2"],
    "version 3 without contexts": ["UPDATE format SET version = 3"],
    "two versions before": ["INSERT INTO format VALUES (2)"],
    "no version before": ["DELETE FROM format"],
    "version 1 with contexts": [CONTEXTS_TABLE],
    "a phase of another order before": ["UPDATE instances SET phase = 2 WHERE instance_id = 'new'"],
    "a binding without a row before": ["DELETE FROM bindings WHERE instance_id = 'small'"],
    "a table of bindings that is missing before": ["DROP TABLE bindings"],
    "an order of no instance before": ["DELETE FROM instances WHERE instance_id = 'new'"],
    "an instance of no order before": ["DELETE FROM orders WHERE instance_id = 'new'"],
}
# The same, where it has both indexes.
SPOILED_WITH_INDEXES = {
    "only the second index before": ["DROP INDEX busy_instances"],
    "version 2 with contexts behind the indexes": [
        CONTEXTS_TABLE,
        "UPDATE format SET version = 2",
        "INSERT INTO contexts SELECT instance_id, 0, iif(phase = 0, '', '{}') FROM instances",
        "INSERT INTO contexts SELECT instance_id, seq, '{}' FROM orders",
    ],
}
TABLES_BEFORE = ["format", "orders", "instances", "bindings"]

# What may be done to the file without a change of its rows.
HARMLESS = {
    "no second index": ["DROP INDEX subject_orders"],
    "no index": ["DROP INDEX subject_orders", "DROP INDEX busy_instances"],
    "written anew": ["VACUUM"],
    "with a rollback journal": ["PRAGMA journal_mode = DELETE"],
    "in one file": ["PRAGMA wal_checkpoint(TRUNCATE)"],
}


def backed_up(source, target):
    source.backup(target)


def dumped(source, target):
    """It makes the tables in the order of their names."""
    target.executescript("\n".join(source.iterdump()))


def made_from(path, folder, make):
    """Another file that Python's sqlite3 makes from the database."""
    other = new_database(folder)
    with contextlib.closing(sqlite3.connect(copied(path, folder))) as source:
        with contextlib.closing(sqlite3.connect(other)) as target:
            make(source, target)
    return other


def refuses_spoiled(program, folder, path, spoiled):
    """Each of these copies of a database is refused and stays as it is."""
    for name, statements in spoiled.items():
        copy = copied(path, folder)
        run(copy, *statements)
        before = content(copy)
        yield name, starts(program, copy), NOT_OURS
        yield f"{name} stays", content(copy), before


def try_spoiled(program, folder, path):
    """What doesn't stand for well-formed lives isn't taken, and stays as it is."""
    yield from refuses_spoiled(program, folder, path, SPOILED)
    for count in range(len(INDEXES) + 1):
        yield from refuses_spoiled(program, folder, made_before(folder, count), SPOILED_BEFORE)
    yield from refuses_spoiled(program, folder, made_before(folder, 2), SPOILED_WITH_INDEXES)
    other = made_from(path, folder, dumped)
    yield "another order of the tables", starts(program, other), NOT_OURS
    first = made_before(folder, 2)
    for made, version, has in [(path, 2, TABLES), (first, 1, TABLES_BEFORE)]:
        for name, statement, ended in no_rows(has):
            copy = copied(made, folder)
            run(copy, statement)
            before = content(copied(copy, folder))
            yield f"version {version}, {name}", starts(program, copy), ended
            yield f"version {version}, {name}: it stays", content(copy), before


# More orders than a start reads at once, and the ids at which it ends one piece and begins the next.
MANY, LONG = 10_000, 5_000
NUMBERED = "n{:05}".format
ENDS = ["long", NUMBERED(4_095), NUMBERED(8_191)]
BEGINS = [NUMBERED(0), NUMBERED(4_096), NUMBERED(8_192)]
# Less than all rows take, and more than a piece.
FEW_BYTES = 32_000_000

# A life that is longer than a piece was wronged, or one where pieces meet, or a row that no piece would have.
WRONGED = {
    "the last order of a long life runs": f"UPDATE orders SET state = 0 WHERE instance_id = 'long' AND seq = {LONG}",
    "a long life lacks an order": f"DELETE FROM orders WHERE instance_id = 'long' AND seq = {LONG - 1}",
    **{f"another last number of {it}": f"UPDATE instances SET last_seq = 9 WHERE instance_id = '{it}'" for it in ENDS + BEGINS},
    **{f"no order of {it}": f"DELETE FROM orders WHERE instance_id = '{it}'" for it in ENDS + BEGINS},
    "an id that isn't UTF-8 where a piece ends": f"UPDATE orders SET instance_id = CAST(x'{ENDS[1].encode().hex()}ff' AS TEXT) WHERE instance_id = '{ENDS[1]}'",
    "no context where a piece ends": f"DELETE FROM contexts WHERE instance_id = '{ENDS[1]}' AND seq = 0",
    "no row where a piece begins": f"DELETE FROM instances WHERE instance_id = '{BEGINS[2]}'",
    "a binding behind all orders": "INSERT INTO bindings VALUES ('z', 'b', 2, 'svc', 'p-sync', '', '{}', '{}', '{}')",
    "an order without an id": f"UPDATE orders SET instance_id = '' WHERE instance_id = '{BEGINS[1]}'",
    "a context without an id": f"UPDATE contexts SET instance_id = '' WHERE instance_id = '{BEGINS[1]}' AND seq = 0",
}


def order_rows(instance, count):
    """A creation and updates, and their contexts."""
    for number in range(1, count + 1):
        kind = 1 if number == 1 else 2
        yield "orders", (instance, number, kind, "", "svc", "p-sync", "o", "s", "{}", "", 1, "", "{}")
        yield "contexts", (instance, number, "{}")


def instance_rows(instance, count):
    yield "instances", (instance, 2, 0, count, "svc", "p-sync", "o", "s", "{}", "")
    yield "contexts", (instance, 0, "{}")


def make_pieces(path, filled=("orders", "instances", "contexts")):
    """The rows of many lives, and of a long one, come in no order, with gaps between their numbers."""
    chance = random.Random(57)
    lives = [("long", LONG), *((NUMBERED(number), 1) for number in range(MANY))]
    rows = [it for life in lives for part in (order_rows, instance_rows) for it in part(*life)]
    numbers = chance.sample(range(100, 10 * len(rows)), len(rows))
    with contextlib.closing(sqlite3.connect(path)) as conn:
        for table in filled:
            names = ", ".join(name for _, name, *_ in conn.execute(f"PRAGMA table_info({table})"))
            of_table = [(number, *row) for number, (other, row) in zip(numbers, rows) if other == table]
            marks = ", ".join("?" * len(of_table[0]))
            conn.executemany(f"INSERT INTO {table} (rowid, {names}) VALUES ({marks})", of_table)
        conn.commit()


def few_bytes():
    resource.setrlimit(resource.RLIMIT_DATA, (FEW_BYTES, FEW_BYTES))


def try_pieces(program, folder, path):
    """Rows of many lives are taken where each piece of them is as it has to be, and in little memory."""
    many = copied(path, folder)
    make_pieces(many)
    asked = [("GET", at(it), "", 200, FETCHED) for it in [*ENDS, *BEGINS, NUMBERED(MANY - 1)]]
    with Serving(program, copied(many, folder), preexec_fn=few_bytes) as serving:
        yield from goes(serving, ASKED_AGAIN + asked)
    for name, statement in WRONGED.items():
        copy = copied(many, folder)
        run(copy, statement)
        yield name, starts(program, copy), NOT_OURS


def try_harmless(program, folder, path):
    """A file of the same tables and rows is taken, whatever made it."""
    others = {"backed up": made_from(path, folder, backed_up)}
    for name, statements in HARMLESS.items():
        others[name] = copied(path, folder)
        run(others[name], *statements)
    for name, other in others.items():
        with Serving(program, other) as serving:
            yield from goes(serving, ASKED_AGAIN)
        yield name, tables(copied(other, folder)), TABLES
        yield f"{name}: the indexes", indexes(copied(other, folder)), INDEXES
        yield f"{name}: the schema", names(copied(other, folder)), NAMES


def made_before(folder, count):
    """A file that this program made while version 1 was the only one, with so many indexes beside those of the keys."""
    path = new_database(folder)
    with open(VERSION_1, encoding="utf-8") as file:
        lines = [line for line in file if line.rstrip(";\n") not in INDEXES[count:]]
    subprocess.run(["sqlite3", path], input="".join(lines), text=True, check=True)
    return path


def migrated(before):
    """The tables of version 2 by those of version 1: no order and no instance has a context, and an absent
    instance has none."""
    standing = [(row[0], 0, "{}" if row[1] else "") for row in before["instances"]]
    of_orders = [(row[0], row[1], "{}") for row in before["orders"]]
    return {**before, "format": [(2,)], "contexts": sorted(standing + of_orders)}


def try_migrated(program, folder, path, expected):
    """A file that was brought to version 2 is served on, whatever is done to it without a change of its rows."""
    yield "its schema", names(copied(path, folder)), NAMES
    yield "its table of contexts", CONTEXTS_TABLE in [row[2] for row in content(copied(path, folder))[0]], True
    yield "its integrity", integrity(copied(path, folder)), {"ok"}
    for name, statements in HARMLESS.items():
        other = copied(path, folder)
        run(other, *statements)
        with Serving(program, other) as serving:
            yield from goes(serving, MADE_BEFORE)
        yield f"migrated, {name}", tables(copied(other, folder)), expected
        yield f"migrated, {name}: the schema", names(copied(other, folder)), NAMES


def try_made_before(program, folder):
    """The forms of files of version 1 that this program ever made are brought to version 2 and served on."""
    for count in range(len(INDEXES) + 1):
        path = made_before(folder, count)
        yield f"{count} indexes before", indexes(path), INDEXES[:count]
        expected = migrated(tables(path, TABLES_BEFORE))
        with Serving(program, path) as serving:
            yield from goes(serving, MADE_BEFORE)
            yield "nothing else is changed", tables(copied(path, folder)), expected
        yield f"both indexes after {count}", indexes(copied(path, folder)), INDEXES
        yield from try_migrated(program, folder, path, expected)
        with Serving(program, path) as serving:
            yield from goes(serving, GOES_ON)
        yield "its integrity in the end", integrity(copied(path, folder)), {"ok"}
    empty = made_before(folder, len(INDEXES))
    run(empty, *(f"DELETE FROM {name}" for name in ("orders", "instances", "bindings")))
    with Serving(program, empty, "--existing") as serving:
        yield from goes(serving, BEGUN)
    yield "version 1 without rows", tables(copied(empty, folder)), TABLES


def try_pieces_before(program, folder):
    """Rows of version 1 of many lives are brought to version 2 where each piece of them is as it has to be, and in
    little memory."""
    many = made_before(folder, len(INDEXES))
    make_pieces(many, ("orders", "instances"))
    kept, expected = copied(many, folder), migrated(tables(copied(many, folder), TABLES_BEFORE))
    with Serving(program, kept, preexec_fn=few_bytes) as serving:
        yield from goes(serving, MADE_BEFORE)
    yield "many rows are brought to version 2", tables(copied(kept, folder)), expected
    for name, statement in WRONGED.items():
        if "context" not in name:
            copy = copied(many, folder)
            run(copy, statement)
            before = content(copied(copy, folder))
            yield f"version 1, {name}", starts(program, copy), NOT_OURS
            yield f"version 1, {name}: it stays", content(copied(copy, folder)), before


def try_others(program, folder):
    """Databases of others, and files that are none."""
    for made in ["CREATE TABLE orders (a)", "CREATE TABLE format (version INTEGER NOT NULL) STRICT"]:
        path = new_database(folder)
        run(path, made)
        yield made, starts(program, path), NOT_OURS
    yield "a folder", starts(program, folder), REFUSED
    yield "a folder that isn't there", starts(program, os.path.join(folder, "no", "file")), REFUSED
    yield "no name", starts(program, ""), REFUSED
    yield "in memory", starts(program, ":memory:", cwd=folder), REFUSED
    yield "no file for it", os.path.exists(os.path.join(folder, ":memory:")), False
    for content in [b"no database\n", b"SQLite format 3\x00" + bytes(5000)]:
        path = new_database(folder)
        with open(path, "wb") as file:
            file.write(content)
        yield "no database", starts(program, path), REFUSED
        with open(path, "rb") as file:
            yield "it stays", file.read(), content
    path = new_database(folder)
    open(path, "wb").close()
    with Serving(program, path) as serving:
        yield from goes(serving, BEGUN)


# A change with a rollback journal, whose program ends in the midst of it.
CUT_OFF = """
import os, sqlite3, sys
conn = sqlite3.connect(sys.argv[1], isolation_level=None)
for text in ("PRAGMA journal_mode = DELETE", "PRAGMA cache_size = 1", "BEGIN", "CREATE TABLE more (a)",
             "INSERT INTO more VALUES (zeroblob(100000))"):
    conn.execute(text)
os._exit(0)
"""


def try_beside(program, folder, path):
    """A file with a second name, and one with a journal that is to be rolled back, are refused and stay."""
    named, journalled = copied(path, folder), copied(path, folder)
    before = content(copied(path, folder))
    os.link(named, named + "-too")
    yield "a file with a second name", starts(program, named), REFUSED
    os.remove(named + "-too")
    yield "it stays", content(named), before
    subprocess.run([sys.executable, "-c", CUT_OFF, journalled], check=True)
    yield "a journal is left", os.path.getsize(journalled + "-journal") > 512, True
    yield "a file with a journal", starts(program, journalled), REFUSED
    yield "it can be rolled back", content(journalled), before


def modes(path):
    return [stat.S_IMODE(os.stat(path + ending).st_mode) for ending in ("", "-wal")]


def try_modes(program, folder):
    """A new file and its log are for their owner alone. One that is there keeps its mode, and its log has it."""
    path = new_database(folder)
    made = ("PUT", I, SYNC, 201, "{}")
    with Serving(program, path, preexec_fn=lambda: os.umask(0o022)) as serving:
        yield "the modes of a new file", modes(path), [0o600, 0o600]
        yield from goes(serving, [made])
    yield "the modes behind a change", modes(path), [0o600, 0o600]
    path = new_database(folder)
    open(path, "wb").close()
    os.chmod(path, 0o640)
    with Serving(program, path, preexec_fn=lambda: os.umask(0)) as serving:
        yield from goes(serving, [made])
        yield "the modes of a file that was there", modes(path), [0o640, 0o640]


def page_size(path):
    """That of a database file, by its header."""
    with open(path, "rb") as database:
        return int.from_bytes(database.read(18)[16:], "big")


def try_pages(program, folder):
    """A new file has small pages, also where an earlier start left its draft of one. One that is there keeps its pages."""
    made = ("PUT", I, SYNC, 201, "{}")
    path = new_database(folder)
    with open(path + "-new", "wb") as draft:
        draft.write(b"SQLite")
    with Serving(program, path) as serving:
        yield from goes(serving, [made])
        yield "the draft of a new file", os.path.exists(path + "-new"), False
    yield "the pages of a new file", page_size(path), 1024
    path = new_database(folder)
    open(path, "wb").close()
    with Serving(program, path) as serving:
        yield from goes(serving, [made])
    yield "the pages of a file that was made empty", page_size(path), 4096
    with Serving(program, path) as serving:
        yield from goes(serving, [("PUT", I, SYNC, 200, "{}")])
    yield "the pages of a file that was there", page_size(path), 4096
    path = new_database(folder)
    os.mkdir(path + "-new")
    with Serving(program, path) as serving:
        yield from goes(serving, [made])
    yield "the pages of a file whose draft can't be made", page_size(path), 4096


def replaced(path):
    shutil.copy(path, path + ".copy")
    os.replace(path + ".copy", path)


def renamed_folder(path):
    folder = os.path.dirname(path)
    os.rename(folder, folder + ".old")


def removed_log(path):
    os.remove(path + "-wal")


def replaced_log(path):
    replaced(path + "-wal")


def renamed_log(path):
    os.rename(path + "-wal", path + "-wal.old")


# What is done to the file or its log while the program runs.
TAKEN_AWAY = {
    "removed": os.remove,
    "replaced by a copy": replaced,
    "renamed": lambda path: os.rename(path, path + ".old"),
    "in a folder that is renamed": renamed_folder,
    "its log removed": removed_log,
    "its log replaced by a copy": replaced_log,
    "its log renamed": renamed_log,
}


def unanswered(serving, sent):
    """What is read of a connection that may be ended in any way."""
    try:
        return serving.sends(sent)
    except ConnectionError:
        return b""


def how_it_ended(serving):
    """The status and the lines on standard error of a program that ends by itself. One that still answers serves."""
    try:
        status, _, errors = serving.ended()
        return status, errors
    except subprocess.TimeoutExpired:
        if unanswered(serving, GET_CATALOG):
            return "it serves"
        raise


def try_taken_away(program, folder):
    """The program ends before it answers over a file that isn't at its name any more."""
    again = ("PUT", I, SYNC, 200, "{}")
    for name, take in TAKEN_AWAY.items():
        path = new_database(folder)
        with Serving(program, path) as serving:
            yield from goes(serving, [("PUT", I, SYNC, 201, "{}")])
            # It is the same file, whatever its times and its mode are.
            os.utime(path, (0, 0))
            os.chmod(path, 0o640)
            for ending in ("", "-wal"):
                os.rename(path + ending, path + ".aside")
                os.rename(path + ".aside", path + ending)
            yield from goes(serving, [again])
            take(path)
            yield f"{name}: a reply", unanswered(serving, request(*again[:3])), b""
            yield name, how_it_ended(serving), (1, b"database: new\ndatabase: 1 Refused\n")


def try_put_back(program, folder):
    """A file that was moved away is put back with all that was answered, whatever was started meanwhile."""
    path = new_database(folder)
    with Serving(program, path) as serving:
        yield from goes(serving, [("PUT", I, SYNC, 201, "{}")])
        os.rename(path, path + ".old")
        yield "moved away: a reply", unanswered(serving, request("PUT", I, SYNC)), b""
        yield "moved away", how_it_ended(serving), (1, b"database: new\ndatabase: 1 Refused\n")
    before = state_of(path)
    for more in ((), ("--existing",)):
        yield "a start over its log", starts(program, path, more=more), REFUSED
    yield "its log is looked at", looked_at(program, path), unseen("a log without its file")
    yield "nothing is made", state_of(path), before
    os.rename(path + ".old", path)
    with Serving(program, path) as serving:
        yield from goes(serving, [("GET", I, "", 200, FETCHED)])


def try_emptied(program, folder):
    """An empty file beside a log with changes is refused, and stays. One beside the head of a log is a new database."""
    path = new_database(folder)
    with Serving(program, path) as serving:
        yield from goes(serving, [("PUT", I, SYNC, 201, "{}")])
    kept = copied(path, folder)
    os.truncate(path, 0)
    before = state_of(path)
    for more in ((), ("--existing",)):
        yield "an emptied file", starts(program, path, more=more), REFUSED
    yield "an emptied file is looked at", looked_at(program, path), unseen("a log without its file")
    yield "an emptied file stays", state_of(path), before
    shutil.copy(kept, path)
    with Serving(program, path) as serving:
        yield from goes(serving, [("GET", I, "", 200, FETCHED)])
    os.truncate(path, 0)
    os.truncate(path + "-wal", 32)
    with Serving(program, path) as serving:
        yield from goes(serving, [("GET", I, "", 404, "{}")])


def said_by(program, path, *more):
    """What a program that answers one request says on standard error."""
    serving = Serving(program, path, "--connections", "1", *more)
    listens = serving.listens()
    if listens:
        serving.sends(request("GET", I, ""))
    return listens, serving.ended()[2]


def try_new(program, folder):
    """A database that is begun is reported, and with --existing none is begun."""
    is_new, is_kept = (True, b"database: new\n"), (True, b"")
    path = new_database(folder)
    yield "no file, an existing one asked for", starts(program, path, more=["--existing"]), MISSING
    yield "none is made", os.listdir(os.path.dirname(path)), []
    yield "no file", said_by(program, path), is_new
    yield "the same again", said_by(program, path), is_kept
    yield "an existing one", said_by(program, path, "--existing"), is_kept
    path = new_database(folder)
    open(path, "wb").close()
    yield "an empty file is looked at", looked_at(program, path), (0, b"new\n", b"")
    yield "an empty file, an existing one asked for", starts(program, path, more=["--existing"]), MISSING
    yield "it stays empty", {name: len(found[0]) for name, found in state_of(path).items()}, {"broker.db": 0}
    yield "an empty file", said_by(program, path), is_new
    path = new_database(folder)
    run(path, "CREATE TABLE more (a)", "DROP TABLE more")
    yield "no tables are looked at", looked_at(program, path), (0, b"new\n", b"")
    yield "no tables, an existing one asked for", starts(program, path, more=["--existing"]), MISSING
    yield "no tables", said_by(program, path), is_new
    link = os.path.join(tempfile.mkdtemp(dir=folder), "link.db")
    os.symlink(path, link)
    yield "by a link", said_by(program, link, "--existing"), is_kept


def try_large(program, folder):
    """Parameters and a context of 200,000 bytes are found again at the next start."""
    path = new_database(folder)
    with Serving(program, path) as serving:
        yield from goes(serving, LARGE_PARAMETERS[:2])
    with Serving(program, path) as serving:
        yield from goes(serving, LARGE_PARAMETERS[2:])
    with Serving(program, path) as serving:
        yield from goes(serving, [("GET", I, "", 200, FETCHED_LARGE)])
    yield "its integrity", integrity(copied(path, folder)), {"ok"}
    path = new_database(folder)
    large = with_context(ASYNC, LARGE)
    with Serving(program, path) as serving:
        yield from goes(serving, [("PUT", I + LATER, large, 202, operation("create-1"))])
    with Serving(program, path) as serving:
        shown = listed(1, "create", f'"context":{LARGE},')
        yield from goes(serving, [("GET", "/backend/v1/orders", "", 200, shown)])
        yield from goes(serving, [("PUT", I + LATER, ASYNC, 202, operation("create-1"))])


@contextlib.contextmanager
def small_disk(folder):
    """A folder that is a file system of 4 MB, and why there is none."""
    place = tempfile.mkdtemp(dir=folder)
    words = ["mount", "-t", "tmpfs", "-o", "size=4m", "none", place]
    mounted = subprocess.run(words, capture_output=True, text=True)
    try:
        yield place, mounted.stderr.strip()
    finally:
        if not mounted.returncode:
            subprocess.run(["umount", "--lazy", place], check=True)


def fill(path):
    """Writes a file until the disk is full."""
    with open(path, "wb", buffering=0) as file:
        with contextlib.suppress(OSError):
            while file.write(bytes(4096)):
                pass


def make_many(serving):
    """Makes instances until one isn't made: their names, the request for that one, and its reply."""
    made = []
    while True:
        name = f"{I}{len(made)}"
        sent = request("PUT", name, SYNC)
        found = serving.sends(sent)
        if found != reply(201, "{}") or len(made) == 1000:
            return made, sent, found
        made.append(name)


def try_full_disk(program, folder):
    """Changes are answered 500 while the disk is full, and are made once there is room."""
    with small_disk(folder) as (disk, lacking):
        if lacking:
            passed_over("database", "a full disk", "mount", why=lacking)
            return
        path = os.path.join(disk, "broker.db")
        with Serving(program, path) as serving:
            yield from goes(serving, [("PUT", I, SYNC, 201, "{}")])
            fill(os.path.join(disk, "filling"))
            made, sent, found = make_many(serving)
            known = [("GET", name, "", 200, FETCHED) for name in [I, *made]] + [("PUT", I, SYNC, 200, "{}")]
            yield "a change on a full disk", found, REFUSED_REPLY
            for _ in range(3):
                yield "the change again", serving.sends(sent), REFUSED_REPLY
                yield from goes(serving, known)
            os.remove(os.path.join(disk, "filling"))
            yield "the change with room", serving.sends(sent), reply(201, "{}")
        yield "the line of a change on a full disk", refused_lines(serving.errors)[:1], [("database: disk full", 1)]
        with Serving(program, path) as serving:
            yield from goes(serving, known)
            yield "the change after a start", serving.sends(sent), reply(200, "{}")


def try_full_disk_before(program, folder):
    """A file of version 1 stays one where the disk is full, and is brought to version 2 once there is room."""
    with small_disk(folder) as (disk, lacking):
        if lacking:
            passed_over("database", "a full disk under version 1", "mount", why=lacking)
            return
        path = os.path.join(disk, "broker.db")
        shutil.copy(made_before(folder, 2), path)
        before = content(copied(path, folder))
        fill(os.path.join(disk, "filling"))
        yield "version 1 on a full disk", starts(program, path), REFUSED
        yield "it stays version 1", content(copied(path, folder)), before
        os.remove(os.path.join(disk, "filling"))
        with Serving(program, path) as serving:
            yield from goes(serving, MADE_BEFORE)
            yield "version 2 with room", tables(copied(path, folder))["format"], [(2,)]


def settings_with(folder, plans):
    """A settings file with these plans alone."""
    with open(SETTINGS, encoding="utf-8") as file:
        settings = json.load(file)
    service = settings["catalog"]["services"][0]
    service["plans"] = [plan for plan in service["plans"] if plan["id"] in plans]
    settings["modes"] = {plan: settings["modes"][plan] for plan in plans}
    path = os.path.join(tempfile.mkdtemp(dir=folder), "settings.json")
    with open(path, "w", encoding="utf-8") as file:
        json.dump(settings, file)
    return path


def judged(program, path, settings, refused=None):
    """How `check` of a database ends with settings of one plan, beside how it has to: with the fault of a start."""
    status, lines, errors = looked_at(program, path)
    expected = (refused[0], lines, refused[2]) if refused else (status, lines, errors)
    return looked_at(program, path, settings), (expected[0], b"services 1, plans 1\n" + expected[1], expected[2])


def try_plans(program, folder):
    """Plans that are in use stay in the catalog."""
    path = new_database(folder)
    sync_only, async_only = (settings_with(folder, [plan]) for plan in ("p-sync", "p-async"))
    to_sync = '{"service_id":"svc","plan_id":"p-sync"}'
    with Serving(program, path) as serving:
        yield from goes(serving, [("PUT", I + LATER, ASYNC, 202, operation("create-1"))])
    in_use = (4, b"", b"plan in use: svc p-async\n")
    yield "a plan in use", starts(program, path, sync_only), in_use
    yield "before listening", starts(program, path, sync_only, "nowhere"), in_use
    yield "as `check` finds", *judged(program, path, sync_only, in_use)
    yield "all plans are there, as `check` finds", *judged(program, path, async_only)
    with Serving(program, path, settings=async_only) as serving:
        yield from goes(serving, [("PUT", REPORT + "1", SUCCEEDED, 200, "{}")])
    with Serving(program, path) as serving:
        changed = ("PATCH", I + LATER, to_sync, 202, operation("update-2"))
        yield from goes(serving, [changed])
    aimed = (4, b"", b"plan in use: svc p-sync\n")
    yield "the plan of a running update", starts(program, path, async_only), aimed
    yield "that as `check` finds", *judged(program, path, async_only, aimed)
    with Serving(program, path) as serving:
        failed = ("PUT", REPORT + "2", '{"state":"failed"}', 200, "{}")
        gone = ("DELETE", I + LEAVE, "", 202, operation("delete-3"))
        ended = ("PUT", REPORT + "3", SUCCEEDED, 200, "{}")
        yield from goes(serving, [failed, gone, ended])
    yield "a plan that isn't in use any more", *judged(program, path, sync_only)
    with Serving(program, path, settings=sync_only) as serving:
        yield from goes(serving, [("PUT", I, SYNC, 201, "{}")])


def looked_at(program, database, *words, given=None):
    """How `check` ends over a database file."""
    ended = subprocess.run([program, "check", "--database", database, *words], capture_output=True, timeout=60, preexec_fn=given)
    return ended.returncode, ended.stdout, ended.stderr


def unseen(cause):
    return 1, b"", f"database: 1 Refused\n{cause}\n".encode()


def state_of(path):
    """The bytes and the times of the files beside a path."""
    folder = os.path.dirname(path)
    found = {}
    for name in sorted(os.listdir(folder)):
        with open(os.path.join(folder, name), "rb") as file:
            found[name] = (file.read(), os.stat(file.name).st_mtime_ns)
    return found


def try_looked_at(program, folder, path):
    """What `check` says of a database, which it leaves as it is: of a copy, of the file of a broker that runs, and
    of what is none."""
    counts = (0, b"instances 2, bindings 1, running 1\n", b"")
    copy = copied(path, folder)
    before = state_of(copy)
    yield "a database is looked at", looked_at(program, copy), counts
    yield "it stays", state_of(copy), before
    both = looked_at(program, copy, SETTINGS)
    yield "with its settings", both, (0, b"services 1, plans 2\n" + counts[1], b"")
    with Serving(program, copy) as serving:
        yield "that of a broker that runs", looked_at(program, copy), counts
        yield from goes(serving, ASKED_AGAIN)
    old = made_before(folder, 2)
    before = state_of(old)
    yield "a database of version 1", looked_at(program, old)[0], 0
    yield "it stays version 1", state_of(old), before
    empty = new_database(folder)
    yield "no file", looked_at(program, empty), unseen("no such file")
    yield "a name with another meaning", looked_at(program, ":memory:"), unseen("no such file")
    yield "none is made", os.path.exists(empty), False
    open(empty, "wb").close()
    yield "an empty file", looked_at(program, empty), (0, b"new\n", b"")
    yield "it stays empty", os.path.getsize(empty), 0


def try_causes(program, folder, path):
    """Why a file isn't looked at, which `serve` refuses, too."""
    def refused(name, database, cause):
        yield name, looked_at(program, database), unseen(cause)
        yield f"{name}, served", starts(program, database), REFUSED

    yield from refused("a folder", folder, "a folder")
    yield from refused("a device", "/dev/null", "no regular file")
    named, journalled = copied(path, folder), copied(path, folder)
    os.link(named, named + "-too")
    yield from refused("a file with a second name", named, "it has two names")
    subprocess.run([sys.executable, "-c", CUT_OFF, journalled], check=True)
    yield from refused("a file with a journal", journalled, "a journal lies beside it")
    for content in [b"no database\n", b"SQLite format 3\x00" + bytes(5000)]:
        none = new_database(folder)
        with open(none, "wb") as file:
            file.write(content)
        yield from refused("no database", none, "no database")
    unread = copied(path, folder)
    run(unread, f"UPDATE orders SET rowid = -1 {last_row('orders')}")
    yield from refused("a row with a rowid below 0", unread, "a row that can't be read")
    other = new_database(folder)
    run(other, "CREATE TABLE orders (a)")
    yield "another database", looked_at(program, other), (*NOT_OURS[:2], NOT_OURS[2] + b"the tables of another program\n")
    written = copied(path, folder)
    for file in (written, written + "-wal"):
        os.chmod(file, 0o444)
    os.chmod(os.path.dirname(written), 0o755)
    os.chmod(folder, 0o755)
    if os.geteuid():
        passed_over("database", "files of another user", "root")
    else:
        yield "a file that can only be read", looked_at(program, written, given=lambda: os.setuid(65534)), looked_at(program, path)
        trimmed = subprocess.run([program, "trim", written], capture_output=True, timeout=60, preexec_fn=lambda: os.setuid(65534))
        yield "a trim of it", (trimmed.returncode, trimmed.stdout, trimmed.stderr), unseen("it can't be written to")
        os.chmod(written, 0)
        yield "a file that can't be read", looked_at(program, written, given=lambda: os.setuid(65534)), unseen("it belongs to another user")


def try_little_memory(program, folder, path):
    """A look at a database that gets too little memory blames no row of it."""
    many = copied(path, folder)
    make_pieces(many)
    found = set()
    for most in range(10_000_000, 110_000_000, 5_000_000):
        found.add(looked_at(program, many, given=lambda: resource.setrlimit(resource.RLIMIT_DATA, (most, most))))
    right = {looked_at(program, many), unseen("out of memory")}
    yield "a look in little memory", found - {(1, b"", b"osb-broker: out of memory\n")}, right


def try_order(program, folder):
    """Settings come before the database, and that before the address."""
    path = new_database(folder)
    run(path, "CREATE TABLE orders (a)")
    yield "the database first", starts(program, path, listen="nowhere"), NOT_OURS
    faulty = os.path.join(folder, "faulty.json")
    with open(faulty, "w", encoding="utf-8") as file:
        file.write("{}")
    lacking = (3, b"", b"settings: 2 Missing platform\n")
    yield "the settings first", starts(program, path, faulty), lacking
    fresh = new_database(folder)
    yield "no database is made", starts(program, fresh, faulty), lacking
    yield "none is there", os.path.exists(fresh), False


def tries(program):
    with tempfile.TemporaryDirectory() as folder:
        path = new_database(folder)
        yield from try_reopened(program, folder)
        yield from try_reading(program, folder, path)
        yield from try_spoiled(program, folder, path)
        yield from try_pieces(program, folder, path)
        yield from try_harmless(program, folder, path)
        yield from try_made_before(program, folder)
        yield from try_pieces_before(program, folder)
        yield from try_others(program, folder)
        yield from try_beside(program, folder, path)
        yield from try_looked_at(program, folder, path)
        yield from try_causes(program, folder, path)
        yield from try_little_memory(program, folder, path)
        yield from try_plans(program, folder)
        yield from try_order(program, folder)
        yield from try_large(program, folder)
        yield from try_modes(program, folder)
        yield from try_pages(program, folder)
        yield from try_taken_away(program, folder)
        yield from try_put_back(program, folder)
        yield from try_emptied(program, folder)
        yield from try_new(program, folder)
        yield from try_full_disk(program, folder)
        yield from try_full_disk_before(program, folder)


if __name__ == "__main__":
    sys.exit(tell("database", tries(os.path.abspath(sys.argv[1]))))
