#!/usr/bin/env python3
"""Measures starts of several built programs over the same records: the seconds of the processor up to the first line,
and the most memory. Prints a table.

usage: measure/starts.py [--rounds N] [--folder F] [--instances N,..] [--orders N,..] [--context TEXT] NAME=PROGRAM..

Ids are UUIDs, and the orders of all instances come mixed. Each program starts over a copy of the same file. Of the
rounds the least seconds and the most memory stand in the table."""

import argparse
import os
import random
import shutil
import sqlite3
import subprocess
import sys
import tempfile
import uuid

from measure import free_port, serving

ORGANIZATION, SPACE = "5f2c7f3a-3b9e-4a67-9a0f-0d1c2b3a4f5e", "8d1e6c4b-7a2f-4c3d-9e8f-1a2b3c4d5e6f"
CREATE, UPDATE, READY, SUCCEEDED = 1, 2, 2, 1


def started(program, database):
    """The server, once it has written its first line."""
    server = subprocess.Popen(
        serving(program, free_port(), 1, database), stdout=subprocess.PIPE, stderr=subprocess.DEVNULL
    )
    if not server.stdout.readline():
        sys.exit("starts: a start failed")
    return server


def parameters(number):
    return "{}" if number == 1 else f'{{"n":{number}}}'


def order(instance, number):
    kind = CREATE if number == 1 else UPDATE
    attributes = ["svc", "p-sync", ORGANIZATION, SPACE, parameters(number), ""]
    return [instance, number, kind, "", *attributes, SUCCEEDED, "", "{}"]


def standing(instance, orders):
    return [instance, READY, 0, orders, "svc", "p-sync", ORGANIZATION, SPACE, parameters(orders), ""]


def insert(records, table, rows):
    for row in rows:
        records.execute(f"INSERT INTO {table} VALUES ({','.join('?' * len(row))})", row)


def fill(records, instances, orders, context):
    """Instances that were created and then updated, each order after a shuffle of the instances."""
    chance = random.Random(7)
    ids = [str(uuid.UUID(int=chance.getrandbits(128), version=4)) for _ in range(instances)]
    for number in range(1, orders + 1):
        insert(records, "orders", (order(it, number) for it in ids))
        insert(records, "contexts", ([it, number, context] for it in ids))
        chance.shuffle(ids)
    insert(records, "instances", (standing(it, orders) for it in ids))
    insert(records, "contexts", ([it, 0, context] for it in ids))


def make(program, database, instances, orders, context):
    """The program makes the tables, and SQLite fills them."""
    server = started(program, database)
    server.kill()
    server.wait()
    records = sqlite3.connect(database, isolation_level=None)
    records.execute("PRAGMA synchronous = OFF")
    records.execute("BEGIN")
    fill(records, instances, orders, context)
    records.execute("COMMIT")
    records.execute("PRAGMA wal_checkpoint(TRUNCATE)")
    records.close()


def measured(program, made, folder):
    """The seconds of the processor and the megabytes of one start."""
    database = os.path.join(folder, "started.db")
    shutil.copyfile(made, database)
    server = started(program, database)
    with open(f"/proc/{server.pid}/schedstat", encoding="ascii") as file:
        seconds = int(file.read().split()[0]) / 1e9
    with open(f"/proc/{server.pid}/status", encoding="ascii") as file:
        most = next(int(line.split()[1]) / 1024 for line in file if line.startswith("VmHWM"))
    server.kill()
    server.wait()
    for end in ("", "-wal", "-shm"):
        if os.path.exists(database + end):
            os.remove(database + end)
    return seconds, most


def row(*cells):
    print("|", " | ".join(map(str, cells)), "|", flush=True)


def starts(programs, options, folder):
    row("instances", "orders of each", "file", *[f"{name}: seconds, memory" for name in programs])
    row("---", "---", "---", *["---"] * len(programs))
    for instances, orders in ((one, other) for one in options.instances for other in options.orders):
        made = os.path.join(folder, f"{instances}-{orders}.db")
        make(list(programs.values())[-1], made, instances, orders, options.context)
        found = {name: [measured(it, made, folder) for _ in range(options.rounds)] for name, it in programs.items()}
        cells = [f"{min(it)[0]:.2f} s, {max(most for _, most in it):.0f} MB" for it in found.values()]
        row(f"{instances:,}", orders, f"{os.path.getsize(made) / 1e6:.1f} MB", *cells)
        os.remove(made)


def words():
    numbers = lambda text: [int(number) for number in text.split(",")]
    parser = argparse.ArgumentParser()
    parser.add_argument("--rounds", type=int, default=3)
    parser.add_argument("--folder", default=".")
    parser.add_argument("--instances", type=numbers, default=[1_000, 10_000, 100_000])
    parser.add_argument("--orders", type=numbers, default=[1, 4])
    parser.add_argument("--context", default="{}")
    parser.add_argument("programs", nargs="+", metavar="NAME=PROGRAM")
    return parser.parse_args()


def main():
    options = words()
    with tempfile.TemporaryDirectory(dir=options.folder) as folder:
        starts(dict(word.split("=", 1) for word in options.programs), options, folder)


if __name__ == "__main__":
    main()
