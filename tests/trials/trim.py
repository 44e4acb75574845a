#!/usr/bin/env python3
"""Tries `trim` of the built program: what it erases, that no answer changes, what it refuses, and stops at each call.

usage: tests/trials/trim.py PROGRAM

Random histories of requests are served, and their database is copied. One copy is trimmed, and both are asked the same
again, polls of each operation among it: each reply is the same. Nothing that a deleted instance was asked with is in the
bytes of the file. A trim that is stopped at any of its calls leaves the file as it was, or trimmed.
"""

import json
import os
import random
import shutil
import sqlite3
import stat
import subprocess
import sys
import tempfile

sys.path.append(os.path.join(os.path.dirname(os.path.abspath(__file__)), "..", "lib"))

from conversations import FAILED, I, SUCCEEDED, SYNC, SYNC_LEAVE, at, replies, reply, request
from database import BEGUN, MADE_BEFORE, NOT_OURS, TABLES
from database import copied, goes, integrity, looked_at, made_before, page_size, run, state_of, tables, unseen
from groups import requests_of
from serving import Serving, environment_with, new_database, tell

NO_TABLES = (1, b"", b"database: 3 Missing\nno tables yet\n")
# How many histories, the requests of each, and how many requests are made behind it.
HISTORIES, REQUESTS, MORE = 6, 400, 400
ORDERS = "/backend/v1/orders"
KINDS = ("create", "update", "delete", "bind", "unbind")
SECRET = "the-password-of-a-deleted-instance"
SECRET_SYNC = SYNC[:-1] + f',"parameters":{{"password":"{SECRET}"}},"context":{{"token":"{SECRET}"}}}}'
KEPT_SYNC = SYNC[:-1] + ',"parameters":{"password":"kept"}}'
# More calls than it makes.
MOST_CALLS = 1000
ERASED = ("-", "-", "-", "-", "{}", "")


def ends(program, *words, **process):
    """How `trim` ends with these words."""
    process = {"stdout": subprocess.PIPE, "stderr": subprocess.PIPE, "timeout": 600, **process}
    ended = subprocess.run([program, "trim", *words], check=False, **process)
    return ended.returncode, ended.stdout, ended.stderr


def size_with_log(path):
    """The bytes of a database file and its log."""
    return sum(os.path.getsize(it) for it in (path, f"{path}-wal") if os.path.exists(it))


def trimmed(count, before, path):
    """How it ends over a file, where it erases so many orders."""
    return 0, f"trimmed {count}, bytes {before}, now {os.path.getsize(path)}\n".encode(), b""


def beside(path):
    """What is in the folder of a file."""
    return sorted(os.listdir(os.path.dirname(path)))


def report(serving, chance):
    """Reports some of the orders that run."""
    for order in json.loads(replies(serving.sends(request("GET", ORDERS)))[0][1])["orders"]:
        if chance.random() < 0.5:
            state = chance.choice((SUCCEEDED, SUCCEEDED, FAILED))
            serving.sends(request("PUT", f"{ORDERS}/{order['instance_id']}/{order['seq']}", state))


def asked_behind(chance, most):
    """A request of any kind, or a report of any order."""
    if chance.random() < 0.7:
        return requests_of(chance)
    return request("PUT", f"{ORDERS}/{chance.choice('abcd')}/{chance.randrange(1, most + 10)}", SUCCEEDED)


def polls(most):
    """Polls of each operation that an instance or a binding may have had."""
    for instance in "abcd":
        for number in range(1, most + 1):
            for kind in KINDS:
                binding = "/service_bindings/x" if "bind" in kind else ""
                yield request("GET", f"{at(instance)}{binding}/last_operation?operation={kind}-{number}")


def erased_in(path):
    """How many orders of a file have nothing left of what they were asked with."""
    with sqlite3.connect(f"file:{path}?mode=ro&immutable=1", uri=True) as conn:
        return conn.execute("SELECT count(*) FROM orders WHERE service_id = '-'").fetchone()[0]


def try_histories(program, folder):
    """No answer changes, whatever is asked before and behind."""
    everything = 0
    for history in range(HISTORIES):
        chance = random.Random(history)
        path = new_database(folder)
        with Serving(program, path) as serving:
            for _ in range(REQUESTS):
                serving.sends(requests_of(chance))
                report(serving, chance)
        shorter = copied(path, folder)
        before = size_with_log(shorter)
        status, output, errors = ends(program, shorter)
        count = erased_in(shorter)
        everything += count
        yield f"history {history}: it ends", (status, output, errors), trimmed(count, before, shorter)
        yield f"history {history}: its integrity", integrity(copied(shorter, folder)), {"ok"}
        yield f"history {history}: its counts", looked_at(program, shorter), looked_at(program, path)
        most = max(row[1] for row in tables(copied(path, folder))["orders"])
        asked = [*polls(most), *(asked_behind(chance, most) for _ in range(MORE))]
        with Serving(program, path) as one, Serving(program, shorter, "--existing") as other:
            for number, sent in enumerate(asked):
                yield f"history {history}: reply {number}", replies(other.sends(sent)), replies(one.sends(sent))
    yield "orders were erased", everything > 100, True


def try_erased(program, folder):
    """What a deleted instance was asked with is gone, and what the others were asked with is there."""
    path = new_database(folder)
    with Serving(program, path) as serving:
        yield from goes(serving, BEGUN)
        yield "a secret", serving.sends(request("PUT", at("s"), SECRET_SYNC)), reply(201, "{}")
        yield "it is deleted", serving.sends(request("DELETE", at("s") + SYNC_LEAVE)), reply(200, "{}")
        yield "one that stays", serving.sends(request("PUT", at("t"), KEPT_SYNC)), reply(201, "{}")
    os.chmod(path, 0o640)
    before = size_with_log(path)
    yield "it ends", ends(program, path, preexec_fn=lambda: os.umask(0)), trimmed(4, before, path)
    yield "one file", beside(path), ["broker.db"]
    yield "its mode", stat.S_IMODE(os.stat(path).st_mode), 0o640
    yield "its pages", page_size(path), 1024
    with open(path, "rb") as file:
        content = file.read()
    yield "no secret is left", SECRET.encode() in content, False
    yield "the other is there", b'{"password":"kept"}' in content, True
    found = tables(copied(path, folder))
    orders = [row for row in found["orders"] if row[0] in "gs"]
    yield "what is left", {row[4:10] for row in orders}, {ERASED}
    others = [row for row in TABLES["orders"] if row[0] != "g"]
    yield "of the others", [row for row in found["orders"] if row[0] in "ir"], others
    yield "their rows", [it for it in found["instances"] if it[0] in "gir"], TABLES["instances"]
    yield "its bindings", found["bindings"], TABLES["bindings"]
    yield "its contexts", {it[2] for it in found["contexts"] if it[0] in "gs" and it[1]}, {"{}"}
    size = os.path.getsize(path)
    yield "once more", ends(program, path), (0, f"trimmed 0, bytes {size}, now {size}\n".encode(), b"")
    with Serving(program, path) as serving:
        yield "it can be created again", serving.sends(request("PUT", at("s"), SYNC)), reply(201, "{}")


def try_before(program, folder):
    """A file of version 1 becomes one of version 2."""
    path = made_before(folder, 1)
    before = size_with_log(path)
    status, output, errors = ends(program, path)
    yield "version 1", (status, output, errors), trimmed(erased_in(path), before, path)
    yield "it becomes version 2", tables(copied(path, folder))["format"], [(2,)]
    with Serving(program, path) as serving:
        yield from goes(serving, MADE_BEFORE)


def try_link(program, folder):
    """A link stays one, and the file to which it leads is trimmed."""
    path, link = new_database(folder), new_database(folder)
    with Serving(program, path) as serving:
        yield from goes(serving, BEGUN)
    os.symlink(path, link)
    before = size_with_log(path)
    yield "by a link", ends(program, link), trimmed(2, before, path)
    yield "it stays a link", os.path.realpath(link), path
    yield "one file", (beside(path), beside(link)), (["broker.db"], ["broker.db"])


def files_of(path):
    """The files beside a path, but for the log. An empty one may be made."""
    return {name: found for name, found in state_of(path).items() if not name.endswith("-wal")}


def refused(program, name, path, how):
    """It ends so over this file, which stays as it was."""
    before = files_of(path) if os.path.isfile(path) else None
    yield name, ends(program, path), how
    if before:
        yield f"{name}: it stays", files_of(path), before


def try_refused(program, folder):
    """What is no database of this broker, or none yet, or one that is in use."""
    path = new_database(folder)
    with Serving(program, path) as serving:
        yield from goes(serving, BEGUN)
        yield "one that is served", ends(program, path), unseen("in use")
        yield "it is served on", serving.sends(request("PUT", at("more"), SYNC)), reply(201, "{}")
    yield from refused(program, "no file", new_database(folder), unseen("no such file"))
    yield from refused(program, "a folder", folder, unseen("a folder"))
    empty = new_database(folder)
    open(empty, "wb").close()
    yield from refused(program, "an empty file", empty, NO_TABLES)
    text = new_database(folder)
    with open(text, "wb") as file:
        file.write(b"no database\n")
    yield from refused(program, "no database", text, unseen("no database"))
    other = new_database(folder)
    run(other, "CREATE TABLE orders (a)")
    yield from refused(program, "another database", other, NOT_OURS)
    spoiled = copied(path, folder)
    run(spoiled, "DELETE FROM instances WHERE instance_id = 'i'")
    yield from refused(program, "rows that don't belong together", spoiled, NOT_OURS)
    drafted = copied(path, folder)
    with open(drafted + "-new", "wb") as file:
        file.write(b"kept")
    how = 1, b"", f"osb-broker: already there {drafted}-new\n".encode()
    yield from refused(program, "a draft is there", drafted, how)
    for words in ((), (path, path)):
        status, output, errors = ends(program, *words)
        yield f"{len(words)} words", (status, output, b"Usage: osb-broker trim FILE" in errors), (2, b"", True)
    status, output, errors = ends(program, "--help")
    yield "its help", (status, b"No answer changes" in output, errors), (0, True, b"")


def try_stops(program, folder):
    """Stopped before any call, or in it, it leaves the file whole: as it was, or trimmed."""
    environment = environment_with(folder, "stops")
    path = new_database(folder)
    with Serving(program, path) as serving:
        yield from goes(serving, BEGUN)
    for part in ({}, {"PART": "1"}):
        found = set()
        for number in range(1, MOST_CALLS):
            again = copied(path, folder)
            status = ends(program, again, env={**environment, "STOP": str(number), **part})[0]
            if os.path.exists(again + "-new"):
                os.remove(again + "-new")
            rows = tables(copied(again, folder))
            was = rows == TABLES
            found.add(was)
            erased = [it for it in rows["orders"] if it[0] == "g" and it[4:10] == ERASED]
            yield f"stopped at call {number}", was or len(erased) == 2, True
            with Serving(program, again, "--existing") as serving:
                found_it = serving.sends(request("GET", I)).startswith(b"HTTP/1.1 200")
                yield f"served behind a stop at call {number}", found_it, True
            if status == 0:
                break
        yield "stops before it and behind it", found, {True, False}
        yield "calls", number > 10, True


def tries(program):
    with tempfile.TemporaryDirectory() as folder:
        yield from try_erased(program, folder)
        yield from try_before(program, folder)
        yield from try_link(program, folder)
        yield from try_refused(program, folder)
        yield from try_stops(program, folder)
        yield from try_histories(program, folder)


if __name__ == "__main__":
    sys.exit(tell("trim", tries(os.path.abspath(sys.argv[1]))))
