#!/usr/bin/env python3
"""Tries `backup` of the built program: of a file that nobody serves, of one under load, and of what it refuses.

usage: tests/trials/backup.py PROGRAM
"""

import os
import resource
import shutil
import sqlite3
import stat
import subprocess
import sys
import tempfile
import threading
import time

sys.path.append(os.path.join(os.path.dirname(os.path.abspath(__file__)), "..", "lib"))

from conversations import I, SYNC, at, reply, request
from database import ASKED_AGAIN, BEGUN, CUT_OFF, MADE_BEFORE, NOT_OURS, TABLES, TABLES_BEFORE
from database import copied, goes, integrity, looked_at, made_before, page_size, run, state_of, tables, unseen
from serving import Serving, new_database, passed_over, tell

COUNTS = (0, b"instances 2, bindings 1, running 1\n", b"")
NO_TABLES = (1, b"", b"database: 3 Missing\nno tables yet\n")
# How many clients make instances while backups are made, and how many backups.
CLIENTS = 8
BACKUPS = 20
# For how many seconds a backup may run on a machine that is busy.
SECONDS = 600
# How long a client waits between two instances.
PAUSE = 0.02


def ends(program, *words, **process):
    """How `backup` ends with these words."""
    process = {"stdout": subprocess.PIPE, "stderr": subprocess.PIPE, "timeout": SECONDS, **process}
    ended = subprocess.run([program, "backup", *words], check=False, **process)
    return ended.returncode, ended.stdout, ended.stderr


def place_in(folder):
    """A name for a backup, in a folder of its own where nothing is."""
    return os.path.join(tempfile.mkdtemp(dir=folder), "copy.db")


def beside(path):
    """What is in the folder of a file."""
    return sorted(os.listdir(os.path.dirname(path)))


def try_stopped(program, folder):
    """A backup of a file that nobody serves: its rows, its mode, what is beside it, and what it is good for."""
    path, to = new_database(folder), place_in(folder)
    with Serving(program, path) as serving:
        yield from goes(serving, BEGUN)
    before = state_of(path)
    yield "a database with its log", ends(program, path, to, preexec_fn=lambda: os.umask(0)), COUNTS
    yield "it stays", state_of(path), before
    yield "one file", beside(to), ["copy.db"]
    yield "its mode", stat.S_IMODE(os.stat(to).st_mode), 0o600
    yield "its pages", page_size(to), 1024
    yield "it is looked at", looked_at(program, to), COUNTS
    yield "its integrity", integrity(copied(to, folder)), {"ok"}
    yield "its rows", tables(copied(to, folder)), TABLES
    again = place_in(folder)
    yield "a backup of it", ends(program, to, again), COUNTS
    with open(to, "rb") as one, open(again, "rb") as other:
        yield "the same bytes", one.read() == other.read(), True
    with Serving(program, to) as serving:
        yield from goes(serving, ASKED_AGAIN)
    with Serving(program, again, "--existing") as serving:
        yield from goes(serving, [("PUT", at("more"), SYNC, 201, "{}")])
    relative = os.path.dirname(place_in(folder))
    yield "to a name without a folder", ends(program, path, "copy.db", cwd=relative), COUNTS
    yield "it is there", os.listdir(relative), ["copy.db"]


def try_served(program, folder):
    """A backup of the file of a broker that runs and that nobody asks anything."""
    path, to = new_database(folder), place_in(folder)
    with Serving(program, path) as serving:
        yield from goes(serving, BEGUN)
        yield "that of a broker that runs", ends(program, path, to), COUNTS
        yield from goes(serving, ASKED_AGAIN)
    yield "its rows", tables(copied(to, folder)), TABLES


class Load:
    """Clients that make, fetch and delete instances until they are told to end."""

    def __init__(self, serving):
        self.serving = serving
        self.ended = threading.Event()
        self.answered = [0] * CLIENTS
        self.wrong = []
        self.clients = [threading.Thread(target=self.go, args=(number,)) for number in range(CLIENTS)]

    def go(self, number):
        while not self.ended.is_set():
            instance = at(f"{number}-{self.answered[number]}")
            found = self.serving.sends(request("PUT", instance, SYNC))
            if found != reply(201, "{}"):
                self.wrong.append(found)
                return
            self.answered[number] += 1
            # (with more the log is copied more often than a busy machine reads both files)
            time.sleep(PAUSE)

    def __enter__(self):
        for client in self.clients:
            client.start()
        return self

    def __exit__(self, *_):
        self.ended.set()
        for client in self.clients:
            client.join()


def made_in(path):
    """The instances in a backup, each by its client, in the order of their making."""
    with sqlite3.connect(f"file:{path}?mode=ro&immutable=1", uri=True) as conn:
        rows = conn.execute("SELECT instance_id FROM instances").fetchall()
    found = [[] for _ in range(CLIENTS)]
    for (instance,) in rows:
        client, _, number = instance.partition("-")
        found[int(client)].append(int(number))
    return [sorted(it) for it in found]


def try_load(program, folder):
    """Backups while instances are made: each has what was answered before it began, and is whole."""
    path = new_database(folder)
    with Serving(program, path) as serving, Load(serving) as load:
        for _ in range(BACKUPS):
            to, before = place_in(folder), list(load.answered)
            status, counts, errors = ends(program, path, to)
            yield "under load", (status, errors), (0, b"")
            if status:
                return
            made = made_in(to)
            lacking = [(it, len(found)) for it, found in zip(before, made) if len(found) < it]
            yield "what was answered before is there", lacking, []
            yield "none is left out", [it == list(range(len(it))) for it in made], [True] * CLIENTS
            total = sum(map(len, made))
            yield "its counts", counts, f"instances {total}, bindings 0, running 0\n".encode()
            yield "it is looked at", looked_at(program, to), (0, counts, b"")
            yield "one file", beside(to), ["copy.db"]
    yield "every client was answered", load.wrong, []
    with Serving(program, to) as serving:
        yield "it is served", serving.sends(request("PUT", at("0-0"), SYNC)), reply(200, "{}")
    yield "its integrity", integrity(copied(to, folder)), {"ok"}


def try_before(program, folder):
    """A file of version 1 stays one, and is served."""
    path, to = made_before(folder, 2), place_in(folder)
    rows = tables(path, TABLES_BEFORE)
    status, counts, errors = ends(program, path, to)
    yield "a database of version 1", (status, errors), (0, b"")
    yield "its counts", looked_at(program, to), (0, counts, b"")
    yield "it stays version 1", tables(copied(to, folder), TABLES_BEFORE), rows
    with Serving(program, to) as serving:
        yield from goes(serving, MADE_BEFORE)


def refused(program, folder, name, path, how):
    """It ends so over this file, and makes nothing."""
    to = place_in(folder)
    yield name, ends(program, path, to), how
    yield f"{name}: nothing is made", beside(to), []


def try_refused(program, folder):
    """What is no database of this broker, or none yet."""
    path = new_database(folder)
    with Serving(program, path) as serving:
        yield from goes(serving, BEGUN)
    yield from refused(program, folder, "no file", new_database(folder), unseen("no such file"))
    yield from refused(program, folder, "a folder", folder, unseen("a folder"))
    empty = new_database(folder)
    open(empty, "wb").close()
    yield from refused(program, folder, "an empty file", empty, NO_TABLES)
    bare = new_database(folder)
    run(bare, "CREATE TABLE other (a)", "DROP TABLE other")
    yield from refused(program, folder, "a database without tables", bare, NO_TABLES)
    text = new_database(folder)
    with open(text, "wb") as file:
        file.write(b"no database\n")
    yield from refused(program, folder, "no database", text, unseen("no database"))
    other = new_database(folder)
    run(other, "CREATE TABLE orders (a)")
    yield from refused(program, folder, "another database", other, NOT_OURS)
    spoiled = copied(path, folder)
    run(spoiled, "DELETE FROM instances WHERE instance_id = 'i'")
    yield from refused(program, folder, "rows that don't belong together", spoiled, NOT_OURS)
    unread = copied(path, folder)
    run(unread, "UPDATE orders SET rowid = -1 WHERE rowid = (SELECT max(rowid) FROM orders)")
    yield from refused(program, folder, "a row with a rowid below 0", unread, unseen("a row that can't be read"))
    journalled = copied(path, folder)
    subprocess.run([sys.executable, "-c", CUT_OFF, journalled], check=True)
    yield from refused(program, folder, "a file with a journal", journalled, unseen("a journal lies beside it"))
    moved = copied(path, folder)
    os.remove(moved)
    yield from refused(program, folder, "a log without its file", moved, unseen("a log without its file"))


# How often a file that is written to is tried.
ATTEMPTS = 10
# Changes the time of a file again and again.
TOUCH = "import os, sys, time\nwhile True: os.utime(sys.argv[1], ns=(0, time.time_ns()))"


def try_in_use(program, folder):
    """A file that is written to all the time is given up. Several processes write to it, so that one does while another
    waits for a processor; and it takes some time to read. Where all of them wait for one, it is tried again."""
    path = new_database(folder)
    with open(path, "wb") as file:
        file.truncate(16 << 20)
    writers = [subprocess.Popen([sys.executable, "-c", TOUCH, path]) for _ in range(3)]
    try:
        time.sleep(0.2)
        for _ in range(ATTEMPTS):
            found = list(refused(program, folder, "a file that is written to", path, unseen("in use")))
            if all(got == expected for _, got, expected in found):
                break
        yield from found
    finally:
        for writer in writers:
            writer.kill()
            writer.wait()


def cannot(what, path):
    return 1, b"", f"osb-broker: {what} {path}\n".encode()


def try_places(program, folder):
    """Where the copy can't be made, nothing is made and what is there stays."""
    path = new_database(folder)
    with Serving(program, path) as serving:
        yield from goes(serving, [("PUT", I, SYNC, 201, "{}")])
    to = place_in(folder)
    with open(to, "wb") as file:
        file.write(b"kept")
    before = state_of(to)
    yield "a file is there", ends(program, path, to), cannot("already there", to)
    yield "it stays as it is", state_of(to), before
    yield "the file itself", ends(program, path, path), cannot("already there", path)
    link = place_in(folder)
    os.symlink("nowhere", link)
    yield "a link is there", ends(program, path, link), cannot("already there", link)
    yield "only the link", beside(link), ["copy.db"]
    drafted = place_in(folder)
    with open(drafted + "-new", "wb") as file:
        file.write(b"kept")
    before = state_of(drafted)
    yield "a draft is there", ends(program, path, drafted), cannot("already there", drafted + "-new")
    yield "the draft stays", state_of(drafted), before
    lost = os.path.join(folder, "no", "copy.db")
    yield "no folder", ends(program, path, lost), cannot("cannot make", lost)
    yield "no name", ends(program, path, ""), cannot("cannot make", "")
    yield "a name with another meaning", ends(program, path, ":memory:", cwd=folder), cannot("cannot make", ":memory:")
    full = place_in(folder)
    limit = {"preexec_fn": lambda: resource.setrlimit(resource.RLIMIT_FSIZE, (1000, 1000)), "restore_signals": False}
    yield "too large for the disk", ends(program, path, full, **limit), cannot("cannot make", full)
    yield "nothing is left of it", beside(full), []
    mute = place_in(folder)
    with open("/dev/full", "wb") as output:
        status, _, errors = ends(program, path, mute, stdout=output)
    yield "no standard output", (status, errors), (1, b"osb-broker: cannot write\n")
    yield "nothing stays of it", beside(mute), []
    if os.geteuid():
        passed_over("backup", "a folder of another user", "root")
    else:
        barred = place_in(folder)
        for at_path in (folder, os.path.dirname(path), os.path.dirname(barred)):
            os.chmod(at_path, 0o755)
        for ending in ("", "-wal"):
            os.chmod(path + ending, 0o666)
        # (where it is, another user may not be let in)
        its_copy = shutil.copy(program, folder)
        nobody = {"preexec_fn": lambda: os.setuid(65534)}
        yield "a folder of another user", ends(its_copy, path, barred, **nobody), cannot("cannot make", barred)
        yield "nothing is in it", beside(barred), []


def try_words(program, folder):
    """Both words have to be there."""
    path, to = new_database(folder), place_in(folder)
    for words in ((), (path,), (path, to, to)):
        status, output, errors = ends(program, *words)
        yield f"{len(words)} words", (status, output, b"Usage: osb-broker backup FILE TO" in errors), (2, b"", True)
    status, output, errors = ends(program, "--help")
    yield "its help", (status, b"needs no log" in output, errors), (0, True, b"")
    yield "nothing is made", beside(to), []


def tries(program):
    with tempfile.TemporaryDirectory() as folder:
        yield from try_stopped(program, folder)
        yield from try_served(program, folder)
        yield from try_before(program, folder)
        yield from try_refused(program, folder)
        yield from try_in_use(program, folder)
        yield from try_places(program, folder)
        yield from try_words(program, folder)
        yield from try_load(program, folder)


if __name__ == "__main__":
    sys.exit(tell("backup", tries(os.path.abspath(sys.argv[1]))))
