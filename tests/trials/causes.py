#!/usr/bin/env python3
"""Tries what `serve --explain` says where nothing can be served, and `check --database` of the same file: each cause of a
database file, of an address and of settings. Without the option only the first line is said.

usage: tests/trials/causes.py PROGRAM
"""

import contextlib
import functools
import os
import pathlib
import shutil
import socket
import sqlite3
import subprocess
import sys
import tempfile

sys.path.append(os.path.join(os.path.dirname(os.path.abspath(__file__)), "..", "lib"))

from conversations import I, SYNC, request
from database import CUT_OFF, copied, fill, made_before, run, small_disk
from serving import ROOT, SETTINGS, Serving, new_database, passed_over, tell

REFUSED, NOT_OURS = "database: 1 Refused\n", "database: 2 NotOurs\n"
NOBODY = 65534
MISTAKES = pathlib.Path(ROOT) / "tests" / "trials" / "mistakes"
# The last port to which not every user has a right, and a port below it that the trial takes for that.
PORTS = pathlib.Path("/proc/sys/net/ipv4/ip_unprivileged_port_start")
LOW_PORT = 81


def ended(program, *words, user=None):
    """The status, standard output and standard error of the program, as this user."""
    given = {"user": user, "group": user, "extra_groups": []} if user else {}
    done = subprocess.run([program, *words], capture_output=True, text=True, timeout=60, **given)
    return done.returncode, done.stdout, done.stderr


def served(program, path, *more, listen="127.0.0.1:0", settings=SETTINGS, user=None):
    words = ["serve", "--settings", settings, "--database", path, "--listen", listen, *more]
    return ended(program, *words, user=user)


def refuses(program, name, path, cause, fault=REFUSED, checked=None, user=None):
    """A file from which nothing is served, and what `check` says of it, if that isn't the same."""
    yield f"{name}, explained", served(program, path, "--explain", user=user), (1, "", f"{fault}{cause}\n")
    yield name, served(program, path, user=user), (1, "", fault)
    checked = (1, "", f"{fault}{cause}\n") if checked is None else checked
    yield f"{name}, checked", ended(program, "check", "--database", path, user=user), checked


def folder_for_all(folder):
    """A folder of its own that every user may read and write."""
    made = tempfile.mkdtemp(dir=folder)
    os.chmod(made, 0o777)
    return made


def try_places(program, folder):
    """Where the file lies, and what is there."""
    yield from refuses(program, "no folder", os.path.join(folder, "none", "broker.db"), "no such folder")
    link = new_database(folder)
    os.symlink(os.path.join(folder, "nowhere"), link)
    yield from refuses(program, "a link that leads nowhere", link, "a link that leads nowhere")
    long = os.path.join(folder_for_all(folder), "n" * 248)
    yield from refuses(program, "a long name", long, "its name is too long")
    yield "nothing is made of it", os.listdir(os.path.dirname(long)), []
    with Serving(program, long[:-1]):
        yield "a name that isn't too long", os.path.exists(long[:-1] + "-wal"), True
    yield from refuses(program, "a folder", folder, "a folder")
    yield from refuses(program, "a device", "/dev/null", "no regular file")
    orphan = new_database(folder)
    with open(orphan + "-wal", "wb") as file:
        file.write(bytes(1000))
    yield from refuses(program, "a log without its file", orphan, "a log without its file")


def try_files(program, folder, path):
    """A file that can't be opened, and its bytes."""
    named, journalled = copied(path, folder), copied(path, folder)
    os.link(named, named + "-too")
    yield from refuses(program, "a second name", named, "it has two names")
    subprocess.run([sys.executable, "-c", CUT_OFF, journalled], check=True)
    yield from refuses(program, "a journal", journalled, "a journal lies beside it")
    text, damaged = new_database(folder), copied(path, folder)
    pathlib.Path(text).write_bytes(b"no database\n" * 100)
    yield from refuses(program, "a text", text, "no database")
    yield "nothing is left beside a text", os.listdir(os.path.dirname(text)), [os.path.basename(text)]
    run(damaged, "VACUUM")
    with open(damaged, "r+b") as file:
        file.seek(1024)
        file.write(bytes(1024))
    yield from refuses(program, "damage", damaged, "damaged")


def try_in_use(program, folder, path):
    """A file that another program has open. A look at it needs no lock, so it says what is in the file."""
    counts = (0, "instances 1, bindings 0, running 0\n", "")
    with Serving(program, path):
        yield from refuses(program, "another broker", path, "in use", checked=counts)
    other = copied(path, folder)
    with contextlib.closing(sqlite3.connect(other, isolation_level=None)) as connection:
        connection.execute("PRAGMA locking_mode=EXCLUSIVE")
        connection.execute("BEGIN EXCLUSIVE")
        yield from refuses(program, "sqlite3", other, "in use", checked=counts)


def try_users(program, folder, path):
    """Files and folders of another user."""
    if os.geteuid():
        return passed_over("causes", "files of another user", "root")
    counts = (0, "instances 1, bindings 0, running 0\n", "")
    own = {name: folder_for_all(folder) for name in ("shut", "owned", "read", "given")}
    files = {name: shutil.copy(path, made) for name, made in own.items()}
    os.chmod(own["shut"], 0o755)
    empty = os.path.join(own["shut"], "new.db")
    no_file = (1, "", REFUSED + "no such file\n")
    yield from refuses(program, "a folder of another user", empty, "its folder can't be written to", checked=no_file, user=NOBODY)
    os.chmod(files["owned"], 0o600)
    yield from refuses(program, "a file of another user", files["owned"], "it belongs to another user", user=NOBODY)
    os.chmod(files["read"], 0o444)
    yield from refuses(program, "a file that can only be read", files["read"], "it can't be written to", checked=counts, user=NOBODY)
    explained = ended(program, "check", "--explain", "--database", files["read"], user=NOBODY)
    yield "it is checked and explained", explained, (0, counts[1] + "a start is refused: it can't be written to\n", "")
    os.chown(files["given"], NOBODY, NOBODY)
    os.chmod(files["given"], 0)
    yield from refuses(program, "a file that can't be read", files["given"], "it can't be read", user=NOBODY)
    os.chmod(files["given"], 0o600)
    os.chmod(own["given"], 0o755)
    yield from refuses(program, "a log that can't be made", files["given"], "its folder can't be written to", checked=counts, user=NOBODY)


def try_disks(program, folder, path):
    """A disk without room, and one that can only be read."""
    with small_disk(folder) as (disk, lacking):
        if lacking:
            passed_over("causes", "a full disk", "mount", why=lacking)
            return
        kept = shutil.copy(path, disk)
        fill(os.path.join(disk, "filling"))
        new, fresh = (0, "new\n", ""), os.path.join(disk, "new.db")
        yield from refuses(program, "a full disk", fresh, "disk full", checked=new)
        os.remove(os.path.join(disk, "filling"))
        subprocess.run(["mount", "-o", "remount,ro", disk], check=True)
        counts = (0, "instances 1, bindings 0, running 0\n", "")
        yield from refuses(program, "a read-only file system", kept, "a read-only file system", checked=counts)
        fresh = os.path.join(disk, "newer.db")
        yield from refuses(program, "a new file on it", fresh, "a read-only file system", checked=(1, "", REFUSED + "no such file\n"))


def try_others(program, folder, path):
    """Databases that aren't those of this broker. Nothing is left beside them."""
    cases = [
        ("another program", "the tables of another program", new_database(folder), ["CREATE TABLE orders (a)"]),
        ("a newer version", "version 3: newer", copied(path, folder), ["UPDATE format SET version = 3"]),
        ("a table more", "a table more: more", copied(path, folder), ["CREATE TABLE more (a)"]),
        ("an index more", "an index more: more", copied(path, folder), ["CREATE INDEX more ON orders (seq)"]),
        ("a forged name", "an index more: ?", copied(path, folder), ['CREATE INDEX "a\nb" ON orders (seq)']),
        ("a view more", "a view more: more", copied(path, folder), ["CREATE VIEW more AS SELECT 1"]),
        ("a table less", "the tables of another program", copied(path, folder), ["DROP TABLE bindings"]),
        ("a column more", "the tables of another program", copied(path, folder), ["ALTER TABLE format ADD COLUMN a INTEGER"]),
        ("other rows", "rows that don't fit", copied(path, folder), ["DELETE FROM instances"]),
        ("no version", "rows that don't fit", copied(path, folder), ["DELETE FROM format"]),
        ("a text that isn't UTF-8", "rows that don't fit", copied(path, folder), ["UPDATE orders SET note = CAST(x'ff' AS TEXT)"]),
        ("other rows of version 1", "rows that don't fit", made_before(folder, 2), ["DELETE FROM instances"]),
    ]
    for name, cause, database, statements in cases:
        run(database, *statements)
        before = pathlib.Path(database).read_bytes()
        left = sorted(os.listdir(os.path.dirname(database)))
        yield from refuses(program, name, database, cause, NOT_OURS)
        yield f"{name}: the file stays", pathlib.Path(database).read_bytes(), before
        yield f"{name}: nothing is left beside it", sorted(os.listdir(os.path.dirname(database))), left


def try_taken_away(program, folder):
    """A file that is taken away while it is served from."""
    for more, said in ((["--explain"], REFUSED + "it was taken away\n"), ([], REFUSED)):
        path = new_database(folder)
        with Serving(program, path, *more) as serving:
            os.rename(path, path + "-away")
            serving.sends(request("PUT", I, SYNC))
            status, _, errors = serving.ended()
            yield f"taken away {more}", (status, errors.decode()), (1, "database: new\n" + said)


def try_addresses(program, folder):
    """Addresses at which no connection can be taken. A database is begun before each."""
    with socket.create_server(("127.0.0.1", 0)) as taken:
        cases = [(it, "not an IP address and a port") for it in ("nowhere", "localhost:8080", ":8080", "8080", "::1:8080", "127.0.0.1")]
        cases += [("127.0.0.1:%d" % taken.getsockname()[1], "in use"), ("192.0.2.1:8080", "not an address of this machine")]
        for address, cause in cases:
            first = f"database: new\nosb-broker: cannot listen on {address}\n"
            begun = functools.partial(served, program, listen=address)
            yield f"{address}, explained", begun(new_database(folder), "--explain"), (1, "", f"{first}{cause}\n")
            yield address, begun(new_database(folder)), (1, "", first)
    if os.geteuid() or int(PORTS.read_text()) <= LOW_PORT:
        return passed_over("causes", "a port that not every user may take", "root")
    path = os.path.join(folder_for_all(folder), "broker.db")
    found = served(program, path, "--explain", listen=f"127.0.0.1:{LOW_PORT}", user=NOBODY)
    first = f"database: new\nosb-broker: cannot listen on 127.0.0.1:{LOW_PORT}\n"
    yield "a low port", found, (1, "", first + "no right to this port\n")


def try_settings(program, folder):
    """What `check --explain` says of settings, `serve --explain` says, too."""
    refused = [it for it in sorted(MISTAKES.glob("*.json")) if it.with_suffix(".said").read_text().startswith("settings: ")]
    yield "there are so many", len(refused) >= 10, True
    for file in refused:
        said = file.with_suffix(".said").read_text()
        first = said.partition("\n")[0] + "\n"
        yield f"{file.stem}, explained", served(program, new_database(folder), "--explain", settings=file), (3, "", said)
        yield file.stem, served(program, new_database(folder), settings=file), (3, "", first)


def tries(program):
    with tempfile.TemporaryDirectory() as folder:
        os.chmod(folder, 0o755)
        path = new_database(folder)
        with Serving(program, path) as serving:
            serving.sends(request("PUT", I, SYNC))
        # (the log is copied into the file)
        run(path, "VACUUM")
        yield from try_places(program, folder)
        yield from try_files(program, folder, path)
        yield from try_in_use(program, folder, path)
        yield from try_users(program, folder, path)
        yield from try_disks(program, folder, path)
        yield from try_others(program, folder, path)
        yield from try_taken_away(program, folder)
        yield from try_addresses(program, folder)
        yield from try_settings(program, folder)


if __name__ == "__main__":
    sys.exit(tell("causes", tries(os.path.abspath(sys.argv[1]))))
