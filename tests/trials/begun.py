#!/usr/bin/env python3
"""Stops a first start of the built program at each of its calls that change a file, and starts it again.

usage: tests/trials/begun.py PROGRAM

A first start begins a database where no file is, in an empty file, or brings a file of version 1 to version 2.
`stops.c`, loaded before the C library, kills it before one of these calls, or behind it with half of what is
written; each call in turn, until one start takes connections. The next start serves as if none had been before.
"""

import os
import shutil
import sys
import tempfile
from collections.abc import Callable
from dataclasses import dataclass

sys.path.append(os.path.join(os.path.dirname(os.path.abspath(__file__)), "..", "lib"))

from conversations import I, SYNC
from database import FETCHED, MADE_BEFORE, goes, made_before
from serving import Serving, environment_with, new_database, tell

# More calls than a start makes.
MOST_CALLS = 1000
FILES = ["broker.db", "broker.db-wal"]
BEGUN = [("PUT", I, SYNC, 201, "{}"), ("GET", I, "", 200, FETCHED)]
KEPT = [("PUT", I, SYNC, 200, "{}"), ("GET", I, "", 200, FETCHED)]


def leave_none(_):
    """No file is there."""


def leave_empty(path):
    open(path, "wb").close()


@dataclass
class Beginning:
    """What a first start finds, and what is answered by the next one and by the one behind it."""

    name: str
    put: Callable
    second: list
    third: list


def beginnings(folder):
    before = made_before(folder, 1)
    yield Beginning("no file", leave_none, BEGUN, KEPT)
    yield Beginning("an empty file", leave_empty, BEGUN, KEPT)
    yield Beginning("version 1", lambda path: shutil.copy(before, path), MADE_BEFORE, MADE_BEFORE)


def is_stopped(program, path, environment, number, part):
    """Stops a start at this call. False where it takes connections before."""
    more = {"PART": "1"} if part else {}
    serving = Serving(program, path, env={**environment, "STOP": str(number), **more})
    listens = serving.listens()
    serving.kill()
    return not listens


def goes_on(program, path, name, beginning):
    """What the two starts behind a stopped one answer, and which files they leave."""
    for conversation in (beginning.second, beginning.third):
        again = Serving(program, path)
        listens = again.listens()
        yield f"{name}: a start behind it", listens or again.ended(), True
        if listens:
            yield from ((f"{name}: {target}", found, expected) for target, found, expected in goes(again, conversation))
        again.kill()
    yield f"{name}: the files", sorted(os.listdir(os.path.dirname(path))), FILES


def try_beginning(program, folder, environment, beginning, part):
    for number in range(1, MOST_CALLS):
        path = new_database(folder)
        beginning.put(path)
        stopped = is_stopped(program, path, environment, number, part)
        name = f"{beginning.name}, stopped {'in' if part else 'before'} call {number}"
        yield from goes_on(program, path, name, beginning)
        if not stopped:
            break
    yield f"{beginning.name}: calls", number > 10, True


def tries(program):
    with tempfile.TemporaryDirectory() as folder:
        environment = environment_with(folder, "stops")
        for beginning in beginnings(folder):
            for part in (False, True):
                yield from try_beginning(program, folder, environment, beginning, part)


if __name__ == "__main__":
    sys.exit(tell("begun", tries(os.path.abspath(sys.argv[1]))))
