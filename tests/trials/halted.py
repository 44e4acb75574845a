#!/usr/bin/env python3
"""Halts each command of the built program that opens a database before each of its calls that look at a file, lock it or
change it, and runs each other command to its end meanwhile. What was there before is there at the end, with all that was
answered.

usage: tests/trials/halted.py PROGRAM
"""

import itertools
import os
import select
import shutil
import signal
import subprocess
import sys
import tempfile
from concurrent.futures import ThreadPoolExecutor
from functools import partial

sys.path.append(os.path.join(os.path.dirname(os.path.abspath(__file__)), "..", "lib"))

from conversations import SYNC, at, reply, request
from database import MADE_BEFORE, goes, made_before, run
from serving import Serving, environment_with, side_by_side, tell

COMMANDS = ("serve", "trim", "backup", "check")
# More calls than a command makes before it is done or serves.
MOST_CALLS = 1000
SECONDS = 60
CREATED, THERE = reply(201, "{}"), reply(200, "{}")


def begin(program, command, path, **process):
    """Begins a command over a database file, which is in a folder of its own."""
    if command == "serve":
        return Serving(program, path, **process)
    words = {"backup": ["backup", path, path + ".copy"], "check": ["check", "--database", path], "trim": ["trim", path]}[command]
    return subprocess.Popen([program, *words], stdout=subprocess.PIPE, stderr=subprocess.PIPE, **process)


def process_of(command):
    return getattr(command, "process", command)


def is_halted(command):
    """Waits until a command halts. It doesn't if it ends, or has said something before."""
    process = process_of(command)
    while True:
        with open(f"/proc/{process.pid}/stat", encoding="ascii") as file:
            state = file.read().rpartition(") ")[2][0]
        if state in "TZ" or select.select([process.stdout], [], [], 0.005)[0]:
            return state == "T"


def end(command, instance):
    """Runs a command to its end; one that serves makes an instance before. Whether that was answered."""
    if not isinstance(command, Serving):
        command.communicate(timeout=SECONDS)
        return False
    if not command.listens():
        return False
    found = command.sends(request("PUT", at(instance), SYNC))
    command.kill()
    return found == CREATED


def what_is_left(program, path, answered):
    """What isn't there of what was before, and of the instances that were answered; nothing if all is."""
    serving = Serving(program, path)
    if not serving.listens():
        return f"a start ends: {serving.ended()}"
    try:
        wrong = [name for name, found, expected in goes(serving, MADE_BEFORE) if found != expected]
        lost = [it for it in answered if serving.sends(request("PUT", at(it), SYNC)) != THERE]
    finally:
        serving.kill()
    return f"wrong: {wrong}, lost: {lost}" if wrong or lost else ""


def beside(program, before, environment, halted, other, number):
    """What isn't there once a command was halted before this call, while the other one ran; None if it wasn't halted."""
    with tempfile.TemporaryDirectory() as folder:
        path = os.path.join(folder, "broker.db")
        shutil.copy(before, path)
        first = begin(program, halted, path, env={**environment, "HALT": str(number)})
        if not is_halted(first):
            process_of(first).kill()
            process_of(first).communicate()
            return None
        made = [("second", end(begin(program, other, path), "second"))]
        process_of(first).send_signal(signal.SIGCONT)
        made.append(("first", end(first, "first")))
        return what_is_left(program, path, [name for name, answered in made if answered])


def each_call(program, before, environment, version, halted, other):
    """Each call of a command in turn."""
    wrong, count = [], 0
    for number in range(1, MOST_CALLS):
        left = beside(program, before, environment, halted, other, number)
        if left is None:
            break
        count += 1
        wrong += [(number, left)] if left else []
    yield f"{halted} of {version} halted beside {other}", (wrong, count > 5), ([], True)


def without_an_index(program, folder):
    """A file of version 2 that lacks an index, which a start makes."""
    path = made_before(folder, 1)
    with Serving(program, path):
        pass
    run(path, "DROP INDEX subject_orders")
    return path


def tries(program):
    with tempfile.TemporaryDirectory() as folder, ThreadPoolExecutor(os.cpu_count()) as pool:
        environment = environment_with(folder, "halts")
        files = {"version 1": made_before(folder, 1), "version 2": without_an_index(program, folder)}
        parts = [
            partial(each_call, program, before, environment, version, halted, other)
            for (version, before), halted, other in itertools.product(files.items(), COMMANDS, COMMANDS)
        ]
        yield from side_by_side(pool, parts)


if __name__ == "__main__":
    sys.exit(tell("halted", tries(os.path.abspath(sys.argv[1]))))
